//! The running meter.

use crate::ffi;
use crate::guard::guarded;
use crate::refusal::Refusal;

/// The count of the samples fed, the overs among them, their sum of squares, the least and the largest.
///
/// Feeding pieces in order gives the meter of the joined feeding, bit for bit, where the joined one isn't refused.
#[derive(Clone, Copy, Debug, PartialEq)]
pub struct Meter {
    /// How many samples were fed.
    pub count: u32,
    /// How many of them were of full scale: a size of at least 1.0. Never more than the count.
    pub overs: u32,
    /// Their squares, each rounded, added in order.
    pub sum_squares: f32,
    /// The least of them, +infinity before any.
    pub least: f32,
    /// The largest of them, -infinity before any.
    pub largest: f32,
}

impl Meter {
    /// The meter before any sample: 0, 0, +0, +infinity, -infinity.
    ///
    /// ```
    /// use masoritun::Meter;
    ///
    /// let start = Meter { count: 0, overs: 0, sum_squares: 0.0, least: f32::INFINITY, largest: f32::NEG_INFINITY };
    /// assert_eq!(Meter::new(), start);
    /// assert_eq!(Meter::default(), start);
    /// ```
    pub const fn new() -> Self {
        Meter { count: 0, overs: 0, sum_squares: 0.0, least: f32::INFINITY, largest: f32::NEG_INFINITY }
    }

    /// Feeds samples. Domain: finite.
    ///
    /// # Errors
    ///
    /// The first that holds; the meter then stays as it was.
    ///
    /// - 2 [`Refusal::TooMany`]: over 16,384 samples, or the count would pass 4,294,967,295.
    /// - 3 [`Refusal::NotFinite`]: a float of the meter is NaN, its sum of squares is below zero, or it has more overs than samples.
    /// - 4 [`Refusal::Domain`]: a sample is not finite; the place is the first such.
    ///
    /// # Example
    ///
    /// ```
    /// let mut meter = masoritun::Meter::new();
    /// meter.feed(&[3.0])?;
    /// meter.feed(&[-4.0, 0.5])?;
    /// assert_eq!(meter, masoritun::Meter { count: 3, overs: 2, sum_squares: 25.25, least: -4.0, largest: 3.0 });
    /// # Ok::<(), masoritun::Refusal>(())
    /// ```
    pub fn feed(&mut self, samples: &[f32]) -> Result<(), Refusal> {
        let Meter { count, overs, sum_squares, least, largest } = self;
        // SAFETY: five numbers and a slice with its length; `self` is borrowed alone, so they do not overlap.
        guarded(|| unsafe { ffi::mst_meter_feed(count, overs, sum_squares, least, largest, samples.as_ptr(), samples.len()) })
    }
}

impl Default for Meter {
    fn default() -> Self {
        Self::new()
    }
}
