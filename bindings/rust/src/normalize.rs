//! Normalize, from one slice into another and in place.

use crate::ffi;
use crate::guard::guarded;
use crate::refusal::Refusal;

/// The settings of [`normalize`]. The default changes nothing but the sign of a -0, which becomes +0.
#[derive(Clone, Copy, Debug, PartialEq)]
pub struct Normalize<'a> {
    /// Subtracted first; the mean of the data, as a rule.
    pub pre_scale_bias: f32,
    /// Multiplied; one by the standard deviation, as a rule.
    pub scale: f32,
    /// Added last.
    pub bias: f32,
    /// A scale for each element, if any.
    pub element_scale: Option<&'a [f32]>,
    /// A bias for each element, if any.
    pub element_bias: Option<&'a [f32]>,
}

impl Default for Normalize<'_> {
    fn default() -> Self {
        Normalize { pre_scale_bias: 0.0, scale: 1.0, bias: 0.0, element_scale: None, element_bias: None }
    }
}

/// A slice as the C function takes it; an absent one is not looked at.
fn lent(slice: Option<&[f32]>) -> (bool, *const f32, usize) {
    let (present, slice) = (slice.is_some(), slice.unwrap_or_default());
    (present, slice.as_ptr(), slice.len())
}

/// (x - `pre_scale_bias`) times (`element_scale` times `scale`), plus (`element_bias` plus `bias`), from `src` into `dst`.
///
/// Each step is rounded once. With a scale for each element, no bias for each element and `bias` zero nothing is added, so a -0
/// product stays -0. Domain: finite, the elements and each slice of the settings. Empty slices succeed.
///
/// # Errors
///
/// The first that holds; `dst` then stays as it was.
///
/// - 1 [`Refusal::Length`]: `dst` or a slice of the settings is not as long as `src`.
/// - 2 [`Refusal::TooMany`]: over 16,384 elements.
/// - 3 [`Refusal::NotFinite`]: `pre_scale_bias`, `scale` or `bias` is not finite.
/// - 4 [`Refusal::Domain`]: a number of `src` or of a slice of the settings is not finite; the place is the lowest such.
/// - 6 [`Refusal::Result`]: a result would be NaN; the place is the first such.
///
/// # Example
///
/// ```
/// use masoritun::Normalize;
///
/// let settings = Normalize { pre_scale_bias: 1.0, scale: 2.0, element_bias: Some(&[0.5, -0.5]), ..Normalize::default() };
/// let mut dst = [0.0; 2];
/// masoritun::normalize(&settings, &[3.0, 1.0], &mut dst)?;
/// assert_eq!(dst, [4.5, -0.5]); // (3 - 1) 2 + 0.5, and (1 - 1) 2 - 0.5
/// # Ok::<(), masoritun::Refusal>(())
/// ```
pub fn normalize(settings: &Normalize<'_>, src: &[f32], dst: &mut [f32]) -> Result<(), Refusal> {
    let &Normalize { pre_scale_bias, scale, bias, element_scale, element_bias } = settings;
    let (has_scale, scales, ns) = lent(element_scale);
    let (has_bias, biases, nb) = lent(element_bias);
    let (from, n, into, m) = (src.as_ptr(), src.len(), dst.as_mut_ptr(), dst.len());
    // SAFETY: slices with their lengths; `dst` is borrowed alone, so none overlaps it.
    guarded(|| unsafe {
        ffi::mst_normalize(pre_scale_bias, scale, bias, has_scale, scales, ns, has_bias, biases, nb, from, n, into, m)
    })
}

/// [`normalize`] of `data` into itself, by the same definition.
///
/// # Errors
///
/// Those of [`normalize`]; `data` then stays as it was.
///
/// # Example
///
/// ```
/// use masoritun::Normalize;
///
/// let mut data = [-0.0, 2.0];
/// masoritun::normalize_in_place(&Normalize { element_scale: Some(&[1.0, 3.0]), ..Normalize::default() }, &mut data)?;
/// assert_eq!(data.map(f32::to_bits), [-0.0, 6.0].map(f32::to_bits)); // nothing is added, so -0 stays
/// # Ok::<(), masoritun::Refusal>(())
/// ```
pub fn normalize_in_place(settings: &Normalize<'_>, data: &mut [f32]) -> Result<(), Refusal> {
    let &Normalize { pre_scale_bias, scale, bias, element_scale, element_bias } = settings;
    let (has_scale, scales, ns) = lent(element_scale);
    let (has_bias, biases, nb) = lent(element_bias);
    let (at, n) = (data.as_mut_ptr(), data.len());
    // SAFETY: slices with their lengths; `data` is borrowed alone, so none overlaps it.
    guarded(|| unsafe {
        ffi::mst_normalize_in_place(pre_scale_bias, scale, bias, has_scale, scales, ns, has_bias, biases, nb, at, n)
    })
}
