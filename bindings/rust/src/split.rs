//! The split of band levels into whole-number gains.

use crate::ffi;
use crate::guard::guarded;
use crate::refusal::Refusal;

/// Gains of 1 to 64 bands from their levels: whole parts of [`PARTS`](crate::PARTS) that add up to exactly 32768.
///
/// The softmax weights are taken in steps of 2^-30; the parts left over go one each to the largest remainders, equal remainders to
/// the lower band. No list of whole numbers with that total lies nearer to the exact shares. Domain: finite or minus infinity
/// (masked).
///
/// # Errors
///
/// The first that holds, in this order; `gains` then stays as it was.
///
/// - 7 [`Refusal::Count`]: no level, or over 64.
/// - 1 [`Refusal::Length`]: `gains` is not as long as `levels`.
/// - 4 [`Refusal::Domain`]: a level is NaN or plus infinity; the place is the first such.
/// - 5 [`Refusal::Masked`]: all masked.
///
/// # Example
///
/// ```
/// let mut gains = [0; 3];
/// masoritun::split(&[0.0, f32::NEG_INFINITY, 0.0], &mut gains)?;
/// assert_eq!(gains, [16384, 0, 16384]); // document 01's worked case
/// # Ok::<(), masoritun::Refusal>(())
/// ```
pub fn split(levels: &[f32], gains: &mut [u16]) -> Result<(), Refusal> {
    // SAFETY: two slices with their lengths; `gains` is borrowed alone, so they do not overlap.
    guarded(|| unsafe { ffi::mst_split(levels.as_ptr(), levels.len(), gains.as_mut_ptr(), gains.len()) })
}
