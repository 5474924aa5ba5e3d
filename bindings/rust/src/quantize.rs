//! Quantize to u8.

use crate::ffi;
use crate::guard::guarded;
use crate::refusal::Refusal;

/// Codes of `src` into `dst`: x times `inv_scale`, to the nearest whole number (ties to even), plus `zero_point`, held to 0..255.
///
/// Domain: finite. A product of any size saturates. Empty slices succeed.
///
/// # Errors
///
/// The first that holds; `dst` then stays as it was.
///
/// - 1 [`Refusal::Length`]: `src` and `dst` differ in length.
/// - 2 [`Refusal::TooMany`]: over 16,384 elements.
/// - 3 [`Refusal::NotFinite`]: `inv_scale` is not finite.
/// - 4 [`Refusal::Domain`]: an element is not finite; the place is the first such.
///
/// # Example
///
/// ```
/// let mut codes = [0; 5];
/// masoritun::quantize(1.0, 0, &[0.5, 1.5, 2.5, -1.0, 300.0], &mut codes)?;
/// assert_eq!(codes, [0, 2, 2, 0, 255]); // document 01's worked case
/// # Ok::<(), masoritun::Refusal>(())
/// ```
pub fn quantize(inv_scale: f32, zero_point: u8, src: &[f32], dst: &mut [u8]) -> Result<(), Refusal> {
    // SAFETY: two slices with their lengths; `dst` is borrowed alone, so they do not overlap.
    guarded(|| unsafe { ffi::mst_quantize(inv_scale, zero_point, src.as_ptr(), src.len(), dst.as_mut_ptr(), dst.len()) })
}
