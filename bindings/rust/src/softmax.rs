//! Softmax, from one slice into another and in place.

use crate::ffi;
use crate::guard::guarded;
use crate::refusal::Refusal;

/// Softmax of `src` into `dst`: each `ReducedRangeExp` of x minus the maximum, times the reciprocal of their sum.
///
/// Domain: finite or minus infinity (masked). Every weight lies between 0 and 1, and is +0 where masked. With `flush` an all-masked
/// `src` gives zeros. Empty slices succeed.
///
/// For the monitor path: the weights of n elements, not all masked, added up exactly differ from 1 by at most (n + 2) * 2^-24,
/// 0.000004 for 64. Gains that make exactly the whole are those of [`split`](crate::split).
///
/// # Errors
///
/// The first that holds; `dst` then stays as it was.
///
/// - 1 [`Refusal::Length`]: `src` and `dst` differ in length.
/// - 2 [`Refusal::TooMany`]: over 16,384 elements.
/// - 4 [`Refusal::Domain`]: an element is NaN or plus infinity; the place is the first such.
/// - 5 [`Refusal::Masked`]: one or more elements, all masked, and `flush` off.
///
/// # Example
///
/// ```
/// let mut weights = [0.0; 3];
/// masoritun::softmax(false, &[1.0, f32::NEG_INFINITY, 1.0], &mut weights)?;
/// assert_eq!(weights, [0.5, 0.0, 0.5]); // exponentials 1, 0, 1, and their sum 2
/// # Ok::<(), masoritun::Refusal>(())
/// ```
pub fn softmax(flush: bool, src: &[f32], dst: &mut [f32]) -> Result<(), Refusal> {
    // SAFETY: two slices with their lengths; `dst` is borrowed alone, so they do not overlap.
    guarded(|| unsafe { ffi::mst_softmax(flush, src.as_ptr(), src.len(), dst.as_mut_ptr(), dst.len()) })
}

/// [`softmax`] of `data` into itself, by the same definition.
///
/// # Errors
///
/// Those of [`softmax`] but for 1; `data` then stays as it was.
///
/// # Example
///
/// ```
/// let mut data = [f32::NEG_INFINITY; 2];
/// assert_eq!(masoritun::softmax_in_place(false, &mut data), Err(masoritun::Refusal::Masked));
/// masoritun::softmax_in_place(true, &mut data)?;
/// assert_eq!(data, [0.0, 0.0]); // all masked, flushed
/// # Ok::<(), masoritun::Refusal>(())
/// ```
pub fn softmax_in_place(flush: bool, data: &mut [f32]) -> Result<(), Refusal> {
    // SAFETY: a slice with its length.
    guarded(|| unsafe { ffi::mst_softmax_in_place(flush, data.as_mut_ptr(), data.len()) })
}
