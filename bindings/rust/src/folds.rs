//! The five sums and the extremes of a slice. Each gives what one ordered pass gives: sums add from the first element to the last,
//! and of equal extremes the first stays.

use crate::ffi;
use crate::guard::guarded;
use crate::refusal::Refusal;

/// A line for each that gives one number: its name and own offset, its C function, its domain, what it is, an example and why.
macro_rules! folds {
    ($($name:ident($($offset:ident)?) $call:ident $domain:literal $about:literal
        $example:literal => $want:literal $($why:literal)?;)*) => {$(
        #[doc = concat!($about, "\n\n")]
        #[doc = concat!("Domain: ", $domain, ".\n\n")]
        /// # Errors
        ///
        /// The first that holds.
        ///
        /// - 2 [`Refusal::TooMany`]: over 16,384 elements.
        $(#[doc = concat!("- 3 [`Refusal::NotFinite`]: `", stringify!($offset), "` is not finite.")])?
        /// - 4 [`Refusal::Domain`]: an element is outside the domain; the place is the first such.
        ///
        /// # Example
        ///
        /// ```
        $(#[doc = concat!("// ", $why)])?
        #[doc = concat!("assert_eq!(masoritun::", stringify!($name), "(", $example, "), Ok(", $want, "));")]
        /// ```
        pub fn $name($($offset: f32,)? src: &[f32]) -> Result<f32, Refusal> {
            let mut result = 0.0;
            // SAFETY: a slice with its length, and a number of our own.
            guarded(|| unsafe { ffi::$call($($offset,)? src.as_ptr(), src.len(), &mut result) })?;
            Ok(result)
        }
    )*};
}

folds! {
    sum() mst_sum "finite"
        "The sum, from +0 and from the first element to the last, each step rounded once. Of nothing it is +0."
        "&[1.0, 2.0, 3.5]" => "6.5";
    sum_square() mst_sum_square "finite"
        "The sum of squares: each square rounded, then added. Of nothing it is +0."
        "&[3.0, -4.0]" => "25.0";
    sum_abs() mst_sum_abs "finite"
        "The sum of sizes. Of nothing it is +0."
        "&[1.0, -2.0]" => "3.0";
    sum_square_sub(offset) mst_sum_square_sub "finite"
        "The sum of the squares of x - offset. Of nothing it is +0."
        "1.0, &[3.0, 4.0]" => "13.0";
    sum_exp_sub(offset) mst_sum_exp_sub "finite"
        "The sum of `Exp` of x - offset. Of nothing it is +0."
        "1.0, &[1.0, -103.0, 1.0]" => "2.0" "`Exp` of 0 is 1, of -104 it is +0.";
    max_num() mst_max_num "all but NaN"
        "The largest element; of equal zeros the first met. Of nothing it is -infinity."
        "&[1.0, -2.0]" => "1.0";
    min_num() mst_min_num "all but NaN"
        "The least element; of equal zeros the first met. Of nothing it is +infinity."
        "&[1.0, -2.0]" => "-2.0";
}

/// The least and the largest element; of equal zeros the first met. Of nothing they are +infinity and -infinity.
///
/// Domain: all but NaN.
///
/// Peaks may be gathered in any grouping: [`min_num`] of the chunks' least ones and [`max_num`] of their largest, in the chunks' order,
/// are those of the whole, to the bit, also where the whole is longer than one call takes. In another order they are equal as numbers;
/// a zero may change sign.
///
/// # Errors
///
/// The first that holds.
///
/// - 2 [`Refusal::TooMany`]: over 16,384 elements.
/// - 4 [`Refusal::Domain`]: an element is NaN; the place is the first such.
///
/// # Example
///
/// ```
/// assert_eq!(masoritun::min_max(&[1.0, -2.0, 0.5]), Ok((-2.0, 1.0)));
/// assert_eq!(masoritun::min_max(&[]), Ok((f32::INFINITY, f32::NEG_INFINITY)));
///
/// let (first, second) = (masoritun::min_max(&[1.0, -2.0])?, masoritun::min_max(&[0.5])?);
/// assert_eq!((masoritun::min_num(&[first.0, second.0])?, masoritun::max_num(&[first.1, second.1])?), (-2.0, 1.0));
/// # Ok::<(), masoritun::Refusal>(())
/// ```
pub fn min_max(src: &[f32]) -> Result<(f32, f32), Refusal> {
    let (mut least, mut largest) = (0.0, 0.0);
    // SAFETY: a slice with its length, and two numbers of our own.
    guarded(|| unsafe { ffi::mst_min_max(src.as_ptr(), src.len(), &mut least, &mut largest) })?;
    Ok((least, largest))
}
