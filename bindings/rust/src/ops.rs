//! The twelve operators: from one slice into another, element by element.

use crate::ffi;
use crate::guard::guarded;
use crate::refusal::Refusal;

/// A line for each operator: its name and own alpha, its C function, its domain, what it is, an example of two elements and why.
macro_rules! operators {
    ($($name:ident($($alpha:ident)?) $call:ident $domain:literal $about:literal
        $example:literal => $want:literal $why:literal;)*) => {$(
        #[doc = concat!($about, "\n\n")]
        #[doc = concat!("Domain: ", $domain, ". Empty slices succeed.\n\n")]
        /// # Errors
        ///
        /// The first that holds; `dst` then stays as it was.
        ///
        /// - 1 [`Refusal::Length`]: `src` and `dst` differ in length.
        /// - 2 [`Refusal::TooMany`]: over 16,384 elements.
        $(#[doc = concat!("- 3 [`Refusal::NotFinite`]: `", stringify!($alpha), "` is not finite.")])?
        /// - 4 [`Refusal::Domain`]: an element is outside the domain; the place is the first such.
        ///
        /// # Example
        ///
        /// ```
        /// let mut dst = [0.0; 2];
        #[doc = concat!("masoritun::", stringify!($name), "(", $example, ", &mut dst)?;")]
        #[doc = concat!("// ", $why)]
        #[doc = concat!("assert_eq!(dst.map(f32::to_bits), ", $want, ".map(f32::to_bits));")]
        /// # Ok::<(), masoritun::Refusal>(())
        /// ```
        pub fn $name($($alpha: f32,)? src: &[f32], dst: &mut [f32]) -> Result<(), Refusal> {
            // SAFETY: two slices with their lengths; `dst` is borrowed alone, so they do not overlap.
            guarded(|| unsafe { ffi::$call($($alpha,)? src.as_ptr(), src.len(), dst.as_mut_ptr(), dst.len()) })
        }
    )*};
}

operators! {
    exp() mst_exp "finite"
        "`Exp`: e to the power of each element. At or above 104 it is +infinity, at or below -104 it is +0."
        "&[104.0, -104.0]" => "[f32::INFINITY, 0.0]" "Document 01's worked cases.";
    reduced_range_exp() mst_reduced_range_exp "finite and at most zero"
        "`ReducedRangeExp`: e to the power of each element, +0 strictly below the cutoff (about -87.67)."
        "&[0.0, -88.0]" => "[1.0, 0.0]" "Document 01's worked case for 0; -88 is below the cutoff.";
    sigmoid() mst_sigmoid "finite"
        "`Sigmoid`: 1 / (1 + `Exp` of -x)."
        "&[0.0, 104.0]" => "[0.5, 1.0]" "1 / (1 + 1), and 1 / (1 + 0) because `Exp` of -104 is +0.";
    silu() mst_silu "finite"
        "`Silu`: x / (1 + `Exp` of -x): x divided by the rounded sum, not x times the sigmoid."
        "&[0.0, 104.0]" => "[0.0, 104.0]" "0 / (1 + 1), and 104 / (1 + 0) because `Exp` of -104 is +0.";
    swish(alpha) mst_swish "finite"
        "`Swish`: x times the sigmoid of alpha times x."
        "0.0, &[3.0, -1.0]" => "[1.5, -0.5]" "With alpha 0 the sigmoid is a half everywhere.";
    elu(alpha) mst_elu "finite"
        "`Elu`: x where it is at least zero, else alpha (e^x - 1)."
        "2.0, &[3.0, -104.0]" => "[3.0, -2.0]" "3 stays; `Exp` of -104 is +0, so the second is 2 (0 - 1).";
    tanh() mst_tanh "finite"
        "`Tanh`: the hyperbolic tangent, with the sign of x: +0 gives +0, and -0 gives -0."
        "&[-0.0, 10.0]" => "[-0.0, 1.0]" "A zero keeps its sign; from 9.02 on it is 1.";
    erf() mst_erf "finite"
        "`Erf`: the error function."
        "&[10.0, -10.0]" => "[1.0, -1.0]" "e^-100 is below the cutoff, so 1 less nothing is left.";
    gelu() mst_gelu "finite"
        "`Gelu`: half of x, times 1 plus `Erf` of x times 1/root 2."
        "&[20.0, -20.0]" => "[20.0, -0.0]" "erf is 1 and -1 there: 10 (1 + 1), and -10 times +0.";
    approx_gelu() mst_approx_gelu "finite"
        "`ApproxGelu`: half of x, times 1 plus tanh of 0.79788456 (x + 0.044715 x^3)."
        "&[20.0, -20.0]" => "[20.0, -0.0]" "tanh is 1 and -1 there: 10 (1 + 1), and -10 times +0.";
    sin() mst_sin "finite and below 48,000 in size"
        "`Sin`: the sine. By rounding it reaches 1.0000002 in size."
        "&[0.0, 1e-6]" => "[0.0, 1e-6]" "So small an x has no square that counts, and stays.";
    cos() mst_cos "finite and below 48,000 in size"
        "`Cos`: the cosine. By rounding it reaches 1.0000002 in size, and at 0 it is just below 1."
        "&[0.0, std::f32::consts::FRAC_PI_2]" => "[f32::from_bits(0x3f7ffffe), 0.0]"
        "The first is in docs/DIFFERENCES.md; the second is the sine of pi/2 - pi/2.";
}
