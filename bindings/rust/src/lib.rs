//! Masoritun from Rust: f32 kernels, a split of levels into whole-number gains, a running meter and a stored table.
//!
//! Every function is a thin, safe one over a C function of the proved library, and gives its bits. "Document 01" is the build
//! definition that the library is proved against.
//!
//! ```
//! let mut gains = [0; 3];
//! masoritun::split(&[-6.0, -6.0, -6.0], &mut gains)?;
//! assert_eq!(gains, [10923, 10923, 10922]); // document 01's worked case: they add up to 32768, as every split does
//! # Ok::<(), masoritun::Refusal>(())
//! ```
//!
//! - **Refusals.** A call that is refused answers a [`Refusal`], a number with its place, and leaves every lent buffer and meter as it
//!   was. Where several apply, each function says which comes first.
//! - **Lent slices** may not overlap. A `&mut` slice overlaps no other borrow, so here they cannot.
//! - **The float control word.** Each call sets round-to-nearest with no flushing of subnormals if the thread has another word, and
//!   puts that back. A host that flushes on its audio thread gets the same bits.
//! - **Threads.** The library keeps nothing between calls and allocates nothing. Any thread may call at any time.

#![deny(missing_docs)]

#[cfg(not(all(
    target_os = "linux",
    target_endian = "little",
    target_pointer_width = "64",
    any(target_arch = "x86_64", target_arch = "aarch64")
)))]
compile_error!(
    "Masoritun is for Linux with 64-bit pointers, on x86-64 or on aarch64 (little-endian): there is no library for this system"
);

mod ffi;
mod folds;
mod guard;
mod meter;
mod normalize;
mod ops;
mod quantize;
mod refusal;
mod softmax;
mod split;
pub mod table;

pub use folds::{max_num, min_max, min_num, sum, sum_abs, sum_exp_sub, sum_square, sum_square_sub};
pub use meter::Meter;
pub use normalize::{Normalize, normalize, normalize_in_place};
pub use ops::{approx_gelu, cos, elu, erf, exp, gelu, reduced_range_exp, sigmoid, silu, sin, swish, tanh};
pub use quantize::quantize;
pub use refusal::Refusal;
pub use softmax::{softmax, softmax_in_place};
pub use split::split;

/// The version of the library that is linked: 10000 times its first number, 100 times the second, and the third. It is the crate's own.
///
/// ```
/// assert_eq!(masoritun::version(), 200); // 0.2.0
/// ```
pub fn version() -> u32 {
    ffi::mst_version()
}

/// The most elements that a kernel or a feeding takes.
pub const MAX_ELEMENTS: usize = 16_384;
/// The most bands of a split or a table.
pub const MAX_BANDS: usize = 64;
/// The most rows of a table.
pub const MAX_ROWS: usize = 1_024;
/// The parts that the gains of a split, and each row of a table, add up to.
pub const PARTS: u16 = 32_768;
