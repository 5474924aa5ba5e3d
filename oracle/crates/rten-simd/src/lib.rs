//! One-lane stand-in for the parts of rten-simd that the text of rten-vecmath names.
//! The meaning of every operation is document 01's ("One reading of every step"). f32 and i32 have one lane,
//! i16 two and u8 four, so that `narrow_saturate` keeps a vector's width.

pub mod functional;
mod iter;
mod lane;
pub mod ops;
pub mod span;
mod writer;

pub use iter::{Iter, SimdIterable};
pub use lane::{OneLane, V};
pub use writer::SliceWriter;

use ops::{BitOps, FloatOps, IntOps, MaskOps, NarrowSaturate};
use std::mem::MaybeUninit;

/// A vector of lanes.
pub trait Simd: Copy {
    type Elem: Copy;
    type Array: Copy + AsRef<[Self::Elem]> + IntoIterator<Item = Self::Elem> + std::ops::IndexMut<usize, Output = Self::Elem>;
    fn to_array(self) -> Self::Array;
    /// The pattern of the one 32-bit lane.
    fn bits32(self) -> u32;
    fn from_bits32(bits: u32) -> Self;
    #[inline(always)]
    fn reinterpret_cast<T: Simd>(self) -> T {
        T::from_bits32(self.bits32())
    }
}

/// The lane types and their operations.
pub trait Isa: Copy {
    type M32: Copy;
    type F32: Simd<Elem = f32>;
    type I32: Simd<Elem = i32>;
    type I16: Simd<Elem = i16>;
    type U8: Simd<Elem = u8>;
    fn m32(self) -> impl MaskOps<Self::M32>;
    fn f32(self) -> impl FloatOps<f32, Simd = Self::F32, Mask = Self::M32, Int = Self::I32>;
    fn i32(self) -> impl IntOps<i32, Simd = Self::I32, Mask = Self::M32> + NarrowSaturate<i32, i16, Output = Self::I16>;
    fn i16(self) -> impl NarrowSaturate<i16, u8, Simd = Self::I16, Output = Self::U8>;
    fn u8(self) -> impl BitOps<u8, Simd = Self::U8>;
}

/// An operation on slices.
pub trait SimdOp: Sized {
    type Output;
    fn eval<I: Isa>(self, isa: I) -> Self::Output;
    /// With `min` and `max` keeping the first operand on a tie.
    #[inline(always)]
    fn dispatch(self) -> Self::Output {
        self.eval(OneLane::<false>)
    }
    /// With `min` and `max` keeping the second operand on a tie.
    #[inline(always)]
    fn dispatch_second(self) -> Self::Output {
        self.eval(OneLane::<true>)
    }
}

/// An operation on one element at a time.
pub trait SimdUnaryOp<T> {
    fn eval<I: Isa>(&self, isa: I, x: I::F32) -> I::F32;
    #[inline(always)]
    fn apply<I: Isa>(isa: I, x: I::F32) -> I::F32
    where
        Self: Default,
    {
        Self::default().eval(isa, x)
    }
    #[inline(always)]
    fn scalar_eval(&self, x: f32) -> f32 {
        self.eval(OneLane::<false>, V([x])).to_array()[0]
    }
    #[inline(always)]
    fn map<'d>(&self, src: &[f32], dst: &'d mut [MaybeUninit<f32>]) -> &'d mut [f32] {
        assert_eq!(src.len(), dst.len());
        for (d, s) in dst.iter_mut().zip(src) {
            d.write(self.scalar_eval(*s));
        }
        // SAFETY: every element was written above.
        unsafe { assume_init(dst) }
    }
}

/// # Safety
/// Every element has been written.
unsafe fn assume_init<T>(xs: &mut [MaybeUninit<T>]) -> &mut [T] {
    // SAFETY: the caller's promise; the layouts agree.
    unsafe { &mut *(xs as *mut [MaybeUninit<T>] as *mut [T]) }
}
