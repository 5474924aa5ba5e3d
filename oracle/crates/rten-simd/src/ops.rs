//! The operations by name. Those with a body are document 01's readings.

use crate::Simd;

pub trait MaskOps<M: Copy>: Copy {
    fn any(self, m: M) -> bool;
}

/// Operations on any lane type.
#[allow(clippy::len_without_is_empty)]
pub trait BitOps<T: Copy>: Copy {
    type Simd: Simd<Elem = T>;
    type Mask: Copy;
    fn len(self) -> usize;
    fn splat(self, x: T) -> Self::Simd;
    fn load(self, xs: &[T]) -> Self::Simd;
    #[inline(always)]
    fn load_many<const N: usize>(self, xs: &[T]) -> [Self::Simd; N] {
        let lanes = self.len();
        std::array::from_fn(|i| self.load(&xs[i * lanes..(i + 1) * lanes]))
    }
    /// `x` where the mask holds, else `y`.
    fn select(self, x: Self::Simd, y: Self::Simd, m: Self::Mask) -> Self::Simd;
    fn first_n_mask(self, n: usize) -> Self::Mask;
}

pub trait NumOps<T: Copy>: BitOps<T> {
    fn zero(self) -> Self::Simd;
    fn one(self) -> Self::Simd;
    fn add(self, x: Self::Simd, y: Self::Simd) -> Self::Simd;
    fn sub(self, x: Self::Simd, y: Self::Simd) -> Self::Simd;
    fn mul(self, x: Self::Simd, y: Self::Simd) -> Self::Simd;
    /// a times b, rounded, plus c, rounded.
    #[inline(always)]
    fn mul_add(self, a: Self::Simd, b: Self::Simd, c: Self::Simd) -> Self::Simd {
        self.add(self.mul(a, b), c)
    }
    /// x minus the rounded k times a.
    #[inline(always)]
    fn mul_sub_from(self, k: Self::Simd, a: Self::Simd, x: Self::Simd) -> Self::Simd {
        self.sub(x, self.mul(k, a))
    }
    fn min(self, x: Self::Simd, y: Self::Simd) -> Self::Simd;
    fn max(self, x: Self::Simd, y: Self::Simd) -> Self::Simd;
    fn lt(self, x: Self::Simd, y: Self::Simd) -> Self::Mask;
    fn le(self, x: Self::Simd, y: Self::Simd) -> Self::Mask;
    fn eq(self, x: Self::Simd, y: Self::Simd) -> Self::Mask;
    #[inline(always)]
    fn gt(self, x: Self::Simd, y: Self::Simd) -> Self::Mask {
        self.lt(y, x)
    }
    #[inline(always)]
    fn ge(self, x: Self::Simd, y: Self::Simd) -> Self::Mask {
        self.le(y, x)
    }
    /// For `Erf`: ((((a4 t + a3) t + a2) t + a1) t + a0) t.
    #[inline(always)]
    fn poly_eval(self, t: Self::Simd, a: &[Self::Simd]) -> Self::Simd {
        let mut y = a[a.len() - 1];
        for i in (0..a.len() - 1).rev() {
            y = self.mul_add(y, t, a[i]);
        }
        self.mul(y, t)
    }
}

pub trait FloatOps<T: Copy>: NumOps<T> {
    type Int: Simd;
    fn neg(self, x: Self::Simd) -> Self::Simd;
    fn abs(self, x: Self::Simd) -> Self::Simd;
    fn div(self, x: Self::Simd, y: Self::Simd) -> Self::Simd;
    /// 1 divided by x.
    #[inline(always)]
    fn reciprocal(self, x: Self::Simd) -> Self::Simd {
        self.div(self.one(), x)
    }
    fn round_ties_even(self, x: Self::Simd) -> Self::Simd;
    fn to_int_trunc(self, x: Self::Simd) -> Self::Int;
    fn to_int_round(self, x: Self::Simd) -> Self::Int;
}

pub trait IntOps<T: Copy>: NumOps<T> {
    fn shift_left<const SHIFT: i32>(self, x: Self::Simd) -> Self::Simd;
}

pub trait NarrowSaturate<From: Copy, To: Copy>: BitOps<From> {
    type Output: Simd<Elem = To>;
    fn narrow_saturate(self, low: Self::Simd, high: Self::Simd) -> Self::Output;
}
