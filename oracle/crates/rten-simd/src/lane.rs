//! The one lane.

use crate::ops::{BitOps, FloatOps, IntOps, MaskOps, NarrowSaturate, NumOps};
use crate::{Isa, Simd};

/// `SECOND`: whether `min` and `max` keep the second operand on a tie (only equal zeros can tell), or the first.
#[derive(Clone, Copy)]
pub struct OneLane<const SECOND: bool>;

impl<const SECOND: bool> Isa for OneLane<SECOND> {
    type M32 = [bool; 1];
    type F32 = V<f32, 1>;
    type I32 = V<i32, 1>;
    type I16 = V<i16, 2>;
    type U8 = V<u8, 4>;
    #[inline(always)]
    fn m32(self) -> impl MaskOps<[bool; 1]> {
        Mask
    }
    #[inline(always)]
    fn f32(self) -> impl FloatOps<f32, Simd = F, Mask = [bool; 1], Int = I> {
        F32Ops::<SECOND>
    }
    #[inline(always)]
    fn i32(self) -> impl IntOps<i32, Simd = I, Mask = [bool; 1]> + NarrowSaturate<i32, i16, Output = V<i16, 2>> {
        I32Ops
    }
    #[inline(always)]
    fn i16(self) -> impl NarrowSaturate<i16, u8, Simd = V<i16, 2>, Output = V<u8, 4>> {
        I16Ops
    }
    #[inline(always)]
    fn u8(self) -> impl BitOps<u8, Simd = V<u8, 4>> {
        U8Ops
    }
}

#[derive(Clone, Copy)]
pub struct V<T, const N: usize>(pub [T; N]);

type F = V<f32, 1>;
type I = V<i32, 1>;

macro_rules! lanes {
    ($t:ty, $n:literal, $to:expr, $from:expr) => {
        impl Simd for V<$t, $n> {
            type Elem = $t;
            type Array = [$t; $n];
            #[inline(always)]
            fn to_array(self) -> [$t; $n] {
                self.0
            }
            #[inline(always)]
            fn bits32(self) -> u32 {
                $to(self.0)
            }
            #[inline(always)]
            fn from_bits32(bits: u32) -> Self {
                V($from(bits))
            }
        }
    };
}
lanes!(f32, 1, |x: [f32; 1]| x[0].to_bits(), |b| [f32::from_bits(b)]);
lanes!(i32, 1, |x: [i32; 1]| x[0] as u32, |b| [b as i32]);
lanes!(i16, 2, |_| unreachable!(), |_| unreachable!());
lanes!(u8, 4, |_| unreachable!(), |_| unreachable!());

macro_rules! bit_ops {
    ($name:ident $(<const $p:ident: bool>)?, $t:ty, $n:literal) => {
        #[derive(Clone, Copy)]
        struct $name $(<const $p: bool>)?;
        impl $(<const $p: bool>)? BitOps<$t> for $name $(<$p>)? {
            type Simd = V<$t, $n>;
            type Mask = [bool; $n];
            #[inline(always)]
            fn len(self) -> usize {
                $n
            }
            #[inline(always)]
            fn splat(self, x: $t) -> V<$t, $n> {
                V([x; $n])
            }
            #[inline(always)]
            fn load(self, xs: &[$t]) -> V<$t, $n> {
                V(std::array::from_fn(|i| xs[i]))
            }
            #[inline(always)]
            fn select(self, x: V<$t, $n>, y: V<$t, $n>, m: [bool; $n]) -> V<$t, $n> {
                V(std::array::from_fn(|i| if m[i] { x.0[i] } else { y.0[i] }))
            }
            #[inline(always)]
            fn first_n_mask(self, n: usize) -> [bool; $n] {
                std::array::from_fn(|i| i < n)
            }
        }
    };
}
bit_ops!(F32Ops<const SECOND: bool>, f32, 1);
bit_ops!(I32Ops, i32, 1);
bit_ops!(I16Ops, i16, 2);
bit_ops!(U8Ops, u8, 4);

#[derive(Clone, Copy)]
struct Mask;
impl MaskOps<[bool; 1]> for Mask {
    #[inline(always)]
    fn any(self, m: [bool; 1]) -> bool {
        m[0]
    }
}

macro_rules! number_ops {
    ($v:ty, $zero:expr, $one:expr, $add:expr, $sub:expr, $mul:expr, $min:expr, $max:expr) => {
        #[inline(always)]
        fn zero(self) -> $v {
            V([$zero])
        }
        #[inline(always)]
        fn one(self) -> $v {
            V([$one])
        }
        #[inline(always)]
        fn add(self, x: $v, y: $v) -> $v {
            V([$add(x.0[0], y.0[0])])
        }
        #[inline(always)]
        fn sub(self, x: $v, y: $v) -> $v {
            V([$sub(x.0[0], y.0[0])])
        }
        #[inline(always)]
        fn mul(self, x: $v, y: $v) -> $v {
            V([$mul(x.0[0], y.0[0])])
        }
        #[inline(always)]
        fn min(self, x: $v, y: $v) -> $v {
            V([$min(x.0[0], y.0[0])])
        }
        #[inline(always)]
        fn max(self, x: $v, y: $v) -> $v {
            V([$max(x.0[0], y.0[0])])
        }
        #[inline(always)]
        fn lt(self, x: $v, y: $v) -> [bool; 1] {
            [x.0[0] < y.0[0]]
        }
        #[inline(always)]
        fn le(self, x: $v, y: $v) -> [bool; 1] {
            [x.0[0] <= y.0[0]]
        }
        #[inline(always)]
        fn eq(self, x: $v, y: $v) -> [bool; 1] {
            [x.0[0] == y.0[0]]
        }
    };
}
impl<const SECOND: bool> NumOps<f32> for F32Ops<SECOND> {
    number_ops!(
        F,
        0.0,
        1.0,
        |x: f32, y: f32| x + y,
        |x: f32, y: f32| x - y,
        |x: f32, y: f32| x * y,
        |x, y| if SECOND {
            if x < y { x } else { y }
        } else if y < x {
            y
        } else {
            x
        },
        |x, y| if SECOND {
            if x > y { x } else { y }
        } else if y > x {
            y
        } else {
            x
        }
    );
}
impl NumOps<i32> for I32Ops {
    number_ops!(I, 0, 1, i32::wrapping_add, i32::wrapping_sub, i32::wrapping_mul, Ord::min, Ord::max);
}
impl<const SECOND: bool> FloatOps<f32> for F32Ops<SECOND> {
    type Int = I;
    #[inline(always)]
    fn neg(self, x: F) -> F {
        V([-x.0[0]])
    }
    #[inline(always)]
    fn abs(self, x: F) -> F {
        V([x.0[0].abs()])
    }
    #[inline(always)]
    fn div(self, x: F, y: F) -> F {
        V([x.0[0] / y.0[0]])
    }
    #[inline(always)]
    fn round_ties_even(self, x: F) -> F {
        V([x.0[0].round_ties_even()])
    }
    #[inline(always)]
    fn to_int_trunc(self, x: F) -> I {
        V([x.0[0] as i32])
    }
    #[inline(always)]
    fn to_int_round(self, x: F) -> I {
        V([x.0[0].round_ties_even() as i32])
    }
}
impl IntOps<i32> for I32Ops {
    #[inline(always)]
    fn shift_left<const SHIFT: i32>(self, x: I) -> I {
        V([x.0[0] << SHIFT])
    }
}
impl NarrowSaturate<i32, i16> for I32Ops {
    type Output = V<i16, 2>;
    #[inline(always)]
    fn narrow_saturate(self, low: I, high: I) -> V<i16, 2> {
        V([low.0[0], high.0[0]].map(|x| x.clamp(i16::MIN as i32, i16::MAX as i32) as i16))
    }
}
impl NarrowSaturate<i16, u8> for I16Ops {
    type Output = V<u8, 4>;
    #[inline(always)]
    fn narrow_saturate(self, low: V<i16, 2>, high: V<i16, 2>) -> V<u8, 4> {
        V([low.0[0], low.0[1], high.0[0], high.0[1]].map(|x| x.clamp(0, 255) as u8))
    }
}
