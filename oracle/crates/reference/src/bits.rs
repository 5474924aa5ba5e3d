//! f32 by its bits.

pub const INF: f32 = f32::from_bits(0x7f80_0000);
const SIGN: u32 = 0x8000_0000;

pub fn finite(x: f32) -> bool {
    x.to_bits() & 0x7f80_0000 != 0x7f80_0000
}

pub fn abs(x: f32) -> f32 {
    f32::from_bits(x.to_bits() & !SIGN)
}

pub fn neg(x: f32) -> f32 {
    f32::from_bits(x.to_bits() ^ SIGN)
}

/// The nearest whole number, ties to even; a result of zero keeps the sign.
pub fn round_even(x: f32) -> f32 {
    let sign = x.to_bits() & SIGN;
    let size = x.to_bits() & !SIGN;
    let exponent = (size >> 23) as i32 - 127;
    if exponent >= 23 {
        return x;
    }
    if exponent < -1 {
        return f32::from_bits(sign);
    }
    if exponent == -1 {
        let one_half = size == 0x3f00_0000;
        return f32::from_bits(sign | if one_half { 0 } else { 0x3f80_0000 });
    }
    let unit = 1u32 << (23 - exponent);
    let rest = size & (unit - 1);
    let whole = size - rest;
    // From 1 to 2 the unit's bit is the hidden one: the whole part is 1, odd.
    let odd = exponent == 0 || whole & unit != 0;
    let up = rest > unit / 2 || (rest == unit / 2 && odd);
    f32::from_bits(sign | (whole + if up { unit } else { 0 }))
}

/// A whole number below 2^31 in size, as an integer.
pub fn to_int(x: f32) -> i32 {
    let size = x.to_bits() & !SIGN;
    let exponent = (size >> 23) as i32 - 127;
    if exponent < 0 {
        return 0;
    }
    let digits = (size & 0x7f_ffff | 0x80_0000) as i64;
    let value = if exponent >= 23 { digits << (exponent - 23) } else { digits >> (23 - exponent) };
    (if x.to_bits() & SIGN == 0 { value } else { -value }) as i32
}
