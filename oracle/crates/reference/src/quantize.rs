//! Quantize to u8, saturating for every product.

use crate::answer::{Answer, DONE, ELEMENT_LIMIT, at_first, judged, when};
use crate::bits::{finite, round_even, to_int};

pub fn code(inv_scale: f32, zero_point: u8, x: f32) -> u8 {
    let whole = round_even(x * inv_scale);
    if whole >= 256.0 {
        return 255;
    }
    if whole <= -256.0 {
        return 0;
    }
    (to_int(whole) + zero_point as i32).clamp(0, 255) as u8
}

pub fn quantize(inv_scale: f32, zero_point: u8, src: &[f32], dst: &mut [u8]) -> Answer {
    let answer = judged(&[
        when(src.len() != dst.len(), 1),
        when(src.len() > ELEMENT_LIMIT, 2),
        when(!finite(inv_scale), 3),
        at_first(src.len(), 4, |i| !finite(src[i])),
    ]);
    if answer == DONE {
        for (y, &x) in dst.iter_mut().zip(src) {
            *y = code(inv_scale, zero_point, x);
        }
    }
    answer
}
