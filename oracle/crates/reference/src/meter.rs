//! The meter: each feeding takes it and hands the next one back.

use crate::answer::{Answer, DONE, ELEMENT_LIMIT, at_first, judged, when};
use crate::bits::{INF, finite, neg};
use crate::extremes::{largest_from, least_from};
use crate::sum::square_sum_from;

#[derive(Clone, Copy, Debug)]
pub struct Meter {
    pub count: u32,
    pub overs: u32,
    pub sum_squares: f32,
    pub least: f32,
    pub largest: f32,
}

/// Full scale by the pattern: without its sign it is that of 1.0, or a higher one.
fn is_over(x: f32) -> bool {
    x.to_bits() & 0x7fff_ffff >= 0x3f80_0000
}

impl Meter {
    pub fn start() -> Meter {
        Meter { count: 0, overs: 0, sum_squares: 0.0, least: INF, largest: neg(INF) }
    }

    pub fn feed(self, src: &[f32]) -> Result<Meter, Answer> {
        let count = self.count as u64 + src.len() as u64;
        let nan = self.sum_squares.is_nan() || self.least.is_nan() || self.largest.is_nan();
        let answer = judged(&[
            when(src.len() > ELEMENT_LIMIT || count > u32::MAX as u64, 2),
            when(nan || self.sum_squares < 0.0 || self.overs > self.count, 3),
            at_first(src.len(), 4, |i| !finite(src[i])),
        ]);
        if answer != DONE {
            return Err(answer);
        }
        Ok(Meter {
            count: count as u32,
            overs: self.overs + src.iter().filter(|x| is_over(**x)).count() as u32,
            sum_squares: square_sum_from(self.sum_squares, src),
            least: least_from(self.least, src),
            largest: largest_from(self.largest, src),
        })
    }
}
