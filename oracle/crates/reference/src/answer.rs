//! Document 01, "Numbers a call may answer".

/// Most elements of a kernel or a feeding.
pub const ELEMENT_LIMIT: usize = 16_384;

#[derive(Clone, Copy, PartialEq, Eq, Debug)]
pub struct Answer {
    pub number: u8,
    pub place: usize,
}

pub const DONE: Answer = Answer { number: 0, place: 0 };

impl Answer {
    /// As the C boundary packs it: the number in the low 8 bits, the place above.
    pub fn word(self) -> u64 {
        self.number as u64 | (self.place as u64) << 8
    }
}

/// A refusal if it applies.
pub type Test = Option<Answer>;

/// Refusal `number` at place 0 where `applies`.
pub fn when(applies: bool, number: u8) -> Test {
    applies.then_some(Answer { number, place: 0 })
}

/// Refusal `number` at the first index below `n` that is bad.
pub fn at_first(n: usize, number: u8, bad: impl Fn(usize) -> bool) -> Test {
    (0..n).find(|&i| bad(i)).map(|place| Answer { number, place })
}

/// The first test that applies, else done.
pub fn judged(tests: &[Test]) -> Answer {
    tests.iter().flatten().next().copied().unwrap_or(DONE)
}
