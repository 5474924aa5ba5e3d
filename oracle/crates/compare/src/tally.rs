//! Counts of what was compared, and the first difference with its bits.

use crate::lent::{Lent, Word};
use reference::Answer;

const NUMBERS: usize = 32;

pub struct Tally {
    name: String,
    done: u64,
    refused: [u64; NUMBERS],
    numbers: u64,
    pub differ: u64,
    first: Option<String>,
}

impl Tally {
    pub fn new(name: &str) -> Tally {
        Tally { name: name.to_string(), done: 0, refused: [0; NUMBERS], numbers: 0, differ: 0, first: None }
    }

    pub fn differs(&mut self, what: impl FnOnce() -> String) {
        self.differ += 1;
        if self.first.is_none() {
            self.first = Some(what());
        }
    }

    /// A call's answer; `about` tells its arguments.
    pub fn answer(&mut self, got: u64, want: Answer, about: &dyn Fn() -> String) {
        match want.number {
            0 => self.done += 1,
            number => self.refused[number as usize] += 1,
        }
        if got != want.word() {
            self.differs(|| {
                let (number, place) = (got & 255, got >> 8);
                format!("{}: answers {number} at {place}, want {} at {}", about(), want.number, want.place)
            });
        }
    }

    /// Numbers after a call, those answered or those lent.
    pub fn same<T: Word>(&mut self, part: &str, got: &[T], want: &[T], about: &dyn Fn() -> String) {
        self.numbers += got.len() as u64;
        if got.len() != want.len() {
            self.differs(|| format!("{}: {part} has {} numbers, want {}", about(), got.len(), want.len()));
        }
        let at = got.iter().zip(want).position(|(a, b)| a.word() != b.word());
        if let Some(i) = at {
            let (a, b) = (got[i].word(), want[i].word());
            self.differs(|| format!("{}: {part}[{i}] is {a:08x}, want {b:08x}", about()));
        }
    }

    /// A lent slice after a call: its numbers and its guards.
    pub fn lent<T: Word>(&mut self, part: &str, got: &Lent<T>, want: &[T], about: &dyn Fn() -> String) {
        self.same(part, got.slice(), want, about);
        if !got.guards_kept() {
            self.differs(|| format!("{}: written outside {part}", about()));
        }
    }

    pub fn count(&mut self, numbers: u64) {
        self.numbers += numbers;
    }

    pub fn join(&mut self, other: Tally) {
        self.done += other.done;
        self.numbers += other.numbers;
        self.differ += other.differ;
        for (mine, theirs) in self.refused.iter_mut().zip(other.refused) {
            *mine += theirs;
        }
        self.first = self.first.take().or(other.first);
    }

    pub fn print(&self) {
        let refused: Vec<String> =
            (0..NUMBERS).filter(|&k| self.refused[k] > 0).map(|k| format!("{k}:{}", self.refused[k])).collect();
        let refused = if refused.is_empty() { "none".to_string() } else { refused.join(" ") };
        println!(
            "{}: {} calls done, refused {refused}; {} numbers compared, differ {}",
            self.name, self.done, self.numbers, self.differ
        );
        if let Some(first) = &self.first {
            println!("  first difference: {first}");
        }
    }
}

/// Patterns for a message, the first few of a long list.
pub fn hex<T: Word>(xs: &[T]) -> String {
    let digits = 2 * size_of::<T>();
    let shown: Vec<String> = xs.iter().take(24).map(|x| format!("{:0digits$x}", x.word())).collect();
    let more = if xs.len() > 24 { format!(" .. of {}", xs.len()) } else { String::new() };
    format!("[{}{more}]", shown.join(" "))
}
