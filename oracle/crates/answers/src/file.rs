//! A file of cases: words of 8 hex digits, a space after each, a line feed after a case's last. Word k starts at byte 9 k.

use std::fmt::Write;

/// Most bytes of a file: what a replay program reads at once.
const LIMIT: usize = 65_536;

pub struct File {
    pub name: &'static str,
    pub text: String,
    pub cases: usize,
    pub faults: Vec<String>,
}

impl File {
    pub fn new(name: &'static str) -> File {
        File { name, text: String::new(), cases: 0, faults: vec![] }
    }

    pub fn case(&mut self, words: &[u32]) {
        for (i, word) in words.iter().enumerate() {
            let end = if i + 1 == words.len() { '\n' } else { ' ' };
            write!(self.text, "{word:08x}{end}").unwrap();
        }
        self.cases += 1;
        if self.text.len() > LIMIT {
            self.faults.push(format!("{}: over {LIMIT} bytes at case {}", self.name, self.cases));
        }
    }

    /// The text's and the reference's numbers for the next case: equal to the bit, and no NaN.
    pub fn agree(&mut self, what: &str, input: &[f32], text: &[f32], reference: &[f32]) {
        if bits(text) != bits(reference) || text.iter().any(|y| y.is_nan()) {
            self.fault(what, input, &bits(text), &bits(reference));
        }
    }

    pub fn fault(&mut self, what: &str, input: &[f32], text: &[u32], reference: &[u32]) {
        let (x, a, b) = (hex(&bits(input)), hex(text), hex(reference));
        self.faults.push(format!("{} case {}, {what} of [{x}]: text [{a}] reference [{b}]", self.name, self.cases));
    }
}

pub fn bits(xs: &[f32]) -> Vec<u32> {
    xs.iter().map(|x| x.to_bits()).collect()
}

fn hex(words: &[u32]) -> String {
    words.iter().map(|w| format!("{w:08x}")).collect::<Vec<_>>().join(" ")
}
