//! The Markdown tables, and what of the required ratios holds.

use crate::contender::Who;
use crate::kernels::{GOAL, Kernel};
use crate::timing::{Raced, SAMPLE_NS, SAMPLES};
use std::env::consts::ARCH;

/// Where the ratios are asked.
pub const ASKED: usize = 1024;

/// One kernel at one size; ours is the first of the contenders.
pub struct Line<'a> {
    pub kernel: &'a Kernel,
    pub n: usize,
    pub raced: Vec<(Who, Raced)>,
}

impl Line<'_> {
    fn raced(&self, who: Who) -> Option<&Raced> {
        self.raced.iter().find(|r| r.0 == who).map(|r| &r.1)
    }
    /// The median time of one call in ns.
    fn time(&self, who: Who) -> Option<f64> {
        Some(self.raced(who)?.ns)
    }
    /// Our time by theirs.
    fn ratio(&self, who: Who) -> Option<f64> {
        Some(self.raced(who)?.ratio)
    }
    fn asked(&self) -> bool {
        self.kernel.only.is_some() || self.n == ASKED
    }
}

/// Three digits.
fn number(x: f64) -> String {
    let digits = if x >= 99.95 {
        0
    } else if x >= 9.995 {
        1
    } else {
        2
    };
    format!("{x:.digits$}")
}

/// Columns as wide as their widest cell: text in the first and in one without a heading, numbers in the others.
fn table(rows: &[Vec<String>]) {
    let column = |c: usize| (c == 0 || rows[0][c].is_empty(), rows.iter().map(|r| r[c].len()).max().unwrap_or(0));
    let columns: Vec<(bool, usize)> = (0..rows[0].len()).map(column).collect();
    let line = |cells: Vec<String>| println!("|{}|", cells.join("|"));
    for (i, row) in rows.iter().enumerate() {
        let cell = |(s, &(text, w)): (&String, &(bool, usize))| {
            if text { format!(" {s:<w$} ") } else { format!(" {s:>w$} ") }
        };
        line(row.iter().zip(&columns).map(cell).collect());
        if i == 0 {
            let rule = |&(text, w): &(bool, usize)| format!("{}{}", "-".repeat(w + 1), if text { "-" } else { ":" });
            line(columns.iter().map(rule).collect());
        }
    }
    println!();
}

/// Times of one size, each by `unit` elements, with the ratio ours / theirs beside each of `others`.
fn times(lines: &[&Line], unit: usize, others: &[(Who, &str)]) {
    let mut head = vec!["kernel".to_string(), "ours".to_string()];
    head.extend(others.iter().flat_map(|(_, name)| [name.to_string(), "ratio".to_string()]));
    let mut rows = vec![head];
    for line in lines {
        let time = |who| line.time(who).map(|t| number(t / unit as f64)).unwrap_or_default();
        let mut row = vec![line.kernel.name.to_string(), time(Who::Ours)];
        row.extend(others.iter().flat_map(|&(who, _)| [time(who), line.ratio(who).map(number).unwrap_or_default()]));
        rows.push(row);
    }
    table(&rows);
}

/// One line for each ratio that is asked.
fn verdicts(lines: &[Line], who: Who, limit: impl Fn(&Kernel) -> Option<f64>) {
    let mut rows = vec![["kernel", "ratio", "at most", ""].map(String::from).to_vec()];
    for line in lines.iter().filter(|l| l.asked()) {
        let (Some(limit), Some(ratio)) = (limit(line.kernel), line.ratio(who)) else {
            continue;
        };
        let verdict = if ratio <= limit {
            "holds".to_string()
        } else {
            let asked = if ARCH == "x86_64" { "does not hold" } else { "over" };
            format!("{asked}, by {} %", number(100.0 * (ratio / limit - 1.0)))
        };
        rows.push(vec![line.kernel.name.to_string(), number(ratio), number(limit), verdict]);
    }
    table(&rows);
}

/// `machine` is the processor's name as `uname -m` gives it.
fn print_about(machine: &str) {
    let ms = SAMPLE_NS / 1e6;
    println!(
        "A time is the median of {SAMPLES} samples of {ms} ms of the thread's processor time, the contenders taking turns; a ratio is the median of those within a turn.\n"
    );
    if ARCH != machine {
        println!(
            "Built for {ARCH} and run on {machine}, each instruction by what a translator makes of it: the times are not those of an {ARCH} machine.\n"
        );
    }
    if ARCH != "x86_64" {
        println!(
            "The required ratios and the goals are for x86-64, where the Rust text casts element by element; on {ARCH} it runs in lanes throughout.\n"
        );
    }
}

pub fn print(machine: &str, lines: &[Line], sizes: &[usize]) {
    print_about(machine);
    let mut others =
        vec![(Who::Rust, "Rust text"), (Who::BranchFree, "branch-free C"), (Who::Glibc, "glibc"), (Who::Sleef, "SLEEF")];
    others.retain(|(who, _)| lines.iter().any(|l| l.time(*who).is_some()));
    for &n in sizes {
        println!("## n = {n}, ns an element\n");
        let lines: Vec<&Line> = lines.iter().filter(|l| l.kernel.only.is_none() && l.n == n).collect();
        times(&lines, n, &others);
    }
    println!("## Split and table, ns a call\n");
    let calls: Vec<&Line> = lines.iter().filter(|l| l.kernel.only.is_some()).collect();
    times(&calls, 1, &[(Who::Rust, "reference")]);
    println!("## Required: ours by the Rust, at n = {ASKED}\n");
    verdicts(lines, Who::Rust, |k| k.limit);
    println!("## Goal: ours by the branch-free C loop, at n = {ASKED}\n");
    verdicts(lines, Who::BranchFree, |k| k.goal.then_some(GOAL));
}
