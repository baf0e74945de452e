//! Totals over the lines of the program's input, and the count of ones (FORMAT.md, "Totals").
use std::collections::BTreeMap;
use std::fmt::Write;

use crate::lines::{frame_of, lines};
use crate::{read_run, Answer, Kind, Refusal};

/// "At most 2^32 lines and 2^32 rows."
pub const MOST: u64 = 1 << 32;

/// The refusals that a line can have, in the order of the report.
const REFUSALS: [u8; 10] = [1, 2, 3, 4, 5, 6, 7, 12, 13, 14];

/// The kinds that a line's run can have, in the order of the report.
const KINDS: [(Kind, &str); 4] = [
    (Kind::ShortRepeat, "short"),
    (Kind::Direct, "direct"),
    (Kind::PatchedBase, "patched"),
    (Kind::Delta, "delta"),
];

/// The totals over some lines.
#[derive(Debug, Clone, PartialEq, Eq, Default)]
pub struct Totals {
    pub lines: u64,
    pub bad: u64,
    pub end: u64,
    /// How many lines were refused with a number, where any was.
    pub refused: BTreeMap<u8, u64>,
    /// How many runs of a kind were read, where any was.
    pub runs: BTreeMap<Kind, u64>,
    pub rows: u64,
    pub smallest: Option<i64>,
    pub largest: Option<i64>,
    pub sum: i128,
}

/// The totals of one line.
fn of_line(line: &[u8]) -> Totals {
    let mut totals = Totals { lines: 1, ..Totals::default() };
    match frame_of(line).map(|(signed, bytes)| read_run(&bytes, 0, signed, 512)) {
        None => totals.bad = 1,
        Some(Answer::End) => totals.end = 1,
        Some(Answer::Refused(refusal)) => {
            totals.refused.insert(refusal.number, 1);
        }
        Some(Answer::Run(run)) => {
            totals.runs.insert(run.kind, 1);
            totals.rows = run.rows.len() as u64;
            totals.smallest = run.rows.iter().min().copied();
            totals.largest = run.rows.iter().max().copied();
            totals.sum = run.rows.iter().map(|row| i128::from(*row)).sum();
        }
    }
    totals
}

impl Totals {
    /// The totals of two inputs, the second's lines after the first's; nothing past the limits.
    pub fn and(&self, other: &Totals) -> Option<Totals> {
        let mut both = self.clone();
        both.lines += other.lines;
        both.bad += other.bad;
        both.end += other.end;
        other.refused.iter().for_each(|(number, lines)| *both.refused.entry(*number).or_default() += lines);
        other.runs.iter().for_each(|(kind, runs)| *both.runs.entry(*kind).or_default() += runs);
        both.rows += other.rows;
        both.smallest = [self.smallest, other.smallest].into_iter().flatten().min();
        both.largest = [self.largest, other.largest].into_iter().flatten().max();
        both.sum += other.sum;
        (both.lines <= MOST && both.rows <= MOST).then_some(both)
    }

    /// Goes on with a text's lines. Where "a line would pass either limit; reading stops there, with the
    /// totals as before that line", and refusal 20.
    pub fn over(self, text: &[u8]) -> (Totals, Option<Refusal>) {
        let mut totals = self;
        for line in lines(text) {
            match totals.and(&of_line(line)) {
                Some(more) => totals = more,
                None => return (totals, Some(Refusal::whole(20, 0))),
            }
        }
        (totals, None)
    }

    /// The program's lines.
    pub fn report(&self, refusal: Option<Refusal>) -> String {
        let mut text = format!("lines {}\nbad {}\nend {}\n", self.lines, self.bad, self.end);
        let mut line =
            |name: &str, value: String| writeln!(text, "{name} {value}").expect("a string takes it");
        for number in REFUSALS {
            let lines = self.refused.get(&number).copied().unwrap_or(0);
            line(&format!("refused {number}"), lines.to_string());
        }
        for (kind, name) in KINDS {
            line(name, self.runs.get(&kind).copied().unwrap_or(0).to_string());
        }
        let row = |row: Option<i64>| row.map_or_else(|| "none".into(), |row| row.to_string());
        line("rows", self.rows.to_string());
        line("smallest", row(self.smallest));
        line("largest", row(self.largest));
        line("sum", self.sum.to_string());
        if let Some(refusal) = refusal {
            line("refused", refusal.number.to_string());
        }
        text
    }
}

/// What the count of ones answers.
#[derive(Debug, Clone, Copy, PartialEq, Eq)]
pub enum Ones {
    True(u64),
    Refused(Refusal),
}

/// How many of the first n booleans are true, packed eight to a byte, the highest bit first. "6 for
/// more booleans than the bytes hold."
pub fn count_true(bytes: &[u8], n: u64) -> Ones {
    if u128::from(n) > 8 * bytes.len() as u128 {
        return Ones::Refused(Refusal::cut(6, 0, 0));
    }
    let is_true = |k: &u64| bytes[(k / 8) as usize] >> (7 - k % 8) & 1 == 1;
    Ones::True((0..n).filter(is_true).count() as u64)
}
