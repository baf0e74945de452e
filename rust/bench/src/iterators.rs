//! Rows and flags one by one, through iterators, which is how the Rust gives them.
use std::fmt::Write as _;
use std::hint::black_box;

use menakovitsy::orc_rs::{BooleanIter, RleReaderV2};
use menakovitsy::Column;

use crate::booleans::Flags;
use crate::cases::{Case, Group};
use crate::measure::take_turns;
use crate::ours::sign;
use crate::table::{both, cell, head, line, mean, paired, ratio, shown};

/// How many times as fast as the Rust `Column::rows` must be, over all cases.
const BAR: f64 = 5.0;

/// A case, and nanoseconds a row or a flag.
pub struct Times {
    name: String,
    signed: bool,
    /// `Column::rows`. Flags have no such iterator.
    rows: Option<f64>,
    /// The readers of `menakovitsy::orc_rs`.
    moved: f64,
    rust: Option<f64>,
}

/// Puts what an iterator gives into `out`, a value a place, as `oracle::decode_into` does.
fn put<T, V, E>(out: &mut [T], values: impl Iterator<Item = Result<V, E>>, place: impl Fn(V) -> T) {
    for (out, value) in out.iter_mut().zip(values) {
        match value {
            Ok(value) => *out = place(value),
            Err(_) => break,
        }
    }
}

fn rows_into(case: &Case, out: &mut [i64]) {
    put(out, Column::new(&case.bytes, sign(case)).rows(), |row| row);
}

fn moved_into(case: &Case, out: &mut [i64]) {
    put(out, RleReaderV2::try_new(&case.bytes[..], case.signed, false), |row| row);
}

fn flags_into(bytes: &[u8], out: &mut [u8]) {
    put(out, BooleanIter::new(bytes, out.len()), u8::from);
}

/// Times all cases. Each candidate's rows are compared before its time counts.
pub fn rows(cases: &[&Case], samples: usize) -> Vec<Times> {
    let timed = |case: &Case| {
        let mut places = [(); 3].map(|()| vec![0; case.rows.len()]);
        let [ours, moved, theirs] = &mut places;
        rows_into(case, ours);
        moved_into(case, moved);
        assert!(*ours == case.rows && *moved == case.rows, "{}: other rows by an iterator", case.name);
        let mut ours = || rows_into(black_box(case), black_box(ours));
        let mut moved = || moved_into(black_box(case), black_box(moved));
        let mut rust = || {
            oracle::decode_into(black_box(&case.bytes), case.signed, black_box(theirs));
        };
        let mut candidates: Vec<&mut dyn FnMut()> = vec![&mut ours, &mut moved];
        if case.in_rust {
            candidates.push(&mut rust);
        }
        let first = if case.group == Group::Single { 1024 } else { 1 };
        let times = take_turns(case.rows.len(), first, samples, &mut candidates);
        let (name, signed) = (case.name.clone(), case.signed);
        Times { name, signed, rows: Some(times[0]), moved: times[1], rust: times.get(2).copied() }
    };
    cases.iter().map(|case| timed(case)).collect()
}

/// The same of flags.
pub fn flags(cases: &[&Flags], samples: usize) -> Vec<Times> {
    let timed = |case: &Flags| {
        let n = case.values.len();
        let mut places = [(); 2].map(|()| vec![7; n]);
        let [moved, theirs] = &mut places;
        flags_into(&case.bytes, moved);
        assert_eq!(*moved, case.values, "{}: other flags by an iterator", case.name);
        let mut moved = || flags_into(black_box(&case.bytes), black_box(moved));
        let mut rust = || {
            oracle::booleans_into(black_box(&case.bytes), n, black_box(theirs));
        };
        let mut candidates: Vec<&mut dyn FnMut()> = vec![&mut moved];
        if case.in_rust {
            candidates.push(&mut rust);
        }
        let times = take_turns(n, if case.in_rust { 64 } else { 1 }, samples, &mut candidates);
        let (name, signed) = (case.name.clone(), false);
        Times { name, signed, rows: None, moved: times[0], rust: times.get(1).copied() }
    };
    cases.iter().map(|case| timed(case)).collect()
}

/// The two tables, with what they must show.
pub fn markdown(rows: &[Times], flags: &[Times]) -> String {
    let mut text = String::new();
    rows_table(&mut text, rows);
    flags_table(&mut text, flags);
    text
}

fn rows_table(text: &mut String, rows: &[Times]) {
    let title = "Row by row: ours as an iterator against the Rust's, nanoseconds a row";
    head(text, title, "Runs|`rows`|signed|`orc_rs`|signed");
    for pair in paired(rows.iter().filter(|times| shown(&times.name)), |times| (&times.name, times.signed)) {
        let times: [fn(&Times) -> Option<f64>; 2] = [|times| times.rows, |times| Some(times.moved)];
        line(text, &pair.0, &times.map(|time| both(&pair, time)).concat());
    }
    let faster = mean(rows.iter().map(Times::faster));
    let moved = cell(mean(rows.iter().map(Times::moved_faster)));
    let kept = if faster.is_some_and(|faster| faster >= BAR) { "kept" } else { "NOT kept" };
    writeln!(
        text,
        "| geometric mean of Rust / ours, over all cases | {} | | {moved} | |\n\n\
         Each row is taken from the iterator by itself, and the making of the iterator is in its time. `rows` is \
         `Column::rows`, over bytes that are there; `orc_rs` the `RleReaderV2` of `menakovitsy::orc_rs` \
         ([MOVING.md](MOVING.md)) over a `Read`, from which it takes a run at a time as the Rust does. `rows` at least {BAR} times as fast as the Rust: {kept}.",
        cell(faster)
    )
    .expect("a string takes it");
}

fn flags_table(text: &mut String, flags: &[Times]) {
    let title =
        "Flag by flag: the `BooleanIter` of `menakovitsy::orc_rs` against the Rust's, nanoseconds a flag";
    head(text, title, "Byte runs|`orc_rs`|Rust|Rust / `orc_rs`");
    for times in flags {
        line(text, &times.name, &[Some(times.moved), times.rust, times.moved_faster()]);
    }
    let faster = cell(mean(flags.iter().map(Times::moved_faster)));
    writeln!(text, "| geometric mean | | | {faster} |").expect("a string takes it");
}

impl Times {
    fn faster(&self) -> Option<f64> {
        ratio(self.rust, self.rows)
    }

    fn moved_faster(&self) -> Option<f64> {
        ratio(self.rust, Some(self.moved))
    }
}
