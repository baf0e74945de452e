//! Columns as a loader reads them: rows and flags in batches against the whole at once, and all labels in one
//! pass.
use std::fmt::Write as _;
use std::hint::black_box;

use menakovitsy::{label_column, Column, Dictionary, Flags, Labels, RowNumber, Sign};

use crate::booleans::Flags as FlagCase;
use crate::cases::{Case, Group};
use crate::measure::take_turns;
use crate::table::{both, cell, head, line, mean, paired, shown};

/// The rows of the two sizes of batches, and the most times as long as the stream reader that each may take.
const SIZES: [usize; 2] = [1_024, 100];
const ROW_BARS: [f64; 2] = [1.25, 4.0];

/// The same of flags; and how many times as fast as the Rust they must be on its first run.
const FLAGS: usize = 1_024;
const FLAG_BAR: f64 = 1.5;
const RUST_BAR: f64 = 8.0;

/// The rows of the column of names, the names of its dictionary, and the most nanoseconds a row.
const NAMED: usize = 1_000_000;
const NAMES: usize = 1_000;
const LABEL_BAR: f64 = 10.0;

fn sign(case: &Case) -> Sign {
    if case.signed {
        Sign::Signed
    } else {
        Sign::Unsigned
    }
}

/// Reads a column into `rows`, a call for each part of `size` places at the position that came back.
fn rows_in_batches(case: &Case, size: usize, rows: &mut [i64]) {
    let column = Column::new(&case.bytes, sign(case));
    let mut position = column.start();
    for places in rows.chunks_mut(size) {
        match column.read_at(position, places) {
            Ok(Some(batch)) => position = batch.next,
            answer => panic!("{}: {answer:?}", case.name),
        }
    }
}

/// The same by [`Column::batches`], which reads small batches several at once.
fn rows_by_wrapper(case: &Case, size: usize, rows: &mut [i64]) {
    let mut batches = Column::new(&case.bytes, sign(case)).batches(RowNumber(size));
    for places in rows.chunks_mut(size) {
        match batches.next_batch() {
            Some(Ok(batch)) if batch.len() == places.len() => places.copy_from_slice(batch),
            answer => panic!("{}: {answer:?}", case.name),
        }
    }
}

/// Reads flags into `out`, a call for each part of [`FLAGS`] places.
fn flags_in_batches(bytes: &[u8], out: &mut [u8]) {
    let mut flags = Flags::new(bytes);
    for places in out.chunks_mut(FLAGS) {
        flags.read_into(places).expect("a case is whole runs");
    }
}

/// A case, and nanoseconds a row: by one call of `orc_read_stream`, by one of `orc_read_rows` for each batch of
/// each size, and by the wrapper's batches of the smaller.
pub struct Rows {
    name: String,
    signed: bool,
    stream: f64,
    batches: [f64; 3],
}

/// Times the long buffers.
pub fn rows(cases: &[&Case], samples: usize) -> Vec<Rows> {
    let timed = |case: &Case| {
        let mut places = [(); 4].map(|()| vec![0; case.rows.len()]);
        for (size, places) in SIZES.into_iter().zip(&mut places) {
            rows_in_batches(case, size, places);
            assert!(*places == case.rows, "{}: other rows in batches of {size}", case.name);
        }
        let [large, small, all, wrapped] = &mut places;
        rows_by_wrapper(case, SIZES[1], wrapped);
        assert!(*wrapped == case.rows, "{}: other rows by the wrapper", case.name);
        let mut stream = || crate::ours::stream_into(black_box(case), black_box(all));
        let mut large = || rows_in_batches(black_box(case), SIZES[0], black_box(large));
        let mut small = || rows_in_batches(black_box(case), SIZES[1], black_box(small));
        let mut wrapped = || rows_by_wrapper(black_box(case), SIZES[1], black_box(wrapped));
        let candidates: &mut [&mut dyn FnMut()] = &mut [&mut stream, &mut large, &mut small, &mut wrapped];
        let times = take_turns(case.rows.len(), 1, samples, candidates);
        let (name, signed) = (case.name.clone(), case.signed);
        Rows { name, signed, stream: times[0], batches: [times[1], times[2], times[3]] }
    };
    cases.iter().filter(|case| case.group != Group::Single).map(|case| timed(case)).collect()
}

/// A case, and nanoseconds a flag: by one call of `orc_read_booleans`, in batches, and by the Rust.
pub struct FlagTimes {
    name: String,
    whole: f64,
    batches: f64,
    rust: Option<f64>,
}

pub fn flags(cases: &[&FlagCase], samples: usize) -> Vec<FlagTimes> {
    let timed = |case: &FlagCase| {
        let n = case.values.len();
        let mut places = [(); 3].map(|()| vec![7; n]);
        flags_in_batches(&case.bytes, &mut places[0]);
        assert_eq!(places[0], case.values, "{}: other flags in batches", case.name);
        let [batched, all, theirs] = &mut places;
        let mut batches = || flags_in_batches(black_box(&case.bytes), black_box(batched));
        let mut whole = || crate::ours::booleans_into(black_box(&case.bytes), n, black_box(all));
        let mut rust = || {
            oracle::booleans_into(black_box(&case.bytes), n, black_box(theirs));
        };
        let mut candidates: Vec<&mut dyn FnMut()> = vec![&mut batches, &mut whole];
        if case.in_rust {
            candidates.push(&mut rust);
        }
        let times = take_turns(n, if case.in_rust { 64 } else { 1 }, samples, &mut candidates);
        let (name, rust) = (case.name.clone(), times.get(2).copied());
        FlagTimes { name, whole: times[1], batches: times[0], rust }
    };
    cases.iter().map(|case| timed(case)).collect()
}

/// Nanoseconds a row of all labels in one pass, of a column where one row of ten has no name: into lists that
/// are there, and into those of [`Labels`], which are made for it.
pub fn labels(samples: usize) -> [f64; 2] {
    let lengths: Vec<i64> = (0..NAMES as i64).map(|name| 1 + name % 20).collect();
    let block = vec![b'a'; lengths.iter().sum::<i64>() as usize];
    let flags: Vec<u8> = (0..NAMED).map(|row| u8::from(row % 10 != 3)).collect();
    let named = flags.iter().filter(|flag| **flag != 0).count();
    // Names all over the dictionary, like no pattern.
    let numbers: Vec<i64> =
        (0..named as u32).map(|row| i64::from(row.wrapping_mul(2_654_435_761) >> 8) % NAMES as i64).collect();
    let dictionary = Dictionary { block: &block, lengths: &lengths, numbers: &numbers, flags: &flags };
    let labels = Labels::new(dictionary).expect("the dictionary is right");
    let mut next = numbers.iter();
    let right = labels.iter().zip(&flags).all(|(name, flag)| match flag {
        0 => name.is_none(),
        _ => name.map(<[u8]>::len) == next.next().map(|number| lengths[*number as usize] as usize),
    });
    assert!(right, "other names");
    let [mut offsets, mut starts, mut sizes] = [vec![0; NAMES], vec![0; NAMED], vec![0; NAMED]];
    let mut into = || {
        let [offsets, starts, sizes] = [&mut offsets, &mut starts, &mut sizes].map(black_box);
        let given = label_column(black_box(dictionary), offsets, starts, sizes);
        debug_assert!(given.is_ok());
    };
    let mut made = || drop(black_box(Labels::new(black_box(dictionary))));
    let times = take_turns(NAMED, 1, samples, &mut [&mut into, &mut made]);
    [times[0], times[1]]
}

/// The three tables, with what they must show.
pub fn markdown(rows: &[Rows], flags: &[FlagTimes], [labels, made]: [f64; 2]) -> String {
    let mut text = String::new();
    rows_table(&mut text, rows);
    flags_table(&mut text, flags);
    writeln!(
        text,
        "\n## All labels in one pass: `orc_label_column`\n\n\
         {NAMED} rows, one of ten without a name, a dictionary of {NAMES} names: {labels:.1} ns a row (at most \
         {LABEL_BAR:.0}: {}); {made:.1} by `Labels` of the wrapper, which makes the lists and looks at each part once \
         more.",
        kept(labels <= LABEL_BAR)
    )
    .expect("a string takes it");
    text
}

fn kept(kept: bool) -> &'static str {
    if kept {
        "kept"
    } else {
        "NOT kept"
    }
}

fn rows_table(text: &mut String, rows: &[Rows]) {
    let title = "Rows in batches: `orc_read_rows` against one call of `orc_read_stream`, nanoseconds a row";
    head(text, title, "Runs|Stream|signed|1,024|signed|100|signed|100, wrapper|signed");
    for pair in paired(rows.iter().filter(|row| shown(&row.name)), |row| (&row.name, row.signed)) {
        let times = [0, 1, 2].map(|how| both(&pair, |row| Some(row.batches[how]))).concat();
        line(text, &pair.0, &[&both(&pair, |row| Some(row.stream)), &times[..]].concat());
    }
    let means = [0, 1, 2].map(|how| mean(rows.iter().map(|row| Some(row.batches[how] / row.stream))));
    let [large, small, wrapped] = means.map(|mean| mean.unwrap_or(f64::NAN));
    writeln!(
        text,
        "| geometric mean of times / stream, over all cases | | | {large:.2} | | {small:.2} | | {wrapped:.2} | |\n\n\
         Each batch goes into its part of the same places that the stream reader fills. The wrapper's \
         `Column::batches(100)` reads 40 batches by one call; here each is copied into its part. Of times / stream, at most \
         {} for 1,024: {}; at most {} for 100: {} (by the wrapper: {}).",
        ROW_BARS[0],
        kept(large <= ROW_BARS[0]),
        ROW_BARS[1],
        kept(small <= ROW_BARS[1]),
        kept(wrapped <= ROW_BARS[1])
    )
    .expect("a string takes it");
}

fn flags_table(text: &mut String, flags: &[FlagTimes]) {
    let title = "Flags in batches of 1,024: `orc_read_flags` against one call of `orc_read_booleans`, nanoseconds a flag";
    head(text, title, "Byte runs|Whole|In batches|Rust|Batches / whole|Rust / batches");
    for FlagTimes { name, whole, batches, rust } in flags {
        let [rust, faster] = [*rust, rust.map(|rust| rust / batches)].map(cell);
        writeln!(text, "| {name} | {whole:.3} | {batches:.3} | {rust} | {:.2} | {faster} |", batches / whole)
            .expect("a string takes it");
    }
    let over = mean(flags.iter().map(|times| Some(times.batches / times.whole))).unwrap_or(f64::NAN);
    let faster = mean(flags.iter().map(|times| Some(times.rust? / times.batches))).unwrap_or(f64::NAN);
    writeln!(
        text,
        "| geometric mean | | | | {over:.2} | {faster:.2} |\n\n\
         At most {FLAG_BAR} times the whole: {}; at least {RUST_BAR:.0} times as fast as the Rust on its first run: {}.",
        kept(over <= FLAG_BAR),
        kept(faster >= RUST_BAR)
    )
    .expect("a string takes it");
}
