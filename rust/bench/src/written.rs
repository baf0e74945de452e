//! Flags and bytes written as byte runs: how many a second.
use std::fmt::Write as _;
use std::hint::black_box;

use menakovitsy::{
    boolean_room, byte_room, size_of_booleans, write_booleans, write_bytes, ByteOffset, Bytes, Flags,
};
use model::random::Random;

use crate::measure::take_turns;

/// The flags or bytes of each column.
const COUNT: usize = 1_000_000;

/// The least flags a second that are asked for, in millions: of long stretches, and of random ones.
const LONG_BAR: f64 = 1_000.0;
const RANDOM_BAR: f64 = 300.0;

/// A column of flags or bytes.
struct Case {
    name: &'static str,
    given: Vec<u8>,
    /// What is asked for, in millions a second.
    bar: Option<f64>,
}

/// A column, the bytes written, and nanoseconds a flag or byte: of a copy of it, of the size alone, and of
/// writing, which has the size in it.
pub struct Written {
    name: &'static str,
    bytes: usize,
    copy: f64,
    size: Option<f64>,
    write: f64,
    bar: Option<f64>,
}

/// Stretches of equal values, each of 1 to `most` of them.
fn stretches(most: usize, random: &mut Random) -> Vec<u8> {
    let mut given = Vec::with_capacity(COUNT);
    for value in [0, 1].into_iter().cycle() {
        if given.len() == COUNT {
            break;
        }
        let length = random.from(1, most).min(COUNT - given.len());
        given.extend(vec![value; length]);
    }
    given
}

fn flag_cases(random: &mut Random) -> Vec<Case> {
    let mut any = |name, bar, flag: &mut dyn FnMut(&mut Random) -> bool| {
        let given = (0..COUNT).map(|_| u8::from(flag(random))).collect();
        Case { name, given, bar }
    };
    let mut cases = vec![
        any("all true", Some(LONG_BAR), &mut |_| true),
        any("random, even", Some(RANDOM_BAR), &mut |random| random.once_in(2)),
        any("one in 1,000 true", None, &mut |random| random.once_in(1_000)),
        any("one in 100 true", None, &mut |random| random.once_in(100)),
    ];
    let long = stretches(20_000, random);
    cases.insert(1, Case { name: "long stretches, 1 to 20,000 flags", given: long, bar: Some(LONG_BAR) });
    cases.push(Case { name: "stretches of 1 to 200 flags", given: stretches(200, random), bar: None });
    cases
}

fn byte_cases(random: &mut Random) -> Vec<Case> {
    let of = |name, given| Case { name, given, bar: None };
    vec![
        of("one byte", vec![7; COUNT]),
        of("random", (0..COUNT).map(|_| random.byte()).collect()),
        of("stretches of four", (0..COUNT / 4).flat_map(|_| [random.byte(); 4]).collect()),
    ]
}

/// Times flags. What is written was read back as the flags before its time counts.
pub fn flags(samples: usize) -> Vec<Written> {
    let timed = |Case { name, given, bar }: Case| {
        let mut out = vec![0; boolean_room(given.len())];
        let run = write_booleans(&given, &mut out).expect("there is room");
        let (mut back, mut copied) = (vec![7; given.len()], vec![7; given.len()]);
        Flags::new(&out[..run.bytes.0]).read_into(&mut back).expect("it reads back");
        assert_eq!(back, given, "{name}: other flags");
        let mut copy = || black_box(&mut copied[..]).copy_from_slice(black_box(&given));
        let mut size = || {
            black_box(size_of_booleans(black_box(&given)));
        };
        let mut write = || {
            let written = write_booleans(black_box(&given), black_box(&mut out));
            debug_assert!(written.is_ok());
        };
        let times = take_turns(given.len(), 1, samples, &mut [&mut copy, &mut size, &mut write]);
        Written { name, bytes: run.bytes.0, copy: times[0], size: Some(times[1]), write: times[2], bar }
    };
    flag_cases(&mut Random::new(5)).into_iter().map(timed).collect()
}

/// Times bytes, likewise.
pub fn bytes(samples: usize) -> Vec<Written> {
    let timed = |Case { name, given, bar }: Case| {
        let mut out = vec![0; byte_room(given.len())];
        let bytes = write_bytes(&given, &mut out).expect("there is room").0;
        let back = Bytes::new(&out[..bytes]).next(ByteOffset(given.len())).expect("it reads back");
        assert_eq!(back, given, "{name}: other bytes");
        let mut copied = vec![7; given.len()];
        let mut copy = || black_box(&mut copied[..]).copy_from_slice(black_box(&given));
        let mut write = || {
            let written = write_bytes(black_box(&given), black_box(&mut out));
            debug_assert!(written.is_ok());
        };
        let times = take_turns(given.len(), 1, samples, &mut [&mut copy, &mut write]);
        Written { name, bytes, copy: times[0], size: None, write: times[1], bar }
    };
    byte_cases(&mut Random::new(6)).into_iter().map(timed).collect()
}

/// Millions a second.
fn pace(nanoseconds: f64) -> f64 {
    1_000.0 / nanoseconds
}

/// Both tables, with what the first must show.
pub fn markdown(flags: &[Written], bytes: &[Written]) -> String {
    let mut text = format!(
        "\n## Flags written: `orc_write_booleans`, through `write_booleans` of the wrapper\n\n\
         {COUNT} flags each, a byte a flag; what is written was read back as the flags. Writing has the size in it: \
         the first pass measures, and only if there is room the second writes.\n\n\
         | Flags | Bytes | Copy of the flags, ns a flag | Size alone | Writing | Million flags a second | Asked |\n\
         |---|---:|---:|---:|---:|---:|---|\n"
    );
    for Written { name, bytes, copy, size, write, bar } in flags {
        let asked = match bar {
            None => String::from("-"),
            Some(bar) if pace(*write) >= *bar => format!("{bar:.0}: kept"),
            Some(bar) => format!("{bar:.0}: NOT kept"),
        };
        let size = size.unwrap_or(f64::NAN);
        let pace = pace(*write);
        writeln!(text, "| {name} | {bytes} | {copy:.3} | {size:.2} | {write:.2} | {pace:.0} | {asked} |")
            .expect("a string takes it");
    }
    writeln!(
        text,
        "\n## Bytes written: `orc_write_bytes`, through `write_bytes` of the wrapper\n\n\
         {COUNT} bytes each.\n\n\
         | Bytes | Written | Copy, ns a byte | Writing | Million bytes a second |\n|---|---:|---:|---:|---:|"
    )
    .expect("a string takes it");
    for Written { name, bytes, copy, write, .. } in bytes {
        writeln!(text, "| {name} | {bytes} | {copy:.3} | {write:.2} | {:.0} |", pace(*write))
            .expect("a string takes it");
    }
    text
}
