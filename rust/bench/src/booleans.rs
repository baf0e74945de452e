//! Booleans: what is timed, and the times.
use std::hint::black_box;

use model::random::Random;
use model::Booleans;

use crate::measure::take_turns;

/// A buffer of byte runs, and the booleans that they stand for.
pub struct Flags {
    pub name: String,
    pub bytes: Vec<u8>,
    pub values: Vec<u8>,
    /// The Rust decoder agrees within its first run only: past it, it is not timed.
    pub in_rust: bool,
}

/// Nanoseconds a boolean.
#[derive(Debug, Clone, Copy)]
pub struct FlagTimes {
    pub ours: Option<f64>,
    pub rust: Option<f64>,
    pub copy: f64,
}

impl Flags {
    fn new(name: &str, bytes: Vec<u8>, n: usize, in_rust: bool) -> Self {
        let Booleans::Given { values, .. } = model::read_booleans(&bytes, 0, n, n) else {
            panic!("{name}: a case is whole runs");
        };
        let values = values.into_iter().map(u8::from).collect();
        Flags { name: name.into(), bytes, values, in_rust }
    }
}

/// A run of that many literal bytes, 1 to 128.
fn literals(count: usize, random: &mut Random) -> Vec<u8> {
    let mut run = vec![(256 - count) as u8];
    run.extend((0..count).map(|_| random.byte()));
    run
}

/// All cases. The Rust has no run of 128 literals.
pub fn all() -> Vec<Flags> {
    let mut random = Random::new(3);
    let mut cases = Vec::new();
    for copies in [3, 16, 130] {
        let run = vec![copies as u8 - 3, random.byte()];
        cases.push(Flags::new(&format!("repeat of {copies} bytes"), run, 8 * copies, true));
    }
    for count in [2, 16, 127] {
        let run = literals(count, &mut random);
        cases.push(Flags::new(&format!("{count} literal bytes"), run, 8 * count, true));
    }
    let mut many = |name: &str, bytes: usize, run: &mut dyn FnMut(&mut Random) -> Vec<u8>| {
        let runs = 4096usize.div_ceil(bytes);
        let buffer: Vec<u8> = (0..runs).flat_map(|_| run(&mut random)).collect();
        cases.push(Flags::new(name, buffer, 8 * bytes * runs, false));
    };
    many("runs of 130 copies, 32,768 and more", 130, &mut |random| vec![127, random.byte()]);
    many("runs of 128 literals, 32,768", 128, &mut |random| literals(128, random));
    many("runs of 3 copies, 32,768 and more", 3, &mut |random| vec![0, random.byte()]);
    cases
}

/// Times one case. Each candidate's booleans are compared before its time counts.
pub fn measure(case: &Flags, samples: usize) -> FlagTimes {
    let n = case.values.len();
    let (mut given, mut copied) = (vec![7; n], vec![7; n]);
    let mut rust = || {
        oracle::booleans_into(black_box(&case.bytes), n, black_box(&mut given));
    };
    let mut copy = || black_box(&mut copied[..]).copy_from_slice(black_box(&case.values));
    let mut candidates: Vec<&mut dyn FnMut()> = vec![&mut copy];
    if case.in_rust {
        candidates.push(&mut rust);
    }
    #[cfg(feature = "ours")]
    let mut lent = vec![7; n];
    #[cfg(feature = "ours")]
    let mut ours = || crate::ours::booleans_into(black_box(&case.bytes), n, black_box(&mut lent));
    #[cfg(feature = "ours")]
    candidates.push(&mut ours);
    let first = if case.in_rust { 64 } else { 1 };
    let mut times = take_turns(n, first, samples, &mut candidates).into_iter();
    let copy = times.next().expect("the copy is timed");
    let rust = if case.in_rust { times.next() } else { None };
    let ours = times.next();
    assert!(!case.in_rust || given == case.values, "{}: the Rust gives others", case.name);
    #[cfg(feature = "ours")]
    assert_eq!(lent, case.values, "{}: others", case.name);
    FlagTimes { ours, rust, copy }
}
