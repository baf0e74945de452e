//! What is timed: buffers of runs, all of one layout.
use differential::frames::{self, Patched};
use model::random::Random;
use model::{Answer, Form, Written, WIDTHS};

/// The rows of a run in a long buffer.
const LONG: usize = 512;

/// How many runs a long buffer holds: its rows are 256 KiB.
const RUNS: usize = 32_768 / LONG;

/// The same of short repeats, ten rows each.
const REPEATS: usize = 32_768 / 10;

/// Where a case stands in the table and in the plot.
#[derive(Debug, Clone, Copy, PartialEq, Eq)]
pub enum Group {
    /// Direct runs of 512 rows: the width in bits.
    Direct(usize),
    /// Other runs in long buffers.
    Long,
    /// One short run, called for by itself.
    Single,
}

/// A buffer of runs, with the rows that they stand for.
pub struct Case {
    pub name: String,
    pub group: Group,
    pub signed: bool,
    pub bytes: Vec<u8>,
    pub rows: Vec<i64>,
    /// The Rust decoders have not written the codes 24 to 26.
    pub in_rust: bool,
}

impl Case {
    fn new(name: impl Into<String>, group: Group, signed: bool, runs: Vec<Vec<u8>>) -> Self {
        let bytes = runs.concat();
        let model::Stream::Whole { rows, .. } = model::read_stream(&bytes, 0, signed, usize::MAX) else {
            panic!("a case is whole runs");
        };
        let in_rust = !matches!(group, Group::Direct(26 | 28 | 30));
        Case { name: name.into(), group, signed, bytes, rows, in_rust }
    }
}

/// All cases.
pub fn all() -> Vec<Case> {
    let mut random = Random::new(1);
    let mut cases = Vec::new();
    for signed in [false, true] {
        for (code, bits) in WIDTHS.into_iter().enumerate() {
            let runs = (0..RUNS).map(|_| frames::direct(code, LONG, &mut random)).collect();
            cases.push(Case::new(format!("direct, width {bits}"), Group::Direct(bits), signed, runs));
        }
    }
    for signed in [false, true] {
        let mut long = |name: &str, runs: usize, run: &mut dyn FnMut(&mut Random) -> Vec<u8>| {
            let runs = (0..runs).map(|_| run(&mut random)).collect();
            cases.push(Case::new(name, Group::Long, signed, runs));
        };
        long("delta, fixed", RUNS, &mut |random| fixed(LONG, signed, random));
        for (bits, code) in [(8, 7), (16, 15)] {
            for (order, falling) in [("rising", false), ("falling", true)] {
                let name = format!("delta, width {bits}, {order}");
                long(&name, RUNS, &mut |random| packed(LONG, code, falling, signed, random));
            }
        }
        long("patched, width 8, 20 patches", RUNS, &mut |random| patched(LONG, 20, random));
        long("short repeat, 4 bytes", REPEATS, &mut |random| frames::short_repeat(4, 10, random));
    }
    for signed in [false, true] {
        let mut single =
            |name: &str, run: Vec<u8>| cases.push(Case::new(name, Group::Single, signed, vec![run]));
        single("short repeat, 5 rows", frames::short_repeat(2, 5, &mut random));
        single("direct, width 8, 8 rows", frames::direct(7, 8, &mut random));
        single("direct, width 17, 8 rows", frames::direct(16, 8, &mut random));
        single("delta, fixed, 8 rows", fixed(8, signed, &mut random));
        single("delta, width 8, 8 rows", packed(8, 7, false, signed, &mut random));
        single("patched, width 8, 8 rows, 1 patch", patched(8, 1, &mut random));
    }
    cases
}

/// A column of unsigned rows, for other tables than those of all cases.
pub fn column(name: &str, runs: Vec<Vec<u8>>) -> Case {
    Case::new(name, Group::Long, false, runs)
}

fn written(rows: &[i64], signed: bool, form: Form, width: u8) -> Vec<u8> {
    match model::write_run(rows, signed, form, width, usize::MAX) {
        Written::Run { bytes, .. } => bytes,
        Written::Refused(refusal) => panic!("a case is not written: refusal {}", refusal.number),
    }
}

fn fixed(rows: usize, signed: bool, random: &mut Random) -> Vec<u8> {
    let first = random.below(1_000_000) as i64;
    let step = random.from(1, 1000) as i64;
    let rows: Vec<i64> = (0..rows as i64).map(|k| first + step * k).collect();
    written(&rows, signed, Form::FixedDelta, 0)
}

pub fn packed(rows: usize, code: u8, falling: bool, signed: bool, random: &mut Random) -> Vec<u8> {
    let mut row = 1_000_000_000;
    let mut next = || {
        let magnitude = random.from(1, (1 << WIDTHS[code as usize]) - 1) as i64;
        row += if falling { -magnitude } else { magnitude };
        row
    };
    let rows: Vec<i64> = (0..rows).map(|_| next()).collect();
    written(&rows, signed, Form::PackedDelta, code)
}

pub fn patched(rows: usize, patches: usize, random: &mut Random) -> Vec<u8> {
    let fields = Patched { code: 7, rows, base: 2, patch_code: 7, gap_width: 8 };
    let gap = (rows / (patches + 1)) as u64;
    let list: Vec<(u64, u64)> = (0..patches).map(|_| (gap, random.from(1, 255) as u64)).collect();
    let run = frames::patched(fields, &list, random);
    assert!(matches!(model::read_run(&run, 0, false, rows), Answer::Run(_)));
    run
}
