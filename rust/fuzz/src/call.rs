//! A call, and what the model of the rules answers it.
pub mod batched;
pub mod byte_runs;
mod indexed;
mod outcome;
mod parts;
mod planned;
mod questions;
mod reading;
mod rescued;
mod whole;
mod writing;

use differential::frames;
use differential::stages::columns;
use differential::stages::convert;
use differential::stages::count;
use differential::stages::index;
use differential::stages::labels::{self, Asked};
use differential::stages::rescue;
use differential::stages::salvage;
use menakovitsy::exported::{
    CHECK_WORDS, COLUMN_WORDS, CONVERT_WORDS, COUNT_WORDS, LABEL_WORDS, PART_WORDS, RESCUE_WORDS, RUN_WORDS,
    SALVAGE_WORDS, STATE_WORDS, STREAM_WORDS, TOO_FEW_WORDS,
};
use model::random::Random;

pub(crate) use outcome::named;
pub use outcome::{Lending, Outcome};

/// The most places that are lent for rows, and for bytes.
pub const MOST: usize = 5000;

/// One call of an exported function: what it is given, and how many places it is lent.
#[derive(Debug, Clone, PartialEq, Eq)]
pub enum Call {
    Run { input: Vec<u8>, flag: u64, bytes: usize },
    RunAt { input: Vec<u8>, at: u64, flag: u64, places: usize },
    Stream { input: Vec<u8>, at: u64, flag: u64, places: usize },
    Booleans { input: Vec<u8>, at: u64, n: u64, places: usize },
    Value { input: Vec<u8>, at: u64, n: u64 },
    Write { rows: Vec<i64>, flag: u64, form: u64, width: u64, places: usize },
    Patched { rows: Vec<i64>, base: i64, width: u64, places: usize },
    Narrowest { number: u64 },
    Label(Asked),
    Part(parts::Asked),
    PartStart { state: usize },
    Count { input: Vec<u8>, n: u64 },
    Index(index::Asked),
    Salvage(salvage::Asked, usize),
    Convert(convert::Asked),
    Column(columns::Asked),
    CheckColumn(columns::Asked, u64),
    Plan { rows: Vec<i64>, flag: u64, lent: [usize; 5] },
    Batched(batched::Asked),
    ByteRuns(byte_runs::Asked),
    Rescue(rescue::Asked),
}

impl Call {
    /// Any call.
    pub fn any(random: &mut Random) -> Self {
        let flag = if random.once_in(8) { random.any() } else { random.below(2) as u64 };
        let places = random.pick(&[0, 1, 5, 12, 64, 512, 1000]);
        match random.below(49) {
            0..=1 => {
                let bytes = 8 * places + if random.once_in(2) { random.below(8) } else { 0 };
                Call::Run { input: frames::any_frame(random), flag, bytes: bytes.min(MOST) }
            }
            2..=4 => {
                let input = frames::any_frame(random);
                Call::RunAt { at: frames::any_position(input.len(), random), input, flag, places }
            }
            5..=7 => {
                let input = frames::any_stream(random);
                Call::Stream { at: frames::any_position(input.len(), random), input, flag, places }
            }
            8..=9 => {
                let input = frames::any_booleans(random);
                let most = 8 * input.len() + 40;
                let n = if random.once_in(32) { random.any() } else { random.below(most) as u64 };
                let places = random.pick(&[0, 8, 64, 2000, MOST]);
                Call::Booleans { at: frames::any_position(input.len(), random), input, n, places }
            }
            10..=11 => {
                let input = frames::any_frame(random);
                let most = input.len() + 3;
                let n = if random.once_in(8) { random.any() } else { random.below(most) as u64 };
                Call::Value { at: frames::any_position(input.len(), random), input, n }
            }
            12..=14 => writing::any(flag, random),
            15..=16 => Call::Label(labels::any(random)),
            17..=18 => writing::any_patched(random),
            19..=20 => Call::Part(parts::any(flag, random)),
            21 => Call::PartStart { state: random.pick(&[0, 6, 7, 8]) },
            22..=23 => {
                let (input, n) = count::any(random);
                Call::Count { input, n }
            }
            24..=26 => Call::Index(index::any(random)),
            27..=28 => whole::any_salvage(flag, random),
            29..=30 => Call::Convert(convert::Asked { flag, ..convert::any(random) }),
            31..=34 => planned::any(flag, random),
            35..=42 => Call::Batched(batched::any(flag, random)),
            43..=45 => Call::ByteRuns(byte_runs::any(random)),
            46..=47 => rescued::any(flag, random),
            _ => {
                let shift = random.below(64);
                Call::Narrowest { number: random.any() >> shift }
            }
        }
    }

    /// The function's name.
    pub fn function(&self) -> &'static str {
        match self {
            Call::Run { .. } => "orc_read_run",
            Call::RunAt { .. } => "orc_read_run_at",
            Call::Stream { .. } => "orc_read_stream",
            Call::Booleans { .. } => "orc_read_booleans",
            Call::Value { .. } => "orc_byte_value",
            Call::Write { .. } => "orc_write_run",
            Call::Patched { .. } => "orc_write_patched",
            Call::Narrowest { .. } => "orc_narrowest_code",
            Call::Label(_) => "orc_label",
            Call::Part(asked) => asked.function(),
            Call::PartStart { .. } => "orc_part_start",
            Call::Count { .. } => "orc_count_true",
            Call::Index(asked) => indexed::function(asked).0,
            Call::Salvage(..) => "orc_salvage",
            Call::Convert(_) => "orc_convert",
            Call::Column(_) => "orc_write_column",
            Call::CheckColumn(..) => "orc_check_column",
            Call::Plan { .. } => "orc_plan",
            Call::Batched(asked) => asked.function().0,
            Call::ByteRuns(asked) => asked.function().0,
            Call::Rescue(_) => "orc_rescue",
        }
    }

    /// How many words its answer has.
    pub fn words(&self) -> usize {
        match self {
            Call::Run { .. } | Call::Narrowest { .. } | Call::PartStart { .. } | Call::Plan { .. } => 0,
            Call::Stream { .. } => STREAM_WORDS,
            Call::Label(_) => LABEL_WORDS,
            Call::Part(_) => PART_WORDS,
            Call::Count { .. } => COUNT_WORDS,
            Call::Index(asked) => indexed::function(asked).1,
            Call::Salvage(..) => SALVAGE_WORDS,
            Call::Convert(_) => CONVERT_WORDS,
            Call::Column(_) => COLUMN_WORDS,
            Call::CheckColumn(..) => CHECK_WORDS,
            Call::Batched(asked) => asked.function().1,
            Call::ByteRuns(asked) => asked.function().1,
            Call::Rescue(_) => RESCUE_WORDS,
            _ => RUN_WORDS,
        }
    }

    /// The words of a reader in parts, before the call and after it; none of any other call.
    pub fn state(&self, words: usize) -> (Vec<u64>, Vec<u64>) {
        match self {
            Call::Part(asked) => (asked.state.clone(), asked.expected(words).1),
            Call::PartStart { state } if *state < STATE_WORDS => (vec![1; *state], vec![1; *state]),
            Call::PartStart { state } => {
                let behind = vec![1; *state - STATE_WORDS];
                (vec![1; *state], [vec![0; STATE_WORDS], behind].concat())
            }
            _ => (vec![], vec![]),
        }
    }

    /// What it is lent, but for the words.
    pub fn lending(&self) -> Lending<'_> {
        let none = Lending::default();
        match self {
            Call::Run { input, bytes, .. } => Lending { input, bytes: *bytes, ..none },
            Call::RunAt { input, places, .. } | Call::Stream { input, places, .. } => {
                Lending { input, rows: *places, ..none }
            }
            Call::Booleans { input, places, .. } => Lending { input, bytes: *places, ..none },
            Call::Value { input, .. } | Call::Count { input, .. } => Lending { input, ..none },
            Call::Write { rows, places, .. } | Call::Patched { rows, places, .. } => {
                Lending { given: rows, bytes: *places, ..none }
            }
            Call::Narrowest { .. } | Call::PartStart { .. } => none,
            Call::Part(asked) => Lending {
                input: asked.part.as_deref().unwrap_or_default(),
                rows: asked.places,
                bytes: asked.held.len(),
                ..none
            },
            Call::Label(Asked { block, lengths, numbers, flags, fallback, .. }) => {
                Lending { input: block, given: lengths, numbers, flags, fallback, ..none }
            }
            Call::Index(asked) => indexed::lending(asked),
            Call::Salvage(asked, report) => Lending {
                input: &asked.input,
                columns: [&asked.starts, &asked.counts, &[], &[], &[]],
                bytes: asked.places,
                report: *report,
                ..none
            },
            Call::Convert(asked) => Lending { input: &asked.input, bytes: asked.places.min(MOST), ..none },
            Call::Column(asked) => {
                Lending { given: &asked.rows, columns: asked.lent(), bytes: asked.places, ..none }
            }
            Call::CheckColumn(asked, _) => Lending { given: &asked.rows, columns: asked.lent(), ..none },
            Call::Plan { rows, lent, .. } => Lending { given: rows, lent_columns: *lent, ..none },
            Call::Batched(asked) => asked.lending(),
            Call::ByteRuns(asked) => asked.lending(),
            Call::Rescue(asked) => rescued::lending(asked),
        }
    }

    /// What the call comes to, lent that many words.
    pub fn expected(&self, words: usize) -> Outcome {
        if words < self.words() && !matches!(self, Call::Part(_)) {
            return Outcome { returned: TOO_FEW_WORDS, ..Outcome::default() };
        }
        match self {
            Call::Run { input, flag, bytes } => reading::packed(input, *flag != 0, bytes / 8),
            Call::RunAt { input, at, flag, places } => reading::run(input, *at as usize, *flag != 0, *places),
            Call::Stream { input, at, flag, places } => {
                reading::stream(input, *at as usize, *flag != 0, *places)
            }
            Call::Booleans { input, at, n, places } => {
                reading::booleans(input, *at as usize, *n as usize, *places)
            }
            Call::Value { input, at, n } => reading::value(input, *at as usize, *n as usize),
            Call::Write { rows, flag, form, width, places } => {
                writing::written(rows, *flag != 0, *form, *width, *places)
            }
            Call::Patched { rows, base, width, places } => writing::patched(rows, *base, *width, *places),
            Call::Label(asked) => questions::label(asked),
            Call::Part(asked) => asked.expected(words).0,
            Call::PartStart { state } => {
                let returned = if *state < STATE_WORDS { TOO_FEW_WORDS } else { 0 };
                Outcome { returned, ..Outcome::default() }
            }
            Call::Count { input, n } => questions::counted(input, *n),
            Call::Index(asked) => indexed::outcome(asked),
            Call::Salvage(asked, report) => whole::salvaged(asked, *report),
            Call::Convert(asked) => whole::converted(asked),
            Call::Column(asked) => planned::written(asked),
            Call::CheckColumn(asked, room) => planned::checked(asked, *room),
            Call::Batched(asked) => asked.outcome(),
            Call::ByteRuns(asked) => asked.outcome(),
            Call::Rescue(asked) => rescued::outcome(asked),
            // What it proposes has no one right value: `Session` holds it to its safety.
            Call::Plan { .. } => Outcome::default(),
            Call::Narrowest { number } => {
                Outcome { returned: u64::from(model::narrowest_code(*number)), ..Outcome::default() }
            }
        }
    }
}
