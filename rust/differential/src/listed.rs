//! The rule of comparison: what the Rust may answer where the rules give an answer, and the list
//! of differences. docs/DIFFERENCES.md has the list in words.
use model::{Answer, Booleans, Faults};
use oracle::{Outcome, Run};

/// A difference that is known and listed.
#[derive(Debug, Clone, Copy, PartialEq, Eq, PartialOrd, Ord)]
pub enum Difference {
    Code24To26,
    EmptyList,
    OneRowDelta,
    EntryOver64,
    PatchTooLarge,
    TenthByte,
    EleventhByte,
    PlaceOutside,
    PlaceShared,
    SkipLast,
    RowsAfterError,
    Control128,
    RepeatGoesOn,
    LiteralsGoOn,
    ShortValue,
}

/// What one comparison came to.
#[derive(Debug, Clone, Copy, PartialEq, Eq, PartialOrd, Ord)]
pub enum Sort {
    /// No bytes, and both say so.
    End,
    /// The same rows and bytes: of a run, a stream, booleans or a byte value.
    Same,
    /// The rules refuse with this number, and the Rust gives an error.
    Refused(u8),
    Listed(Difference),
}

/// What a call was, beside its bytes.
#[derive(Debug, Clone, Copy, PartialEq, Eq, PartialOrd, Ord)]
pub enum Call {
    Run { signed: bool },
    Stream { signed: bool },
    Booleans { n: usize },
    Value { n: usize },
    ReadBack { signed: bool },
}

/// A listed difference with its smallest input.
pub struct Entry {
    pub difference: Difference,
    pub name: &'static str,
    pub call: Call,
    pub smallest: &'static str,
}

impl Entry {
    const fn run(difference: Difference, name: &'static str, smallest: &'static str) -> Self {
        Entry { difference, name, call: Call::Run { signed: false }, smallest }
    }

    /// The smallest input as bytes.
    pub fn bytes(&self) -> Vec<u8> {
        let digits: Vec<u32> = self.smallest.chars().filter_map(|digit| digit.to_digit(16)).collect();
        digits.chunks(2).map(|two| (two[0] * 16 + two[1]) as u8).collect()
    }
}

/// The list. "Smallest" is fewest bytes, then the lowest first byte that differs.
pub const LIST: [Entry; 15] = [
    Entry::run(Difference::Code24To26, "code-24-to-26", "70"),
    Entry::run(Difference::EmptyList, "empty-list", "80 00 00 00 00 00"),
    Entry::run(Difference::OneRowDelta, "one-row-delta", "C6 00 00 00 00"),
    Entry::run(Difference::EntryOver64, "entry-over-64", "80 00 1F 00 00 00"),
    Entry::run(Difference::PatchTooLarge, "patch-too-large", "BA 00 10 01 00 00 00 00 00 00 00 40 00 00"),
    Entry::run(Difference::TenthByte, "tenth-byte", "C0 00 00 80 80 80 80 80 80 80 80 80 02"),
    Entry::run(Difference::EleventhByte, "eleventh-byte", "C0 00 00 80 80 80 80 80 80 80 80 80 80 00"),
    Entry::run(Difference::PlaceOutside, "place-outside", "80 00 00 01 00 00 80"),
    Entry::run(Difference::PlaceShared, "place-shared", "80 00 00 02 00 00 00"),
    Entry::run(Difference::SkipLast, "skip-last", "80 00 00 E1 00 00 FF 00"),
    Entry {
        difference: Difference::RowsAfterError,
        name: "rows-after-error",
        call: Call::Stream { signed: false },
        smallest: "C0 00 00",
    },
    Entry {
        difference: Difference::Control128,
        name: "control-128",
        call: Call::Booleans { n: 1 },
        smallest: "80",
    },
    Entry {
        difference: Difference::RepeatGoesOn,
        name: "repeat-goes-on",
        call: Call::Booleans { n: 25 },
        smallest: "00 00",
    },
    Entry {
        difference: Difference::LiteralsGoOn,
        name: "literals-go-on",
        call: Call::Booleans { n: 9 },
        smallest: "FF 00",
    },
    Entry {
        difference: Difference::ShortValue,
        name: "short-value",
        call: Call::Value { n: 1 },
        smallest: "",
    },
];

impl Difference {
    pub fn entry(self) -> &'static Entry {
        LIST.iter().find(|entry| entry.difference == self).expect("every difference is listed")
    }
}

/// Whether a run's bytes, as far as they go, name one of the codes 24 to 26, which the Rust has not
/// written: in the first header byte, or as a patch width.
fn has_unwritten_code(bytes: &[u8]) -> bool {
    let unwritten = |code: u8| (24..=26).contains(&code);
    match bytes {
        [first, ..] if first >> 6 != 0 && unwritten(first >> 1 & 31) => true,
        [first, _, third, ..] => first >> 6 == 2 && unwritten(third & 31),
        _ => false,
    }
}

/// Whether a run is patched, with an empty list.
fn has_empty_list(bytes: &[u8]) -> bool {
    matches!(bytes, [first, _, _, fourth, ..] if first >> 6 == 2 && fourth & 31 == 0)
}

/// The first tenth byte above 1 of a delta run's two varints, which stand after two header bytes.
fn tenth_byte(bytes: &[u8]) -> Option<u8> {
    let mut rest = bytes.get(2..)?;
    for _ in 0..2 {
        let length = 1 + rest.iter().take_while(|byte| **byte >= 128).count();
        if let Some(tenth) = rest.get(9).filter(|tenth| length >= 10 && **tenth > 1) {
            return Some(*tenth);
        }
        rest = rest.get(length..)?;
    }
    None
}

/// The sort of a run's two answers; nothing for a difference that is not listed.
pub fn of_run(bytes: &[u8], paper: &Answer, rust: &Run) -> Option<Sort> {
    use Difference::*;
    let listed = |difference| Some(Sort::Listed(difference));
    let number = match (paper, rust) {
        (Answer::End, Run::End) => return Some(Sort::End),
        (Answer::Run(run), Run::Rows { rows, consumed }) => {
            return (run.rows == *rows && run.consumed == *consumed).then_some(Sort::Same);
        }
        (Answer::Run(_), Run::Panic) if has_unwritten_code(bytes) => return listed(Code24To26),
        (Answer::Run(_), Run::Panic) if has_empty_list(bytes) => return listed(EmptyList),
        (Answer::Refused(refusal), _) => refusal.number,
        _ => return None,
    };
    match (number, rust) {
        (_, Run::Panic) if has_unwritten_code(bytes) => listed(Code24To26),
        (1 | 2 | 4..=6 | 12..=14, Run::Error(_)) => Some(Sort::Refused(number)),
        (2, Run::Rows { .. } | Run::Panic) => listed(EntryOver64),
        (4, Run::Panic) => listed(OneRowDelta),
        // With the top bit set the Rust reads on, otherwise it drops the bits above 2^64.
        (5, Run::Rows { .. }) if tenth_byte(bytes)? < 128 => listed(TenthByte),
        (5, Run::Rows { .. }) => listed(EleventhByte),
        (3 | 7, Run::Rows { .. } | Run::Panic) => of_list(model::list_faults(bytes)?, rust),
        _ => None,
    }
}

/// The sort of a list that is refused. The Rust walks the places until it meets one that it never
/// reaches, so it may give rows even where the list also ends with a skip. A patch that is too large
/// is refused with 3 wherever it stands; what the Rust makes of it is told by its rows.
fn of_list(faults: Faults, rust: &Run) -> Option<Sort> {
    let difference = match rust {
        Run::Panic if faults.last_skip => Difference::SkipLast,
        Run::Rows { .. } if faults.too_large => Difference::PatchTooLarge,
        Run::Rows { .. } if faults.shared => Difference::PlaceShared,
        Run::Rows { .. } if faults.outside => Difference::PlaceOutside,
        _ => return None,
    };
    Some(Sort::Listed(difference))
}

/// The sort of a stream's two answers. They are held to each other run by run: the iterator gives
/// the joined rows of the runs before the first that is not the same, and then what the run decoder
/// gives of that one.
pub fn of_stream(bytes: &[u8], signed: bool, iterator: &oracle::Stream) -> Option<Sort> {
    let mut joined = Vec::new();
    let mut at = 0;
    let (sort, rust, paper) = loop {
        let paper = model::read_run(bytes, at, signed, 512);
        let rust = oracle::read_run(&bytes[at..], signed);
        let sort = of_run(&bytes[at..], &paper, &rust)?;
        match (sort, &paper) {
            (Sort::Same, Answer::Run(run)) => {
                joined.extend(run.rows.iter().map(|row| Ok(*row)));
                at += run.consumed;
            }
            _ => break (sort, rust, paper),
        }
    };
    let (before, after) = iterator.items.split_at_checked(joined.len())?;
    if before != joined {
        return None;
    }
    match rust {
        Run::End => (after.is_empty() && iterator.consumed == at).then_some(Sort::Same),
        Run::Panic => (after.is_empty() && iterator.stopped == oracle::Stopped::Panic).then_some(sort),
        Run::Rows { rows, .. } => {
            let given = after.get(..rows.len())?;
            given.iter().zip(&rows).all(|(item, row)| *item == Ok(*row)).then_some(sort)
        }
        Run::Error(case) => {
            let (first, more) = after.split_first()?;
            let delta = bytes[at] >> 6 == 3 && matches!(paper, Answer::Refused(_));
            match (first == &Err(case), more.is_empty()) {
                (true, true) => Some(sort),
                (true, false) if delta && more.iter().all(Result::is_ok) => {
                    Some(Sort::Listed(Difference::RowsAfterError))
                }
                _ => None,
            }
        }
    }
}

/// The sort of two answers of booleans. They agree within the first run, control 128 aside.
pub fn of_booleans(bytes: &[u8], n: usize, paper: &Booleans, rust: &Outcome<bool>) -> Option<Sort> {
    let same = match (paper, rust) {
        (Booleans::Given { values, consumed }, Outcome::Given { values: given, consumed: taken }) => {
            values == given && consumed == taken
        }
        _ => false,
    };
    if same {
        return Some(Sort::Same);
    }
    if n > 0 && bytes.first() == Some(&128) {
        let panicked = *rust == Outcome::Panic { before: Vec::new() };
        return panicked.then_some(Sort::Listed(Difference::Control128));
    }
    let Some((first, _)) = model::first_run(bytes) else {
        // No control byte, or a run that is cut after it.
        let number = if bytes.is_empty() { 6 } else { 13 };
        let refused = matches!((paper, rust), (Booleans::Refused(refusal), Outcome::Error { before, .. })
            if refusal.number == number && before.is_empty());
        return refused.then_some(Sort::Refused(number));
    };
    let (Outcome::Given { values: given, .. }
    | Outcome::Error { before: given, .. }
    | Outcome::Panic { before: given }) = rust;
    let bits: Vec<bool> =
        first.iter().flat_map(|byte| (0..8).rev().map(move |k| byte >> k & 1 == 1)).collect();
    if n <= bits.len() || given.get(..bits.len()) != Some(&bits[..]) {
        return None;
    }
    let repeat = bytes[0] < 128;
    Some(Sort::Listed(if repeat { Difference::RepeatGoesOn } else { Difference::LiteralsGoOn }))
}

/// The sort of two answers of a byte value.
pub fn of_value(bytes: &[u8], paper: &model::Value, rust: &Outcome<u8>) -> Option<Sort> {
    match (paper, rust) {
        (model::Value::Given(part), Outcome::Given { values, consumed }) => {
            (part == values && part.len() == *consumed).then_some(Sort::Same)
        }
        (model::Value::Refused(_), Outcome::Given { values, consumed }) => {
            let rest = values == bytes && *consumed == bytes.len();
            rest.then_some(Sort::Listed(Difference::ShortValue))
        }
        _ => None,
    }
}
