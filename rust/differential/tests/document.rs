//! docs/DIFFERENCES.md: every line of its tables is run again.
use differential::listed::LIST;
use model::{Answer, Booleans, Stream, Value};
use oracle::{Outcome, Run, Stopped};

const DOCUMENT: &str = include_str!("../../../docs/DIFFERENCES.md");

/// `80*10` is ten bytes of 80.
fn bytes(input: &str) -> Vec<u8> {
    let mut bytes = Vec::new();
    for word in input.split_whitespace() {
        let (byte, times) = word.split_once('*').unwrap_or((word, "1"));
        let byte = u8::from_str_radix(byte, 16).expect("a byte in hexadecimal");
        bytes.extend(vec![byte; times.parse().expect("how many times")]);
    }
    bytes
}

fn rows(rows: &[i64]) -> String {
    let rows: Vec<String> = rows.iter().map(i64::to_string).collect();
    format!("rows {}", rows.join(" "))
}

fn booleans(values: &[bool]) -> String {
    let runs = values.chunk_by(|one, other| one == other);
    runs.map(|run| format!("{} {}", run.len(), run[0])).collect::<Vec<_>>().join(" ")
}

fn value(part: &[u8]) -> String {
    let hex: String = part.iter().map(|byte| format!("{byte:02X}")).collect();
    format!("value of {} {hex}", part.len()).trim_end().into()
}

/// The parts that there are, with commas between them.
fn joined(parts: impl IntoIterator<Item = String>) -> String {
    parts.into_iter().filter(|part| !part.is_empty()).collect::<Vec<_>>().join(", ")
}

fn run(bytes: &[u8], signed: bool) -> [String; 2] {
    let read = |given: &[i64], consumed| format!("{}, {consumed} bytes", rows(given));
    let paper = match model::read_run(bytes, 0, signed, 512) {
        Answer::End => "end".into(),
        Answer::Run(run) => read(&run.rows, run.consumed),
        Answer::Refused(refusal) => format!("refused {}", refusal.number),
    };
    let rust = match oracle::read_run(bytes, signed) {
        Run::End => "end".into(),
        Run::Rows { rows, consumed } => read(&rows, consumed),
        Run::Error(_) => "error".into(),
        Run::Panic => "panic".into(),
    };
    #[cfg(feature = "ours")]
    assert_eq!(ours::run(bytes, signed), paper);
    [paper, rust]
}

/// The linked library's answers, in the same words.
#[cfg(feature = "ours")]
mod ours {
    use menakovitsy::{ByteOffset, RowNumber, Sign};

    use super::{booleans, joined, rows, value};

    const START: ByteOffset = ByteOffset(0);

    fn sign(signed: bool) -> Sign {
        if signed {
            Sign::Signed
        } else {
            Sign::Unsigned
        }
    }

    pub fn run(bytes: &[u8], signed: bool) -> String {
        let mut places = [0; 512];
        match menakovitsy::read_run(bytes, START, sign(signed), &mut places) {
            Ok(None) => "end".into(),
            Ok(Some(run)) => format!("{}, {} bytes", rows(&places[..run.rows.0]), run.bytes.0),
            Err(refused) => format!("refused {}", refused.refusal.number()),
        }
    }

    pub fn stream(bytes: &[u8], signed: bool) -> String {
        let mut places = [0; 10_000];
        let (read, end) = match menakovitsy::read_stream(bytes, START, sign(signed), &mut places) {
            Ok(read) => (read, format!("{} bytes", read.bytes.0)),
            Err(told) => (told.before, format!("refused {}", told.refused.refusal.number())),
        };
        let given = &places[..read.rows.0];
        joined([if given.is_empty() { String::new() } else { rows(given) }, end])
    }

    pub fn some_booleans(bytes: &[u8], n: usize) -> String {
        let mut places = vec![0; n];
        match menakovitsy::read_booleans(bytes, START, RowNumber(n), &mut places) {
            Ok(run) => {
                let values: Vec<bool> = places.iter().map(|place| *place == 1).collect();
                format!("{}, {} bytes", booleans(&values), run.bytes.0)
            }
            Err(refused) => format!("refused {}", refused.refusal.number()),
        }
    }

    pub fn byte_value(bytes: &[u8], n: usize) -> String {
        match menakovitsy::byte_value(bytes, START, n.into()) {
            Ok(part) => value(part),
            Err(refused) => format!("refused {}", refused.refusal.number()),
        }
    }
}

fn stream(bytes: &[u8], signed: bool) -> [String; 2] {
    let some = |given: &[i64]| if given.is_empty() { String::new() } else { rows(given) };
    let paper = match model::read_stream(bytes, 0, signed, 10_000) {
        Stream::Whole { rows, consumed, .. } => joined([some(&rows), format!("{consumed} bytes")]),
        Stream::Refused { refusal, rows, .. } => joined([some(&rows), format!("refused {}", refusal.number)]),
    };
    #[cfg(feature = "ours")]
    assert_eq!(ours::stream(bytes, signed), paper);
    let iterator = oracle::read_stream(bytes, signed, 10_000);
    let given = iterator.items.chunk_by(|one, other| one.is_ok() && other.is_ok());
    let given = given.map(|items| match items[0] {
        Ok(_) => rows(&items.iter().flatten().copied().collect::<Vec<_>>()),
        Err(_) => "error".into(),
    });
    let end = if iterator.stopped == Stopped::Panic { "panic" } else { "" };
    [paper, joined(given.chain([end.into()]))]
}

fn some_booleans(bytes: &[u8], n: usize) -> [String; 2] {
    let paper = match model::read_booleans(bytes, 0, n, n) {
        Booleans::Given { values, consumed } => format!("{}, {consumed} bytes", booleans(&values)),
        Booleans::Refused(refusal) => format!("refused {}", refusal.number),
    };
    #[cfg(feature = "ours")]
    assert_eq!(ours::some_booleans(bytes, n), paper);
    let rust = match oracle::read_booleans(bytes, n) {
        Outcome::Given { values, consumed } => format!("{}, {consumed} bytes", booleans(&values)),
        Outcome::Error { before, .. } => joined([booleans(&before), "error".into()]),
        Outcome::Panic { before } => joined([booleans(&before), "panic".into()]),
    };
    [paper, rust]
}

fn byte_value(bytes: &[u8], n: usize) -> [String; 2] {
    let paper = match model::read_value(bytes, 0, n) {
        Value::Given(part) => value(&part),
        Value::Refused(refusal) => format!("refused {}", refusal.number),
    };
    #[cfg(feature = "ours")]
    assert_eq!(ours::byte_value(bytes, n), paper);
    let rust = match oracle::read_value(bytes, n) {
        Outcome::Given { values, .. } => value(&values),
        Outcome::Error { .. } => "error".into(),
        Outcome::Panic { .. } => "panic".into(),
    };
    [paper, rust]
}

#[test]
fn every_line_is_so() {
    let mut lines = 0;
    let mut wrong = String::new();
    for line in DOCUMENT.lines().filter(|line| line.starts_with("| ") && line.contains('`')) {
        let cells: Vec<&str> = line.trim_matches('|').split(" | ").map(str::trim).collect();
        let [call, input, paper, rust] = cells[..] else { panic!("four cells: {line}") };
        let bytes = bytes(input.trim_matches('`'));
        let words: Vec<&str> = call.split([',', ' ']).filter(|word| !word.is_empty()).collect();
        let answers = match words[..] {
            ["run", flag] => run(&bytes, flag == "signed"),
            ["stream", flag] => stream(&bytes, flag == "signed"),
            [n, "booleans"] => some_booleans(&bytes, n.parse().expect("how many")),
            ["byte", "value", "of", n] => byte_value(&bytes, n.parse().expect("a length")),
            _ => panic!("a call: {call}"),
        };
        if answers != [paper, rust] {
            wrong += &format!("{line}\n  answers: {answers:?}\n");
        }
        lines += 1;
    }
    assert!(wrong.is_empty(), "{wrong}");
    assert!(lines > 40, "{lines} lines only");
}

/// Each listed difference has a part of its own, whose first line is its smallest input.
#[test]
fn every_difference_has_its_part() {
    for entry in &LIST {
        let title = format!("### `{}`", entry.name);
        let (_, part) = DOCUMENT.split_once(&title).unwrap_or_else(|| panic!("no part for {}", entry.name));
        let first = part.lines().find(|line| line.starts_with("| ") && line.contains('`')).expect("a line");
        let [call, input] = [1, 2].map(|cell| first.split('|').nth(cell).expect("a cell").trim());
        assert_eq!((call, bytes(input.trim_matches('`'))), (&entry.call.to_string()[..], entry.bytes()));
    }
    assert_eq!(DOCUMENT.matches("\n### `").count(), LIST.len());
}
