//! The sizes that the header names: as the wrapper has them, or as the library's answers show them.
use std::collections::{BTreeMap, BTreeSet};
use std::sync::OnceLock;

use menakovitsy::{
    boolean_room, byte_room, column_room, convert, exported, salvage, write_patched, write_run, ByteOffset,
    Form, Group, Index, Refusal, RowNumber, Sign, MAX_ROWS, MAX_RUN_BYTES, MAX_WRITTEN,
};

use crate::compiler::{here, Language, C11, C99};
use crate::declared::c::{Header, HEADER};

/// The lines that the program in C writes, each as its words.
fn printed(language: Language) -> Vec<Vec<String>> {
    let written = language.writes(&here().join("tests/header/c/sizes.c"));
    written.lines().map(|line| line.split(' ').map(String::from).collect()).collect()
}

/// The value of each macro without a parameter.
fn sizes() -> &'static BTreeMap<String, u64> {
    static SIZES: OnceLock<BTreeMap<String, u64>> = OnceLock::new();
    SIZES.get_or_init(|| {
        let lines = printed(C99).into_iter().filter(|line| line.len() == 2);
        lines.map(|line| (line[0].clone(), line[1].parse().unwrap())).collect()
    })
}

#[test]
fn those_that_the_wrapper_has() {
    let sizes = sizes();
    for (name, value) in [
        ("ORC_VERSION", exported::VERSION),
        ("ORC_TOO_FEW_WORDS", exported::TOO_FEW_WORDS),
        ("ORC_STATE_WORDS", exported::STATE_WORDS as u64),
        ("ORC_MAX_WORDS", exported::MAX_WORDS as u64),
        ("ORC_MAX_ROWS", MAX_ROWS as u64),
        ("ORC_MAX_RUN_BYTES", MAX_RUN_BYTES as u64),
        ("ORC_MAX_WRITTEN", MAX_WRITTEN as u64),
        ("ORC_MAX_ROWS_BYTES", 8 * MAX_ROWS as u64),
    ] {
        assert_eq!(sizes.get(name), Some(&value), "{name}");
    }
}

/// No answer has more words than `ORC_MAX_WORDS`, and one has as many.
#[test]
fn the_most_words() {
    let header = Header::of(HEADER);
    let answers = header.macros.iter().filter(|(name, _)| name.ends_with("_WORDS"));
    let answers =
        answers.filter(|(name, _)| !["ORC_MAX_WORDS", "ORC_TOO_FEW_WORDS"].contains(&name.as_str()));
    let most = answers.map(|(_, words)| words.parse().unwrap()).max();
    assert_eq!(most, sizes().get("ORC_MAX_WORDS").copied());
}

/// What a writer takes, and what it refuses one beyond it.
#[test]
fn those_of_the_writers() {
    let sizes = sizes();
    let size = |name: &str| sizes[name] as usize;
    let mut out = [0; MAX_WRITTEN];
    let mut repeat = |rows: usize, width: usize| {
        write_run(&vec![7; rows], Sign::Unsigned, Form::ShortRepeat, width as u8, &mut out)
            .map(|run| run.rows.0)
            .map_err(|refused| refused.refusal)
    };
    let (fewest, most) = (size("ORC_MIN_REPEAT_ROWS"), size("ORC_MAX_REPEAT_ROWS"));
    let widest = size("ORC_MAX_REPEAT_WIDTH");
    assert_eq!((repeat(fewest, 1), repeat(most, widest)), (Ok(fewest), Ok(most)));
    assert_eq!(
        (repeat(fewest - 1, 1), repeat(most + 1, 1)),
        (Err(Refusal::RowCount), Err(Refusal::RowCount))
    );
    assert_eq!(repeat(most, widest + 1), Err(Refusal::NotTheForm));

    let mut patched = |rows: &[i64]| {
        write_patched(rows, 0, 1, &mut out).map(|run| run.rows.0).map_err(|refused| refused.refusal)
    };
    // every row above one bit wants an entry of the list
    let patches = size("ORC_MAX_PATCHES");
    assert_eq!(patched(&vec![2; patches]), Ok(patches));
    assert_eq!(patched(&vec![2; patches + 1]), Err(Refusal::NotTheForm));
    // a patch is what is above the one bit
    let bits = size("ORC_MAX_PATCH_BITS");
    assert_eq!(patched(&[0, (1 << (bits + 1)) - 1]), Ok(2));
    assert_eq!(patched(&[0, 1 << (bits + 1)]), Err(Refusal::NotTheForm));
}

/// The fill row that takes the most bytes, and the longest line of a report.
#[test]
fn those_of_a_salvage() {
    let sizes = sizes();
    let groups = [Group { start: ByteOffset(0), rows: RowNumber(MAX_ROWS) }];
    let filled = |fill, sign| salvage(&[0xC2, 0x00], &groups, fill, sign).unwrap().bytes.len() as u64;
    assert_eq!(filled(i64::MIN, Sign::Signed), sizes["ORC_MAX_FILL_BYTES"]);
    assert_eq!(filled(-1, Sign::Unsigned), sizes["ORC_MAX_FILL_BYTES"]);
    let longest = format!("replaced {} {}\n", u64::MAX, u64::MAX);
    assert_eq!(longest.len() as u64, sizes["ORC_MAX_REPORT_LINE"]);
}

/// A direct run, or a packed delta, of zeros at a width code above 0.
fn run(delta: bool, code: usize, rows: usize) -> Vec<u8> {
    let bits = if code < 24 { code + 1 } else { [26, 28, 30, 32, 40, 48, 56, 64][code - 24] };
    // a delta has two varints, and no magnitude for its first two rows
    let (kind, own) = if delta { (0xC0, 2) } else { (0x40, 0) };
    let head = [kind | (code << 1 | (rows - 1) >> 8) as u8, (rows - 1) as u8];
    [&head[..], &vec![0; own + ((rows - own) * bits).div_ceil(8)]].concat()
}

/// The wrapper converts with twice the bytes of the stream. Every width has room in them, and 9 bits, which become
/// 16, nearly want them.
#[test]
fn a_conversion_in_its_room() {
    let codes = (1..32).flat_map(|code| [2, 3, 9, 512].map(|rows| (code, rows)));
    let runs = codes.flat_map(|(code, rows)| [false, true].map(|delta| run(delta, code, rows)));
    let sizes = runs.map(|run| (convert(&run, Sign::Unsigned).unwrap().bytes.len(), run.len()));
    let most = sizes.max_by(|(after, before), (other, others)| (after * others).cmp(&(other * before)));
    assert_eq!(most, Some((2 + 1024, 2 + 576)));
}

/// No run has fewer than two bytes, so that half the bytes of a stream hold its index; of short repeats of one
/// byte they are just enough.
#[test]
fn an_index_in_its_room() {
    let column = [0x00, 0x01].repeat(100);
    assert_eq!(Index::build(&column).unwrap().columns()[0].len(), column.len() / 2);
}

#[test]
fn room() {
    for language in [C99, C11] {
        let lines = printed(language);
        let room: Vec<&[String]> = lines.iter().map(Vec::as_slice).filter(|line| line.len() == 3).collect();
        for line in &room {
            let count: usize = line[1].parse().unwrap();
            let expected = match line[0].as_str() {
                "ORC_COLUMN_ROOM" => column_room(count),
                "ORC_BYTE_ROOM" | "orc_byte_room" => byte_room(count),
                "ORC_BOOLEAN_ROOM" | "orc_boolean_room" => boolean_room(count),
                "ORC_CONVERT_ROOM" => 2 * count,
                "ORC_INDEX_ROOM" => count / 2,
                other => panic!("{other} is not compared"),
            };
            assert_eq!(line[2], expected.to_string(), "{}({count})", line[0]);
        }
        assert_eq!(room.len(), 7 * 2100 + 2);
        // 1,000 rows: 8,000 bytes and 2 runs; 125 packed bytes and 1,000, with one for every 128 begun
        let arrays = format!("arrays {} {} {} {}", 8004, 126 + 1008, 8 * 4002, 16008);
        assert_eq!(lines.last().unwrap().join(" "), arrays);
    }
}

/// Every macro of the header is compared, here or as a family's number of words.
#[test]
fn no_other_macro() {
    let printed: BTreeSet<String> = printed(C99).into_iter().map(|line| line[0].clone()).collect();
    for (name, _) in Header::of(HEADER).macros {
        let name = name.split('(').next().unwrap();
        assert!(name.ends_with("_WORDS") || printed.contains(name), "{name} is not compared");
    }
}
