//! FORMAT.md, "Salvage": what is kept, what is replaced by what, and the report. Lines written out by
//! hand.
use model::*;

fn bytes(hex: &str) -> Vec<u8> {
    let digits: Vec<u32> = hex.chars().filter_map(|c| c.to_digit(16)).collect();
    digits.chunks(2).map(|two| (two[0] * 16 + two[1]) as u8).collect()
}

const ROOM: [usize; 2] = [65_535, 65_536];

fn salvaged(input: &str, signed: bool, pairs: &[(u64, u64)], fill: i64, lent: [usize; 2]) -> Salvaged {
    let starts: Vec<u64> = pairs.iter().map(|pair| pair.0).collect();
    let rows: Vec<u64> = pairs.iter().map(|pair| pair.1).collect();
    salvage(&bytes(input), signed, Groups { starts: &starts, rows: &rows }, fill, lent)
}

fn written(input: &str, pairs: &[(u64, u64)], fill: i64, report: &str, stream: &str) {
    let answer =
        Salvaged::Written { report: report.replace(' ', "\n").replace('_', " "), bytes: bytes(stream) };
    assert_eq!(salvaged(input, false, pairs, fill, ROOM), answer, "{input}");
    // "The result reads whole, and its row total is the sum of the listed counts."
    match read_stream(&bytes(stream), 0, false, usize::MAX) {
        Stream::Whole { rows, .. } => {
            assert_eq!(rows.len() as u64, pairs.iter().map(|pair| pair.1).sum::<u64>(), "{input}");
        }
        other => panic!("{input}: {other:?}"),
    }
}

/// Five rows 300, then 1, 2, 3, then 10, 12, 14, 16, 18.
const THREE: &str = "0A012C 46021230 C0040A04";

#[test]
fn kept_and_replaced() {
    written(THREE, &[(0, 5), (3, 3), (7, 5)], 7, "kept_0_5 kept_1_3 kept_2_5 ", THREE);
    written(THREE, &[(0, 13)], 7, "kept_0_13 ", THREE);
    written(THREE, &[(0, 8), (7, 5)], 7, "kept_0_8 kept_1_5 ", THREE);
    // One row too many, one too few; the first group's bytes end inside a run, so both are refused.
    let four = "0A012C C0030700 C0040A04";
    written(THREE, &[(0, 5), (3, 4), (7, 5)], 7, "kept_0_5 replaced_1_4 kept_2_5 ", four);
    let two = "0A012C C0010700 C0040A04";
    written(THREE, &[(0, 5), (3, 2), (7, 5)], 7, "kept_0_5 replaced_1_2 kept_2_5 ", two);
    let inside = "C0070700 C0040700";
    written(THREE, &[(0, 8), (6, 5)], 7, "replaced_0_8 replaced_1_5 ", inside);
    // A damaged block: C2 00 where a direct run was.
    let damaged = "0A012C C2001230 C0040A04";
    let mended = "0A012C C0020700 C0040A04";
    written(damaged, &[(0, 5), (3, 3), (7, 5)], 7, "kept_0_5 replaced_1_3 kept_2_5 ", mended);
}

#[test]
fn fills_of_512_rows_and_the_remainder() {
    for (rows, stream) in [
        (1, "C0000700"),
        (2, "C0010700"),
        (511, "C1FE0700"),
        (512, "C1FF0700"),
        (513, "C1FF0700 C0000700"),
        (1024, "C1FF0700 C1FF0700"),
        (1030, "C1FF0700 C1FF0700 C0050700"),
    ] {
        written("FF", &[(0, rows)], 7, &format!("replaced_0_{rows} "), stream);
    }
    // The fill row as the writer writes it under the stream's flag.
    written("FF", &[(0, 1)], 300, "replaced_0_1 ", "C000AC0200");
    written("FF", &[(0, 1)], -1, "replaced_0_1 ", "C000FFFFFFFFFFFFFFFFFF0100");
    let signed = Salvaged::Written { report: "replaced 0 3\n".into(), bytes: bytes("C0020100") };
    assert_eq!(salvaged("FF", true, &[(0, 3)], -1, ROOM), signed);
}

#[test]
fn groups_of_no_rows_and_of_no_bytes() {
    // No rows and bytes: nothing. No bytes at the end, no rows and two.
    written(THREE, &[(0, 5), (3, 0), (7, 5)], 7, "kept_0_5 replaced_1_0 kept_2_5 ", "0A012C C0040A04");
    written("0A012C", &[(0, 5), (3, 0)], 7, "kept_0_5 kept_1_0 ", "0A012C");
    written("0A012C", &[(0, 5), (3, 2)], 7, "kept_0_5 replaced_1_2 ", "0A012C C0010700");
    written("", &[(0, 0)], 7, "kept_0_0 ", "");
    written("", &[(0, 3)], 7, "replaced_0_3 ", "C0020700");
    written("", &[], 7, "", "");
}

#[test]
fn refusals() {
    let refused = |number| Salvaged::Refused(Refusal::whole(number, 0));
    // Not from 0, equal, falling, past the end, none for a stream with bytes.
    for pairs in [
        &[(1, 5)][..],
        &[(0, 5), (0, 3)],
        &[(0, 5), (7, 3), (3, 5)],
        &[(0, 5), (12, 3)],
        &[(0, 5), (u64::MAX, 3)],
        &[],
    ] {
        assert_eq!(salvaged(THREE, false, pairs, 7, [0, 0]), refused(17), "{pairs:?}");
    }
    assert_eq!(salvaged("", false, &[(0, 5), (1, 3)], 7, ROOM), refused(17));
    // A start at the end is not past it.
    let at_the_end = salvaged(THREE, false, &[(0, 13), (11, 0)], 7, ROOM);
    assert!(matches!(at_the_end, Salvaged::Written { .. }));
    // Columns of unequal length.
    for (starts, rows) in [(&[0][..], &[][..]), (&[], &[5]), (&[0, 3], &[5])] {
        let answer = salvage(&bytes("0A012C"), false, Groups { starts, rows }, 7, ROOM);
        assert_eq!(answer, refused(17));
    }
    // 8 for either: 11 bytes, and a report of 9 + 9 + 9.
    let pairs = [(0, 5), (3, 3), (7, 5)];
    assert!(matches!(salvaged(THREE, false, &pairs, 7, [11, 27]), Salvaged::Written { .. }));
    assert_eq!(salvaged(THREE, false, &pairs, 7, [10, 27]), refused(8));
    assert_eq!(salvaged(THREE, false, &pairs, 7, [11, 26]), refused(8));
    // More rows than any room holds.
    assert_eq!(salvaged("FF", false, &[(0, u64::MAX)], 7, ROOM), refused(8));
}
