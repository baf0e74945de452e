//! Rows in batches. Lines written out by hand.
use model::*;

fn bytes(hex: &str) -> Vec<u8> {
    let digits: Vec<u32> = hex.chars().filter_map(|c| c.to_digit(16)).collect();
    digits.chunks(2).map(|two| (two[0] * 16 + two[1]) as u8).collect()
}

/// Five rows 300 at byte 0, then 1, 2, 3 at byte 3, then 10, 12, 14, 16, 18 at byte 7: 11 bytes.
const THREE: &str = "0A012C 46021230 C0040A04";
const ALL: [i64; 13] = [300, 300, 300, 300, 300, 1, 2, 3, 10, 12, 14, 16, 18];

fn read(input: &str, (run, skip): (u64, u64), places: usize) -> Batch {
    read_rows(&bytes(input), RowPosition { run, skip }, false, places)
}

fn given(rows: &[i64], (run, skip): (u64, u64)) -> Batch {
    Batch::Given { rows: rows.to_vec(), next: RowPosition { run, skip } }
}

#[test]
fn rows_and_the_position_after_them() {
    assert_eq!(read(THREE, (0, 0), 13), given(&ALL, (11, 0)));
    assert_eq!(read(THREE, (0, 0), 99), given(&ALL, (11, 0)));
    assert_eq!(read(THREE, (0, 0), 12), given(&ALL[..12], (7, 4)));
    assert_eq!(read(THREE, (0, 0), 8), given(&ALL[..8], (7, 0)));
    assert_eq!(read(THREE, (0, 0), 6), given(&ALL[..6], (3, 1)));
    assert_eq!(read(THREE, (0, 0), 5), given(&ALL[..5], (3, 0)));
    assert_eq!(read(THREE, (0, 0), 4), given(&ALL[..4], (0, 4)));
    assert_eq!(read(THREE, (0, 4), 2), given(&[300, 1], (3, 1)));
    assert_eq!(read(THREE, (3, 2), 2), given(&[3, 10], (7, 1)));
    assert_eq!(read(THREE, (7, 4), 1), given(&[18], (11, 0)));
    // The zigzag of 300 is 150; 1, 2, 3 are -1, 1, -2; and the steps are the same.
    let signed = read_rows(&bytes(THREE), RowPosition { run: 0, skip: 4 }, true, 5);
    assert_eq!(signed, given(&[150, -1, 1, -2, 5], (7, 1)));
}

#[test]
fn no_place_makes_the_position_plain() {
    for (position, plain) in [
        ((0, 0), (0, 0)),
        ((0, 4), (0, 4)),
        ((0, 5), (3, 0)),
        ((0, 7), (3, 2)),
        ((0, 8), (7, 0)),
        ((0, 12), (7, 4)),
        ((3, 3), (7, 0)),
        ((3, 4), (7, 1)),
    ] {
        assert_eq!(read(THREE, position, 0), given(&[], plain), "{position:?}");
    }
}

#[test]
fn end_and_more_than_there_is() {
    let sixteen = Batch::Refused(Refusal::whole(16, 0));
    for end in [(0, 13), (3, 8), (7, 5), (11, 0), (12, 0), (u64::MAX, 0)] {
        assert_eq!(read(THREE, end, 9), Batch::End, "{end:?}");
        assert_eq!(read(THREE, end, 0), Batch::End, "{end:?}");
    }
    for more in [(0, 14), (3, 9), (7, 6), (11, 1), (12, 1), (0, u64::MAX), (u64::MAX, u64::MAX)] {
        assert_eq!(read(THREE, more, 9), sixteen, "{more:?}");
        assert_eq!(read(THREE, more, 0), sixteen, "{more:?}");
    }
    assert_eq!(read("", (0, 0), 9), Batch::End);
    assert_eq!(read("", (0, 1), 9), sixteen);
}

#[test]
fn a_refused_run() {
    // The third run's second varint is cut, at byte 10: the eight rows before it are there.
    let cut = "0A012C 46021230 C0040A";
    let own = Batch::Refused(Refusal::cut(12, 7, 10));
    assert_eq!(read(cut, (0, 0), 13), given(&ALL[..8], (7, 0)));
    assert_eq!(read(cut, (0, 7), 1), given(&[3], (7, 0)));
    assert_eq!(read(cut, (3, 2), 0), given(&[], (3, 2)));
    // Just as many rows, more and fewer are asked to be skipped; no place, or some.
    for position in [(0, 8), (0, 9), (3, 3), (7, 0), (7, 1), (0, u64::MAX)] {
        assert_eq!(read(cut, position, 9), own, "{position:?}");
        assert_eq!(read(cut, position, 0), own, "{position:?}");
    }
    // 4 names no cut byte; a run after it is not read.
    let damaged = "0A012C C200 46021230";
    assert_eq!(read(damaged, (0, 4), 9), given(&[300], (3, 0)));
    assert_eq!(read(damaged, (0, 5), 9), Batch::Refused(Refusal::whole(4, 3)));
    assert_eq!(read(damaged, (5, 0), 9), given(&[1, 2, 3], (9, 0)));
    // Too few places are no refusal, and never 8.
    assert_eq!(read("0A012C", (0, 0), 1), given(&[300], (0, 1)));
}

/// A byte within a run is read as if a run began there: 01 2C is four rows 44, and byte 3 comes next.
#[test]
fn a_byte_within_a_run() {
    assert_eq!(read(THREE, (1, 0), 5), given(&[44, 44, 44, 44, 1], (3, 1)));
    assert_eq!(read(THREE, (1, 4), 0), given(&[], (3, 0)));
}

/// Batches of any size, each from the position that came back, are all rows; then the end comes.
#[test]
fn batches_join() {
    for size in 1..15 {
        let (mut position, mut joined) = (RowPosition { run: 0, skip: 0 }, Vec::new());
        // No more batches than there are rows, and the end.
        for _ in 0..14 {
            let Batch::Given { rows, next } = read_rows(&bytes(THREE), position, false, size) else { break };
            joined.extend(rows);
            position = next;
        }
        assert_eq!(read_rows(&bytes(THREE), position, false, size), Batch::End);
        assert_eq!((joined.as_slice(), position), (&ALL[..], RowPosition { run: 11, skip: 0 }), "{size}");
    }
}
