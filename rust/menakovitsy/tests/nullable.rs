//! Columns with rows that are missing.
use menakovitsy::{
    spread, ByteOffset, Column, FlagPosition, Flags, Nullable, Refusal, Refused, RowNumber, RowPosition, Sign,
};

/// 24 flags, of which 13 are set: 1111 0001, 1111 0001, 1110 0000.
const FLAGS: [u8; 4] = [0xFD, 0xF1, 0xF1, 0xE0];
/// Five rows 300, then 1, 2, 3, then 10, 12, 14, 16, 18.
const ROWS: [u8; 11] = [0x0A, 0x01, 0x2C, 0x46, 0x02, 0x12, 0x30, 0xC0, 0x04, 0x0A, 0x04];

/// The column that they are.
fn expected() -> Vec<Option<i64>> {
    let mut present = [300, 300, 300, 300, 300, 1, 2, 3, 10, 12, 14, 16, 18].into_iter();
    let flags = FLAGS[1..].iter().flat_map(|byte| (0..8).rev().map(move |bit| byte >> bit & 1 == 1));
    flags.map(|flag| flag.then(|| present.next().unwrap())).collect()
}

fn column() -> Nullable<'static> {
    Nullable::new(Flags::new(&FLAGS), Column::new(&ROWS, Sign::Unsigned))
}

fn refused<T: std::fmt::Debug>(answer: Result<T, Refused>, refusal: Refusal) {
    let said = answer.unwrap_err();
    assert_eq!((said.refusal, said.at, said.cut), (refusal, None, None));
}

/// However it is cut into batches, the rows are the column's; and a reader that starts at the positions
/// after a batch goes on there.
#[test]
fn batches_of_any_size() {
    let rows = expected();
    for size in 1..=24 {
        let (mut options, mut filled, mut read) = (column(), column(), 0);
        while read < 24 {
            let n = size.min(24 - read);
            assert_eq!(options.next(RowNumber(n)).unwrap(), rows[read..read + n]);
            let mut places = vec![7777; n];
            filled.read_into(-1, &mut places).unwrap();
            let values: Vec<i64> = rows[read..read + n].iter().map(|row| row.unwrap_or(-1)).collect();
            assert_eq!(places, values);
            read += n;
            assert_eq!(options.positions(), filled.positions());
            let (flag, row) = options.positions();
            let mut later = column().starting_at(flag, row);
            assert_eq!(later.next(RowNumber(24 - read)).unwrap(), rows[read..]);
            later.finish().unwrap();
        }
        options.finish().unwrap();
    }
}

/// Flags and rows that are not lined up are never handed out.
#[test]
fn not_lined_up() {
    // A flag more than there are rows: the batch that has it is refused, and the reader is where it was.
    let mut flags = FLAGS;
    flags[3] = 0xF0;
    let mut long = Nullable::new(Flags::new(&flags), Column::new(&ROWS, Sign::Unsigned));
    let mut places = [7777; 24];
    refused(long.read_into(0, &mut places), Refusal::NotLinedUp);
    refused(long.next(RowNumber(20)), Refusal::NotLinedUp);
    assert_eq!(places, [7777; 24]);
    assert_eq!(long.positions(), column().positions());
    assert_eq!(long.next(RowNumber(19)).unwrap(), expected()[..19]);
    // A row more than there are flags: the reader's end shows it.
    flags[3] = 0xC0;
    let mut short = Nullable::new(Flags::new(&flags), Column::new(&ROWS, Sign::Unsigned));
    assert_eq!(short.next(RowNumber(24)).unwrap()[..18], expected()[..18]);
    refused(short.finish(), Refusal::NotLinedUp);
}

/// A damaged run, and flags that are cut: their own refusals, and nothing is handed out; fewer rows are.
#[test]
fn damaged() {
    let mut rows = ROWS;
    rows[7..9].copy_from_slice(&[0xC2, 0x00]);
    let mut damaged = Nullable::new(Flags::new(&FLAGS), Column::new(&rows, Sign::Unsigned));
    let said = damaged.next(RowNumber(24)).unwrap_err();
    assert_eq!((said.refusal, said.at), (Refusal::OneRowDelta, Some(ByteOffset(7))));
    assert_eq!(damaged.next(RowNumber(11)).unwrap(), expected()[..11]);
    let said = damaged.next(RowNumber(1)).unwrap_err();
    assert_eq!((said.refusal, said.at), (Refusal::OneRowDelta, Some(ByteOffset(7))));
    assert_eq!(damaged.finish().unwrap_err().refusal, Refusal::OneRowDelta);

    let mut cut = Nullable::new(Flags::new(&FLAGS[..3]), Column::new(&ROWS, Sign::Unsigned));
    let said = cut.next(RowNumber(1)).unwrap_err();
    assert_eq!((said.refusal, said.cut), (Refusal::RowsCut, Some(ByteOffset(1))));
    let mut none = Nullable::new(Flags::new(&[]), Column::new(&[], Sign::Unsigned));
    assert_eq!(none.next(RowNumber(0)), Ok(vec![]));
    assert_eq!(none.next(RowNumber(usize::MAX)).unwrap_err().refusal, Refusal::ValueCut);
    none.finish().unwrap();
}

/// Columns that start elsewhere: at the positions that a row index has for row 13.
#[test]
fn from_a_row_index() {
    let flag = FlagPosition { run: ByteOffset(0), bytes: ByteOffset(1), bits: 5 };
    let row = RowPosition { run: ByteOffset(0), skip: RowNumber(9) };
    assert_eq!(column().starting_at(flag, row).next(RowNumber(8)).unwrap(), expected()[13..21]);
}

#[test]
fn spread_over_flags() {
    let mut places = [7777; 5];
    assert_eq!(spread(&[0, 2, 0, 255], &[7, 8], i64::MIN, &mut places), Ok(RowNumber(4)));
    assert_eq!(places, [i64::MIN, 7, i64::MIN, 8, 7777]);
    assert_eq!(spread(&[], &[], 0, &mut []), Ok(RowNumber(0)));
    let mut places = [7777; 5];
    for (flags, rows) in [(&[1, 0, 1][..], &[7][..]), (&[0], &[7]), (&[1, 1], &[]), (&[1; 9], &[7; 8])] {
        refused(spread(flags, rows, 0, &mut places), Refusal::NotLinedUp);
    }
    refused(spread(&[0; 6], &[], 0, &mut places), Refusal::TooFewPlaces);
    refused(spread(&[1; 6], &[7; 6], 0, &mut places), Refusal::TooFewPlaces);
    assert_eq!(places, [7777; 5]);
}
