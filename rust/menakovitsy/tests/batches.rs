//! Rows in batches, from positions inside runs. Lines written out by hand.
use menakovitsy::{read_rows, Batch, ByteOffset, Column, Refusal, Refused, RowNumber, RowPosition, Sign};

/// Five rows 300, then 1, 2, 3, then 10, 12, 14, 16, 18; and a run that is refused.
const FOUR: [u8; 13] = [0x0A, 0x01, 0x2C, 0x46, 0x02, 0x12, 0x30, 0xC0, 0x04, 0x0A, 0x04, 0xC2, 0x00];
const ROWS: [i64; 13] = [300, 300, 300, 300, 300, 1, 2, 3, 10, 12, 14, 16, 18];
const SIGNED: [i64; 13] = [150, 150, 150, 150, 150, -1, 1, -2, 5, 7, 9, 11, 13];

const WHOLE: &[u8] = FOUR.split_at(11).0;

fn at(run: usize, skip: usize) -> RowPosition {
    RowPosition { run: ByteOffset(run), skip: RowNumber(skip) }
}

/// Where a row of the column is, plain.
fn plain(row: usize) -> RowPosition {
    match row {
        0..=4 => at(0, row),
        5..=7 => at(3, row - 5),
        8..=12 => at(7, row - 8),
        _ => at(11, 0),
    }
}

fn read(bytes: &[u8], position: RowPosition, places: usize) -> (Result<Option<Batch>, Refused>, Vec<i64>) {
    let mut rows = vec![7777; places];
    let answer = Column::new(bytes, Sign::Unsigned).read_at(position, &mut rows);
    assert_eq!(answer, read_rows(bytes, position, Sign::Unsigned, &mut vec![0; places]));
    (answer, rows)
}

/// Every position of every row, plain and not, with every number of places.
#[test]
fn every_position() {
    for (run, before) in [(0, 0), (3, 5), (7, 8)] {
        for row in before..13 {
            for places in 0..=15 {
                let (batch, rows) = read(WHOLE, at(run, row - before), places);
                let given = places.min(13 - row);
                let batch = batch.unwrap().unwrap();
                assert_eq!((batch.rows, batch.next), (RowNumber(given), plain(row + given)));
                assert_eq!(rows[..given], ROWS[row..row + given]);
                assert!(rows[given..].iter().all(|row| *row == 7777));
            }
        }
        // The end, and a row after it; whatever the places.
        for places in [0, 5] {
            let (end, rows) = read(WHOLE, at(run, 13 - before), places);
            assert_eq!((end, rows), (Ok(None), vec![7777; places]));
            for more in [14 - before, usize::MAX] {
                let (refused, rows) = read(WHOLE, at(run, more), places);
                let refused = refused.unwrap_err();
                assert_eq!((refused.refusal, refused.at), (Refusal::NoSuchRow, None));
                assert_eq!(rows, vec![7777; places]);
            }
        }
    }
    // At the end of the input, and after it.
    for run in [11, 12, usize::MAX] {
        assert_eq!(read(WHOLE, at(run, 0), 5).0, Ok(None));
        assert_eq!(read(WHOLE, at(run, 1), 5).0.unwrap_err().refusal, Refusal::NoSuchRow);
    }
}

/// Batches of any size are the whole column, and each position goes on where its batch ended.
#[test]
fn batches_of_any_size() {
    for (sign, rows) in [(Sign::Unsigned, ROWS), (Sign::Signed, SIGNED)] {
        let column = Column::new(WHOLE, sign);
        for size in 1..=20 {
            let batches: Vec<Vec<i64>> = column.batches(RowNumber(size)).collect::<Result<_, _>>().unwrap();
            let expected: Vec<Vec<i64>> = rows.chunks(size).map(<[i64]>::to_vec).collect();
            assert_eq!(batches, expected);

            let (mut lending, mut given) = (column.batches(RowNumber(size)), 0);
            assert_eq!(lending.position(), column.start());
            while let Some(batch) = lending.next_batch() {
                given += batch.unwrap().len();
                assert_eq!(lending.given(), RowNumber(given));
                // The position may pass runs; made plain, it is the row's.
                let batch = column.read_at(lending.position(), &mut []).unwrap();
                assert_eq!(batch.map_or(plain(13), |batch| batch.next), plain(given));
                let rest = column.batches(RowNumber(4)).starting_at(lending.position());
                assert_eq!(rest.collect::<Result<Vec<_>, _>>().unwrap().concat(), rows[given..]);
            }
            assert_eq!(given, 13);
            assert!(lending.next_batch().is_none());
        }
        // 0 is taken as 1; and any number is no more than there are rows.
        assert_eq!(column.batches(RowNumber(0)).count(), 13);
        assert_eq!(column.batches(RowNumber(usize::MAX)).count(), 1);
        let later: Result<Vec<_>, _> = column.starting_at(ByteOffset(3)).batches(RowNumber(2)).collect();
        assert_eq!(later.unwrap().concat(), rows[5..]);
        assert_eq!(Column::new(&[], sign).batches(RowNumber(3)).count(), 0);
    }
}

/// A damaged run costs none of the rows before it: they come as a short batch, and then its refusal, once.
#[test]
fn a_damaged_run() {
    for size in 1..=15 {
        let mut batches = Column::new(&FOUR, Sign::Unsigned).batches(RowNumber(size));
        let mut rows = Vec::new();
        let refused = loop {
            match batches.next_batch().expect("a refusal comes") {
                Ok(batch) => rows.extend_from_slice(batch),
                Err(refused) => break refused,
            }
        };
        assert_eq!(rows, ROWS);
        assert_eq!((refused.refusal, refused.at), (Refusal::OneRowDelta, Some(ByteOffset(11))));
        assert_eq!((batches.given(), batches.position()), (RowNumber(13), at(11, 0)));
        assert!(batches.next().is_none());
    }
    // A run that is cut, by the byte of its field; it is refused also if its rows are to be skipped.
    for (skip, places) in [(8, 0), (8, 3), (9, 3), (usize::MAX, 1)] {
        let (refused, rows) = read(&FOUR[..10], at(0, skip), places);
        let refused = refused.unwrap_err();
        assert_eq!((refused.refusal, refused.at), (Refusal::VarintCut, Some(ByteOffset(7))));
        assert_eq!((refused.cut, rows), (Some(ByteOffset(10)), vec![7777; places]));
    }
    assert_eq!(read(&FOUR[..10], at(0, 6), 9).1[..3], [2, 3, 7777]);
}

/// A position that a row index may list: a skip that passes runs, and one inside a patched run.
#[test]
fn inside_a_patched_run() {
    let column = [0x86, 0x03, 0x03, 0x21, 0x64, 0x12, 0x34, 0x94];
    let (batch, rows) = read(&column, at(0, 2), 1);
    assert_eq!((batch.unwrap().unwrap().next, rows), (at(0, 3), vec![183]));
}

/// Longer columns, whose batches are read several at once: runs of 512 rows, and the size of a batch about
/// theirs, and about how many rows are read at once.
#[test]
fn long_columns() {
    let run = |first: u8| [0xC1, 0xFF, first, 0x02];
    let mut bytes: Vec<u8> = (0..9).flat_map(|k| run(10 * k)).collect();
    let rows: Vec<i64> = (0..9).flat_map(|k| (0..512).map(move |row| 10 * k + row)).collect();
    for size in
        [1, 7, 100, 511, 512, 513, 1_000, 2_047, 2_048, 2_049, 4_095, 4_096, 4_097, 4_607, 4_608, 4_609]
    {
        for damaged in [false, true] {
            bytes.truncate(36);
            if damaged {
                bytes.extend([0xC2, 0x00]);
            }
            let column = Column::new(&bytes, Sign::Unsigned);
            let (mut batches, mut expected) = (column.batches(RowNumber(size)), rows.chunks(size));
            loop {
                let (position, given) = (batches.position(), batches.given());
                match (batches.next_batch(), expected.next()) {
                    (Some(Ok(batch)), Some(expected)) => assert_eq!(batch, expected),
                    (None, None) => {
                        assert!(!damaged);
                        break;
                    }
                    (Some(Err(refused)), None) => {
                        assert!(damaged && batches.next_batch().is_none());
                        assert_eq!(
                            (refused.refusal, refused.at),
                            (Refusal::OneRowDelta, Some(ByteOffset(36)))
                        );
                        break;
                    }
                    (given, expected) => panic!("{size}: {given:?} for {expected:?}"),
                }
                // A batch by itself, from the position before it.
                let mut alone = column.batches(RowNumber(size)).starting_at(position);
                let rest = &rows[given.0..];
                assert_eq!(alone.next_batch().unwrap().unwrap(), &rest[..rest.len().min(size)]);
            }
            assert_eq!((batches.given(), batches.position()), (RowNumber(4_608), at(36, 0)));
        }
    }
}
