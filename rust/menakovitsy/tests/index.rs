//! FORMAT.md, "Index": the index beside a column, by the wrapper. Lines written out by hand.
use menakovitsy::{ByteOffset, Column, Index, Refusal, Refused, RowNumber, RowPosition, Sign};

/// Five rows 300, then 1, 2, 3, then 10, 12, 14, 16, 18.
const THREE: [u8; 11] = [0x0A, 0x01, 0x2C, 0x46, 0x02, 0x12, 0x30, 0xC0, 0x04, 0x0A, 0x04];
const ROWS: [i64; 13] = [300, 300, 300, 300, 300, 1, 2, 3, 10, 12, 14, 16, 18];
const SIGNED: [i64; 13] = [150, 150, 150, 150, 150, -1, 1, -2, 5, 7, 9, 11, 13];

fn index(columns: [&[u64]; 3]) -> Index {
    let [first, at, counts] = columns.map(<[u64]>::to_vec);
    Index::of_columns(first, at, counts)
}

fn right() -> Index {
    index([&[0, 5, 8], &[0, 3, 7], &[5, 3, 5]])
}

fn refused<T: std::fmt::Debug>(answer: Result<T, Refused>, refusal: Refusal) {
    let said = answer.unwrap_err();
    assert_eq!((said.refusal, said.at, said.cut), (refusal, None, None));
}

#[test]
fn built() {
    assert_eq!(Index::build(&THREE), Ok(right()));
    assert_eq!(right().row_count(), RowNumber(13));
    assert_eq!(Index::build(&[]), Ok(Index::default()));
    assert_eq!(Index::default().row_count(), RowNumber(0));
    // The stream's own refusals, with their places and cut fields.
    let cut = Index::build(&THREE[..6]).unwrap_err();
    assert_eq!((cut.refusal, cut.at, cut.cut), (Refusal::RowsCut, Some(ByteOffset(3)), Some(ByteOffset(5))));
    let damaged = Index::build(&[&THREE[..], &[0xC2, 0x00]].concat()).unwrap_err();
    assert_eq!(
        (damaged.refusal, damaged.at, damaged.cut),
        (Refusal::OneRowDelta, Some(ByteOffset(11)), None)
    );
}

/// However short the runs are, the index finds room: two bytes each, and 4,099 bytes each.
#[test]
fn many_entries() {
    for (run, rows) in [(vec![0x00, 0x07], 3), ([&[0x7F, 0xFF][..], &[7; 4096]].concat(), 512)] {
        for runs in [1, 15, 16, 17, 100, 3000] {
            let column = run.repeat(runs);
            let built = Index::build(&column).unwrap();
            let expected: Vec<u64> = (0..runs as u64).collect();
            let times = |by: usize| expected.iter().map(|k| k * by as u64).collect::<Vec<_>>();
            assert_eq!(built.columns(), [&times(rows)[..], &times(run.len()), &vec![rows as u64; runs]]);
            assert_eq!(built.row_count(), RowNumber(rows * runs));
            let last = built.rows_from(&column, RowNumber(rows * runs - 1), Sign::Unsigned).unwrap();
            assert_eq!(last.len(), 1);
        }
    }
}

/// A column that begins with long short repeats and goes on with short ones has more runs than its beginning tells.
#[test]
fn more_entries_than_the_beginning_tells() {
    let long = [&[0x38][..], &[7; 8]].concat().repeat(16);
    let column = [long, [0x00, 0x07].repeat(3000)].concat();
    let built = Index::build(&column).unwrap();
    assert_eq!((built.columns()[0].len(), built.row_count()), (3016, RowNumber(3 * 3016)));
}

#[test]
fn looked_up() {
    let expected = [(0, 0, 5), (5, 3, 3), (8, 7, 5)];
    for row in 0..13 {
        let (first, at, rows) = expected[usize::from(row >= 5) + usize::from(row >= 8)];
        let entry = right().look_up(&THREE, RowNumber(row)).unwrap();
        assert_eq!((entry.first, entry.at, entry.rows), (RowNumber(first), ByteOffset(at), RowNumber(rows)));
    }
    // The total, and above it.
    for row in [13, 14, usize::MAX] {
        refused(right().look_up(&THREE, RowNumber(row)), Refusal::NoSuchRow);
        refused(right().rows_from(&THREE, RowNumber(row), Sign::Signed), Refusal::NoSuchRow);
    }
    refused(Index::default().look_up(&[], RowNumber(0)), Refusal::NoSuchRow);
}

#[test]
fn wrong_indexes() {
    let wrong: [[&[u64]; 3]; 10] = [
        // A number off by one in each column, an entry too few, one too many, none.
        [&[0, 5, 9], &[0, 3, 7], &[5, 3, 5]],
        [&[0, 5, 8], &[0, 3, 8], &[5, 3, 5]],
        [&[0, 5, 8], &[0, 3, 7], &[5, 3, 4]],
        [&[0, 5], &[0, 3], &[5, 3]],
        [&[0, 5, 8, 13], &[0, 3, 7, 11], &[5, 3, 5, 0]],
        [&[], &[], &[]],
        // Columns of unequal length, right as far as they go; and rows that no memory holds.
        [&[0, 5], &[0, 3, 7], &[5, 3, 5]],
        [&[0, 5, 8], &[0, 3], &[5, 3, 5]],
        [&[0, 5, 8], &[0, 3, 7], &[5, 3]],
        [&[0], &[0], &[u64::MAX]],
    ];
    for columns in wrong {
        // 15 also where there is no such row, and where there are no places.
        for row in [0, 13, usize::MAX] {
            let index = index(columns);
            refused(index.look_up(&THREE, RowNumber(row)), Refusal::WrongIndex);
            refused(index.rows_from(&THREE, RowNumber(row), Sign::Signed), Refusal::WrongIndex);
            refused(index.read_from(&THREE, RowNumber(row), Sign::Signed, &mut []), Refusal::WrongIndex);
        }
    }
    // A refused stream has no right index, and neither has a stream with a byte more.
    for stream in [&THREE[..10], &[&THREE[..], &[0x40]].concat()] {
        refused(right().look_up(stream, RowNumber(0)), Refusal::WrongIndex);
    }
}

#[test]
fn read_from_a_row() {
    for row in 0..13 {
        for (sign, rows) in [(Sign::Unsigned, ROWS), (Sign::Signed, SIGNED)] {
            assert_eq!(right().rows_from(&THREE, RowNumber(row), sign).as_deref(), Ok(&rows[row..]));
            // Just enough places, some more, and one too few.
            for more in [0, 5] {
                let mut places = vec![7777; 13 - row + more];
                let given = right().read_from(&THREE, RowNumber(row), sign, &mut places);
                assert_eq!(given, Ok(RowNumber(13 - row)));
                assert_eq!(places, [&rows[row..], &vec![7777; more]].concat());
            }
            let mut places = vec![7777; 12 - row];
            let given = right().read_from(&THREE, RowNumber(row), sign, &mut places);
            refused(given, Refusal::TooFewPlaces);
            assert_eq!(places, vec![7777; 12 - row]);
        }
    }
}

/// Every range, under both flags, and of a column that starts after other bytes.
#[test]
fn ranges() {
    let after = [&[0xC2, 0x00, 0x46][..], &THREE].concat();
    for (sign, rows) in [(Sign::Unsigned, ROWS), (Sign::Signed, SIGNED)] {
        for column in [Column::new(&THREE, sign), Column::new(&after, sign).starting_at(ByteOffset(3))] {
            for start in 0..=13 {
                for end in start..=13 {
                    let range = RowNumber(start)..RowNumber(end);
                    assert_eq!(right().rows(column, range).as_deref(), Ok(&rows[start..end]));
                }
                // A range that ends before it begins has no rows.
                assert_eq!(right().rows(column, RowNumber(start)..RowNumber(0)).as_deref(), Ok(&[][..]));
                refused(right().rows(column, RowNumber(start)..RowNumber(14)), Refusal::NoSuchRow);
            }
            for start in [14, usize::MAX] {
                refused(right().rows(column, RowNumber(start)..RowNumber(start)), Refusal::NoSuchRow);
            }
            let all = RowNumber(0)..RowNumber(usize::MAX);
            refused(right().rows(column, all), Refusal::NoSuchRow);
        }
    }
    // Of no rows, the index is looked at, too.
    let column = Column::new(&THREE, Sign::Unsigned);
    for range in [RowNumber(0)..RowNumber(0), RowNumber(13)..RowNumber(13), RowNumber(2)..RowNumber(4)] {
        refused(Index::default().rows(column, range), Refusal::WrongIndex);
    }
    let none = Column::new(&[], Sign::Unsigned);
    assert_eq!(Index::default().rows(none, RowNumber(0)..RowNumber(0)).as_deref(), Ok(&[][..]));
    refused(Index::default().rows(none, RowNumber(0)..RowNumber(1)), Refusal::NoSuchRow);
}

/// The position of each row reads the rows from there on.
#[test]
fn positions() {
    let column = Column::new(&THREE, Sign::Signed);
    for row in 0..13 {
        let position = right().position(column, RowNumber(row)).unwrap();
        let (first, run) = if row < 5 {
            (0, 0)
        } else if row < 8 {
            (5, 3)
        } else {
            (8, 7)
        };
        assert_eq!(position, RowPosition { run: ByteOffset(run), skip: RowNumber(row - first) });
        let batches: Result<Vec<_>, _> = column.batches(RowNumber(3)).starting_at(position).collect();
        assert_eq!(batches.unwrap().concat(), SIGNED[row..]);
    }
    refused(right().position(column, RowNumber(13)), Refusal::NoSuchRow);
    refused(Index::default().position(column, RowNumber(0)), Refusal::WrongIndex);
}
