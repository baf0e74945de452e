//! FORMAT.md, "Index": building an index, looking a row up, reading from it. Lines written
//! out by hand.
use model::*;

fn bytes(hex: &str) -> Vec<u8> {
    let digits: Vec<u32> = hex.chars().filter_map(|c| c.to_digit(16)).collect();
    digits.chunks(2).map(|two| (two[0] * 16 + two[1]) as u8).collect()
}

/// Five rows 300, then 1, 2, 3, then 10, 12, 14, 16, 18: 11 bytes.
const THREE: &str = "0A012C 46021230 C0040A04";
const FIRST: [u64; 3] = [0, 5, 8];
const AT: [u64; 3] = [0, 3, 7];
const ROWS: [u64; 3] = [5, 3, 5];

fn refused(number: u8) -> Refusal {
    Refusal::whole(number, 0)
}

#[test]
fn building() {
    let entries: Vec<Entry> = (0..3).map(|k| Entry { first: FIRST[k], at: AT[k], rows: ROWS[k] }).collect();
    let built = Index::Built { entries, rows: 13, bytes: 11 };
    assert_eq!(build_index(&bytes(THREE), [3; 3]), built);
    assert_eq!(build_index(&bytes(THREE), [9; 3]), built);
    assert_eq!(build_index(&[], [0; 3]), Index::Built { entries: vec![], rows: 0, bytes: 0 });
    // One place too few; before it the stream's own refusal, with its place and byte; before that
    // columns of unequal length.
    assert_eq!(build_index(&bytes(THREE), [2; 3]), Index::Refused(refused(8)));
    let cut = &bytes(THREE)[..10];
    assert_eq!(build_index(cut, [0; 3]), Index::Refused(Refusal::cut(12, 7, 10)));
    assert_eq!(build_index(&bytes("0A012CC200"), [9; 3]), Index::Refused(Refusal::whole(4, 3)));
    for lent in [[3, 3, 4], [3, 4, 3], [4, 3, 3], [0, 1, 2]] {
        assert_eq!(build_index(&bytes(THREE), lent), Index::Refused(refused(15)));
        assert_eq!(build_index(cut, lent), Index::Refused(refused(15)));
    }
}

#[test]
fn looking_up() {
    let input = bytes(THREE);
    let columns: Columns = [&FIRST, &AT, &ROWS];
    for (row, k) in [(0, 0), (4, 0), (5, 1), (7, 1), (8, 2), (12, 2)] {
        let entry = Entry { first: FIRST[k], at: AT[k], rows: ROWS[k] };
        assert_eq!(look_up(row, columns, &input), Lookup::Entry(entry), "{row}");
    }
    // The total, and above it.
    for row in [13, 14, u64::MAX] {
        assert_eq!(look_up(row, columns, &input), Lookup::Refused(refused(16)));
    }
    assert_eq!(look_up(0, [&[], &[], &[]], &[]), Lookup::Refused(refused(16)));
}

#[test]
fn wrong_indexes() {
    let input = bytes(THREE);
    let wrong: [Columns; 9] = [
        // A number off by one in each column, an entry too few, one too many, none.
        [&[0, 5, 9], &AT, &ROWS],
        [&FIRST, &[0, 3, 8], &ROWS],
        [&FIRST, &AT, &[5, 3, 4]],
        [&FIRST[..2], &AT[..2], &ROWS[..2]],
        [&[0, 5, 8, 13], &[0, 3, 7, 11], &[5, 3, 5, 0]],
        [&[], &[], &[]],
        // Columns of unequal length, the entries right as far as they go.
        [&FIRST[..2], &AT, &ROWS],
        [&FIRST, &AT[..2], &ROWS],
        [&FIRST, &AT, &ROWS[..2]],
    ];
    for columns in wrong {
        // 15 also where there is no such row.
        for row in [0, 13] {
            assert_eq!(look_up(row, columns, &input), Lookup::Refused(refused(15)), "{columns:?}");
            let read = read_from(row, columns, &input, false, 0);
            assert_eq!(read, Rows::Refused(refused(15)), "{columns:?}");
        }
    }
    // A refused stream has no right index, and neither has a stream with a byte more.
    let columns: Columns = [&FIRST, &AT, &ROWS];
    for stream in [&input[..10], &[&input[..], &[0x40]].concat()] {
        assert_eq!(look_up(0, columns, stream), Lookup::Refused(refused(15)));
    }
}

#[test]
fn reading_from_a_row() {
    let input = bytes(THREE);
    let columns: Columns = [&FIRST, &AT, &ROWS];
    let all = [300, 300, 300, 300, 300, 1, 2, 3, 10, 12, 14, 16, 18];
    let signed = [150, 150, 150, 150, 150, -1, 1, -2, 5, 7, 9, 11, 13];
    for row in 0..13 {
        let left = 13 - row;
        for (flag, rows) in [(false, all), (true, signed)] {
            let given = Rows::Given(rows[row..].to_vec());
            assert_eq!(read_from(row as u64, columns, &input, flag, left), given);
            assert_eq!(read_from(row as u64, columns, &input, flag, 600), given);
        }
        let eight = Rows::Refused(refused(8));
        assert_eq!(read_from(row as u64, columns, &input, false, left - 1), eight);
    }
    // 16 before 8.
    assert_eq!(read_from(13, columns, &input, false, 0), Rows::Refused(refused(16)));
}
