//! Rows that are missing, and all labels in one pass. Lines written out by hand.
use model::*;

#[test]
fn rows_spread_over_flags() {
    let given = |rows: &[i64]| Spread::Given(rows.to_vec());
    assert_eq!(spread(&[1, 0, 255, 0, 2], &[7, -8, 9], 5, 5), given(&[7, 5, -8, 5, 9]));
    assert_eq!(spread(&[1, 0, 255, 0, 2], &[7, -8, 9], 5, 9), given(&[7, 5, -8, 5, 9]));
    assert_eq!(spread(&[0, 0], &[], i64::MIN, 2), given(&[i64::MIN, i64::MIN]));
    assert_eq!(spread(&[128], &[0], 5, 1), given(&[0]));
    assert_eq!(spread(&[], &[], 5, 0), given(&[]));
    // A row too few and one too many, also without a place; no flag and a row.
    let refused = |number| Spread::Refused(Refusal::whole(number, 0));
    for places in [0, 5] {
        assert_eq!(spread(&[1, 0, 1], &[7], 5, places), refused(21));
        assert_eq!(spread(&[1, 0, 1], &[7, 8, 9], 5, places), refused(21));
        assert_eq!(spread(&[0, 0], &[7], 5, places), refused(21));
        assert_eq!(spread(&[], &[7], 5, places), refused(21));
        assert_eq!(spread(&[1], &[], 5, places), refused(21));
    }
    // A place too few, though the last flag has no row.
    assert_eq!(spread(&[1, 0], &[7], 5, 1), refused(8));
    assert_eq!(spread(&[0], &[], 5, 0), refused(8));
}

/// The names "drums", "", "bass", "vox" of a block of 12 bytes; four of seven rows have one.
const STEMS: Names = Names {
    flags: &[0, 1, 255, 0, 2, 1, 0],
    numbers: &[2, 0, 1, 3],
    lengths: &[5, 0, 4, 3],
    block_length: 12,
};

const ROOM: LabelPlaces = LabelPlaces { offsets: 99, starts: 99, sizes: 99 };
const NONE: LabelPlaces = LabelPlaces { offsets: 0, starts: 0, sizes: 0 };

fn labels(offsets: &[u64], parts: &[(u64, u64)]) -> Labels {
    let part = |(start, size): &(u64, u64)| Part { start: *start, size: *size };
    Labels::Given { offsets: offsets.to_vec(), parts: parts.iter().map(part).collect() }
}

fn refused(number: u8, row: Option<u64>) -> Labels {
    Labels::Refused { refusal: Refusal::whole(number, 0), row }
}

#[test]
fn all_labels() {
    let parts = [(0, 0), (5, 4), (0, 5), (0, 0), (5, 0), (9, 3), (0, 0)];
    let all = labels(&[0, 5, 5, 9], &parts);
    assert_eq!(label_column(STEMS, ROOM), all);
    assert_eq!(label_column(STEMS, LabelPlaces { offsets: 4, starts: 7, sizes: 7 }), all);
    // More numbers than named rows are no fault, whatever they are.
    assert_eq!(label_column(Names { numbers: &[2, 0, 1, 3, -9, 4], ..STEMS }, ROOM), all);
    // No row: the offsets alone. No name at all: the rows alone.
    assert_eq!(label_column(Names { flags: &[], ..STEMS }, ROOM), labels(&[0, 5, 5, 9], &[]));
    let none = Names { flags: &[0, 0], numbers: &[], lengths: &[], block_length: 0 };
    assert_eq!(label_column(none, ROOM), labels(&[], &[(0, 0), (0, 0)]));
    assert_eq!(label_column(Names { flags: &[], ..none }, NONE), labels(&[], &[]));
    // A block that no machine holds: only its length is known.
    let long = Names { lengths: &[i64::MAX, i64::MAX, 1], block_length: u64::MAX, ..STEMS };
    let wide = Names { flags: &[1, 1], numbers: &[2, 1], ..long };
    let most = i64::MAX as u64;
    assert_eq!(label_column(wide, ROOM), labels(&[0, most, 2 * most], &[(2 * most, 1), (most, most)]));
}

#[test]
fn lengths_first() {
    for lengths in [
        &[5, 0, 4, 2][..],
        &[5, 0, 4, 4],
        &[],
        // Below 0, though they add up; 12 modulo 2^64.
        &[5, -1, 5, 3],
        &[i64::MAX, i64::MAX, 14],
    ] {
        for names in [STEMS, Names { numbers: &[], ..STEMS }, Names { flags: &[], ..STEMS }] {
            let wrong = Names { lengths, ..names };
            assert_eq!(label_column(wrong, NONE), refused(18, None), "{lengths:?}");
        }
    }
    assert_eq!(label_column(Names { block_length: u64::MAX, ..STEMS }, ROOM), refused(18, None));
}

#[test]
fn the_first_row_without_its_name() {
    for wrong in [-1, 4, i64::MIN, i64::MAX] {
        // Rows 1, 2, 4 and 5 have a name.
        for (place, row) in [(0, 1), (1, 2), (2, 4), (3, 5)] {
            let mut numbers = [2, 0, 1, 3];
            numbers[place] = wrong;
            assert_eq!(label_column(Names { numbers: &numbers, ..STEMS }, NONE), refused(19, Some(row)));
            // Another fault after it does not change the row.
            numbers[3] = wrong;
            assert_eq!(label_column(Names { numbers: &numbers, ..STEMS }, ROOM), refused(19, Some(row)));
        }
    }
    // Missing numbers.
    for (there, row) in [(0, 1), (1, 2), (2, 4), (3, 5)] {
        let names = Names { numbers: &STEMS.numbers[..there], ..STEMS };
        assert_eq!(label_column(names, ROOM), refused(19, Some(row)));
    }
    // An empty dictionary has no name for row 1.
    let none = Names { flags: &[0, 1], numbers: &[0], lengths: &[], block_length: 0 };
    assert_eq!(label_column(none, NONE), refused(19, Some(1)));
}

#[test]
fn places_last() {
    let few = [
        LabelPlaces { offsets: 3, ..ROOM },
        LabelPlaces { starts: 6, ..ROOM },
        LabelPlaces { sizes: 6, ..ROOM },
        NONE,
    ];
    for places in few {
        assert_eq!(label_column(STEMS, places), refused(8, None), "{places:?}");
    }
    // No named row at all: the places are needed still.
    assert_eq!(label_column(Names { flags: &[0; 7], ..STEMS }, few[1]), refused(8, None));
}
