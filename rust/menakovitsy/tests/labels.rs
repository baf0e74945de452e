//! FORMAT.md, "Labels": what a row is called, by the wrapper. Lines written out by hand.
use menakovitsy::{label, label_column, Dictionary, Label, Labels, LabelsRefused, Refusal, RowNumber};

/// The names "drums", "", "bass" and "vox"; four rows of seven have one.
const STEMS: Dictionary = Dictionary {
    block: b"drumsbassvox",
    lengths: &[5, 0, 4, 3],
    numbers: &[2, 0, 1, 3],
    flags: &[0, 1, 255, 0, 2, 1, 0],
};

const FALLBACK: &[u8] = b"(none)";

fn refused(dictionary: Dictionary, row: usize, refusal: Refusal) {
    let said = label(dictionary, RowNumber(row), FALLBACK).unwrap_err();
    assert_eq!((said.refusal, said.at, said.cut), (refusal, None, None), "{dictionary:?}, row {row}");
}

/// Names by named row, not by row; flag 2 is a name, and so is one of no bytes. The parts are borrowed.
#[test]
fn names_and_the_fallback() {
    let expected = [None, Some(5..9), Some(0..5), None, Some(5..5), Some(9..12), None];
    for (row, expected) in expected.into_iter().enumerate() {
        let said = label(STEMS, RowNumber(row), FALLBACK).unwrap();
        let (part, of) = match expected {
            Some(range) => (Label::Name(&STEMS.block[range.clone()]), &STEMS.block[range]),
            None => (Label::Fallback(FALLBACK), FALLBACK),
        };
        assert_eq!(said, part, "row {row}");
        assert!(std::ptr::eq(said.bytes(), of), "row {row}");
    }
    assert_eq!(label(STEMS, RowNumber(0), b""), Ok(Label::Fallback(b"")));
    let none = Dictionary { block: b"", lengths: &[], numbers: &[], flags: &[0] };
    assert_eq!(label(none, RowNumber(0), FALLBACK), Ok(Label::Fallback(FALLBACK)));
}

/// A name lives as long as the block, whatever becomes of the columns.
#[test]
fn a_name_outlives_the_columns() {
    let name = {
        let lengths = vec![5, 0, 4, 3];
        label(Dictionary { lengths: &lengths, ..STEMS }, RowNumber(2), FALLBACK).unwrap()
    };
    assert_eq!(name, Label::Name(b"drums"));
}

#[test]
fn refusals_in_their_order() {
    use Refusal::*;
    let wrong = Dictionary { lengths: &[-1], numbers: &[-1], ..STEMS };
    for row in [7, usize::MAX] {
        refused(STEMS, row, NoSuchRow);
        refused(wrong, row, NoSuchRow);
    }
    // For every row, named or not. The last two add up modulo 2^64, and with a length below 0.
    for lengths in [&[-1][..], &[], &[5, 0, 4], &[i64::MAX, i64::MAX, 14], &[5, -1, 5, 3]] {
        for row in 0..7 {
            refused(Dictionary { lengths, numbers: &[-1], ..STEMS }, row, LengthsNotTheBlock);
        }
    }
    // Outside the dictionary, or missing: of the asked row alone.
    for numbers in [&[2, -1, 1, 3][..], &[2, 4, 1, 3], &[2]] {
        let dictionary = Dictionary { numbers, ..STEMS };
        refused(dictionary, 2, NoSuchName);
        assert_eq!(label(dictionary, RowNumber(1), FALLBACK), Ok(Label::Name(b"bass")));
        assert_eq!(label(dictionary, RowNumber(3), FALLBACK), Ok(Label::Fallback(FALLBACK)));
    }
    assert_eq!(
        label(STEMS, RowNumber(7), FALLBACK).unwrap_err().to_string(),
        "refusal 16: there is no such row (ask for a row below the number of rows (of labels: of \
         flags))"
    );
}

/// All rows in one pass: for each what `label` says of it.
#[test]
fn all_in_one_pass() {
    let labels = Labels::new(STEMS).unwrap();
    let names = [None, Some(&b"bass"[..]), Some(b"drums"), None, Some(b""), Some(b"vox"), None];
    assert_eq!(labels.iter().collect::<Vec<_>>(), names);
    assert_eq!((&labels).into_iter().len(), 7);
    assert_eq!(labels.rows(), RowNumber(7));
    for (row, name) in names.into_iter().enumerate() {
        assert_eq!(labels.get(RowNumber(row)), Some(name));
        let said = label(STEMS, RowNumber(row), FALLBACK).unwrap();
        assert_eq!(said, name.map_or(Label::Fallback(FALLBACK), Label::Name));
        // Parts of the block: nothing is copied.
        let within = |name: &[u8]| STEMS.block.as_ptr_range().contains(&name.as_ptr());
        assert!(name.is_none() || labels.get(RowNumber(row)).flatten().is_some_and(within));
    }
    assert_eq!(labels.get(RowNumber(7)), None);
    // The first name is empty: that is a name, and not none.
    let empty = Dictionary { block: b"a", lengths: &[0, 1], numbers: &[0], flags: &[1, 0] };
    assert_eq!(Labels::new(empty).unwrap().iter().collect::<Vec<_>>(), [Some(&b""[..]), None]);
    // No rows; and more numbers than rows with a name.
    let none = Dictionary { block: b"", lengths: &[], numbers: &[], flags: &[] };
    assert_eq!(Labels::new(none).unwrap().iter().count(), 0);
    let more = Dictionary { numbers: &[2, 0, 1, 3, -9], ..STEMS };
    assert_eq!(Labels::new(more).unwrap().iter().collect::<Vec<_>>(), names);
}

/// A name lives as long as the block, whatever becomes of the columns.
#[test]
fn names_outlive_the_columns() {
    let names: Vec<Option<&[u8]>> = {
        let flags = STEMS.flags.to_vec();
        Labels::new(Dictionary { flags: &flags, ..STEMS }).unwrap().iter().collect()
    };
    assert_eq!(names[1], Some(&b"bass"[..]));
}

#[test]
fn refused_columns_of_names() {
    use Refusal::*;
    let refused = |dictionary: Dictionary, refusal: Refusal, row: Option<usize>| {
        let LabelsRefused { refused, row: named, .. } = Labels::new(dictionary).unwrap_err();
        assert_eq!((refused.refusal, refused.at, refused.cut), (refusal, None, None), "{dictionary:?}");
        assert_eq!(named, row.map(RowNumber), "{dictionary:?}");
    };
    for lengths in [&[-1][..], &[], &[5, 0, 4], &[i64::MAX, i64::MAX, 14], &[5, -1, 5, 3]] {
        refused(Dictionary { lengths, numbers: &[-1], ..STEMS }, LengthsNotTheBlock, None);
        // Also if there is no row.
        refused(Dictionary { lengths, flags: &[], ..STEMS }, LengthsNotTheBlock, None);
    }
    // The first row that has a flag and no name.
    for (numbers, row) in
        [(&[2, -1, 1, 3][..], 2), (&[2, 4, 1, 3], 2), (&[2], 2), (&[], 1), (&[2, 0, 1, i64::MIN], 5)]
    {
        refused(Dictionary { numbers, ..STEMS }, NoSuchName, Some(row));
    }
    let refused = Labels::new(Dictionary { numbers: &[2, 4, 1, 3], ..STEMS }).unwrap_err();
    assert_eq!(
        refused.to_string(),
        "at row 2: refusal 19: dictionary: the row's number is outside it, or the numbers end before the \
         row's entry (give the numbers of the same rows as the flags, and the dictionary that they are for; if \
         they are, the file is damaged)"
    );
    let refused = Labels::new(Dictionary { lengths: &[], ..STEMS }).unwrap_err();
    assert!(refused.to_string().starts_with("refusal 18: dictionary: "));
}

/// Into lists of the caller's: the places after the rows keep their content, and with one too few nothing is
/// written.
#[test]
fn into_the_callers_lists() {
    let [mut offsets, mut starts, mut sizes] = [vec![7; 5], vec![7; 8], vec![7; 9]];
    assert_eq!(label_column(STEMS, &mut offsets, &mut starts, &mut sizes), Ok(RowNumber(7)));
    assert_eq!(offsets, [0, 5, 5, 9, 7]);
    assert_eq!(starts, [0, 5, 0, 0, 5, 9, 0, 7]);
    assert_eq!(sizes, [0, 4, 5, 0, 0, 3, 0, 7, 7]);
    for places in [[3, 7, 7], [4, 6, 7], [4, 7, 6]] {
        let [mut offsets, mut starts, mut sizes] = places.map(|places| vec![7; places]);
        let refused = label_column(STEMS, &mut offsets, &mut starts, &mut sizes).unwrap_err();
        assert_eq!((refused.refused.refusal, refused.row), (Refusal::TooFewPlaces, None));
        assert!([offsets, starts, sizes].concat().iter().all(|place| *place == 7));
    }
}
