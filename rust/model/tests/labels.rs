//! FORMAT.md, "Labels": names from a dictionary. Lines written out by hand.
use model::*;

/// The names "drums", "", "bass", "vox"; four rows have one.
const STEMS: Dictionary = Dictionary {
    block: b"drumsbassvox",
    lengths: &[5, 0, 4, 3],
    numbers: &[2, 0, 1, 3],
    flags: &[0, 1, 255, 0, 2, 1, 0],
};

fn refused<'a>(number: u8) -> Label<'a> {
    Label::Refused(Refusal::whole(number, 0))
}

fn of(row: u64, dictionary: Dictionary) -> Label {
    label(row, dictionary, b"(none)")
}

#[test]
fn names_and_fallbacks() {
    let fallback = Label::Fallback(b"(none)");
    assert_eq!(of(0, STEMS), fallback);
    assert_eq!(of(1, STEMS), Label::Name(b"bass"));
    assert_eq!(of(2, STEMS), Label::Name(b"drums"));
    assert_eq!(of(3, STEMS), fallback);
    // An empty name is a name.
    assert_eq!(of(4, STEMS), Label::Name(b""));
    assert_eq!(of(5, STEMS), Label::Name(b"vox"));
    assert_eq!(of(6, STEMS), fallback);
    assert_eq!(label(0, STEMS, b""), Label::Fallback(b""));
    // The parts are lent, not copied: of the block, and of the fallback itself.
    let own = *b"own";
    let Label::Fallback(part) = label(0, STEMS, &own) else { panic!() };
    assert!(std::ptr::eq(part, &own[..]));
    let Label::Name(part) = of(1, STEMS) else { panic!() };
    assert!(std::ptr::eq(part, &STEMS.block[5..9]));
}

#[test]
fn no_such_row() {
    for row in [7, 8, u64::MAX] {
        assert_eq!(of(row, STEMS), refused(16));
        // Before 18.
        assert_eq!(of(row, Dictionary { lengths: &[-1], ..STEMS }), refused(16));
    }
    let empty = Dictionary { block: b"", lengths: &[], numbers: &[], flags: &[] };
    assert_eq!(of(0, empty), refused(16));
}

#[test]
fn lengths() {
    // For every row, named or not, and before 19.
    for lengths in [
        &[5, 0, 4, 2][..],
        &[5, 0, 4, 4],
        &[5, 0, 4],
        &[],
        // Below 0, though they add up.
        &[5, -1, 5, 3],
        &[6, 0, 4, 3, -1],
        // 12 modulo 2^64.
        &[i64::MAX, i64::MAX, 14],
        &[i64::MAX, i64::MAX, 2, 12],
        &[i64::MIN, i64::MIN, 12],
    ] {
        for row in 0..7 {
            assert_eq!(of(row, Dictionary { lengths, numbers: &[], ..STEMS }), refused(18), "{lengths:?}");
        }
    }
    // No names at all: the lengths of an empty block add up.
    let empty = Dictionary { block: b"", lengths: &[], numbers: &[], flags: &[0, 1] };
    assert_eq!(of(0, empty), Label::Fallback(b"(none)"));
    assert_eq!(of(1, empty), refused(19));
    let zeros = Dictionary { block: b"", lengths: &[0, 0], numbers: &[1], flags: &[0, 1] };
    assert_eq!(of(1, zeros), Label::Name(b""));
}

#[test]
fn numbers() {
    // Outside the dictionary: only the asked row's entry is looked at.
    for wrong in [-1, 4, i64::MIN, i64::MAX] {
        let numbers = [2, wrong, 1, 3];
        let dictionary = Dictionary { numbers: &numbers, ..STEMS };
        assert_eq!(of(2, dictionary), refused(19), "{wrong}");
        assert_eq!(of(1, dictionary), Label::Name(b"bass"));
        assert_eq!(of(3, dictionary), Label::Fallback(b"(none)"));
        assert_eq!(of(5, dictionary), Label::Name(b"vox"));
    }
    // Missing: the third named row and those after it.
    let dictionary = Dictionary { numbers: &STEMS.numbers[..2], ..STEMS };
    assert_eq!(of(2, dictionary), Label::Name(b"drums"));
    assert_eq!(of(4, dictionary), refused(19));
    assert_eq!(of(5, dictionary), refused(19));
    assert_eq!(of(6, dictionary), Label::Fallback(b"(none)"));
    // Entries after the last named row are not looked at.
    assert_eq!(of(5, Dictionary { numbers: &[2, 0, 1, 3, -9], ..STEMS }), Label::Name(b"vox"));
}
