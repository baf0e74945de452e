//! Flags and bytes in batches. Lines written out by hand.
use model::*;

fn bytes(hex: &str) -> Vec<u8> {
    let digits: Vec<u32> = hex.chars().filter_map(|c| c.to_digit(16)).collect();
    digits.chunks(2).map(|two| (two[0] * 16 + two[1]) as u8).collect()
}

/// Three bytes FF in a run at byte 0, one byte 00 in a run at byte 2: 24 true, 8 false.
const TWO: &str = "00FF FF00";

type Position = (u64, u64, u64);

fn flags(input: &str, (run, bytes_, bits): Position, n: u64, places: usize) -> Flags {
    read_flags(&bytes(input), FlagPosition { run, bytes: bytes_, bits }, n, places)
}

fn given(bits: &str, (run, bytes, at): Position) -> Flags {
    let values = bits.chars().map(|bit| bit == '1').collect();
    Flags::Given { values, next: FlagPosition { run, bytes, bits: at } }
}

#[test]
fn flags_and_the_position_after_them() {
    let all = "1".repeat(24) + &"0".repeat(8);
    assert_eq!(flags(TWO, (0, 0, 0), 32, 32), given(&all, (4, 0, 0)));
    assert_eq!(flags(TWO, (0, 0, 0), 31, 99), given(&all[..31], (2, 0, 7)));
    assert_eq!(flags(TWO, (0, 0, 0), 25, 99), given(&all[..25], (2, 0, 1)));
    // The first run is used up exactly, and the second is not needed.
    assert_eq!(flags(TWO, (0, 0, 0), 24, 99), given(&all[..24], (2, 0, 0)));
    assert_eq!(flags(TWO, (0, 0, 0), 23, 99), given(&all[..23], (0, 2, 7)));
    assert_eq!(flags(TWO, (0, 0, 0), 8, 99), given(&all[..8], (0, 1, 0)));
    assert_eq!(flags(TWO, (0, 2, 5), 5, 5), given("11100", (2, 0, 2)));
    assert_eq!(flags(TWO, (2, 0, 3), 5, 5), given("00000", (4, 0, 0)));
    // Bits of eight and more, and bytes past the first run: the sum is what counts.
    for position in [(0, 2, 5), (0, 1, 13), (0, 0, 21)] {
        assert_eq!(flags(TWO, position, 5, 5), given("11100", (2, 0, 2)));
    }
    assert_eq!(flags(TWO, (0, 3, 6), 2, 5), given("00", (4, 0, 0)));
    // 44 is 0100 0100 and 45 is 0100 0101.
    assert_eq!(flags("FE4445", (0, 0, 5), 5, 5), given("10001", (0, 1, 2)));
    assert_eq!(flags("FE4445", (0, 1, 7), 1, 5), given("1", (3, 0, 0)));
}

#[test]
fn no_flags() {
    // A sum of 0: nothing is looked at.
    for at in [0, 1, 2, 4, 5, u64::MAX] {
        assert_eq!(flags(TWO, (at, 0, 0), 0, 0), given("", (at, 0, 0)));
        assert_eq!(flags("FE44", (at, 0, 0), 0, 9), given("", (at, 0, 0)));
    }
    // With something skipped the position is made plain, and the runs of it must be there.
    for (position, plain) in [
        ((0, 0, 1), (0, 0, 1)),
        ((0, 0, 9), (0, 1, 1)),
        ((0, 3, 0), (2, 0, 0)),
        ((0, 0, 24), (2, 0, 0)),
        ((0, 2, 9), (2, 0, 1)),
        ((0, 4, 0), (4, 0, 0)),
        ((2, 1, 0), (4, 0, 0)),
    ] {
        assert_eq!(flags(TWO, position, 0, 0), given("", plain), "{position:?}");
    }
    assert_eq!(flags(TWO, (0, 4, 1), 0, 0), Flags::Refused(Refusal::cut(6, 0, 4)));
    assert_eq!(flags("FE44", (0, 1, 0), 0, 0), Flags::Refused(Refusal::cut(13, 0, 1)));
    assert_eq!(flags(TWO, (9, 0, 1), 0, 0), Flags::Refused(Refusal::cut(6, 9, 9)));
}

#[test]
fn refusals_of_flags() {
    let six = |at, cut| Flags::Refused(Refusal::cut(6, at, cut));
    let thirteen = |at, cut| Flags::Refused(Refusal::cut(13, at, cut));
    let eight = |at| Flags::Refused(Refusal::whole(8, at));
    assert_eq!(flags(TWO, (0, 0, 0), 33, 99), six(0, 4));
    assert_eq!(flags(TWO, (2, 0, 0), 9, 99), six(2, 4));
    assert_eq!(flags(TWO, (0, 2, 5), 12, 99), six(0, 4));
    assert_eq!(flags(TWO, (4, 0, 0), 1, 99), six(4, 4));
    assert_eq!(flags(TWO, (9, 0, 0), 1, 99), six(9, 9));
    assert_eq!(flags(TWO, (u64::MAX, 0, 0), 1, 99), six(usize::MAX, usize::MAX));
    // A run that is cut after its control byte, though the byte that is needed is there; or not needed.
    assert_eq!(flags("00FF FE44", (0, 0, 0), 25, 99), thirteen(0, 3));
    assert_eq!(flags("00FF FE44", (2, 0, 0), 1, 99), thirteen(2, 3));
    assert_eq!(flags("00FF FE44", (0, 2, 0), 8, 99), given("11111111", (2, 0, 0)));
    assert_eq!(flags("00", (0, 0, 0), 1, 99), thirteen(0, 1));
    // 8 after both, at the position's run.
    assert_eq!(flags(TWO, (0, 0, 0), 8, 7), eight(0));
    assert_eq!(flags(TWO, (2, 0, 3), 5, 4), eight(2));
    assert_eq!(flags(TWO, (0, 0, 0), 33, 0), six(0, 4));
    assert_eq!(flags("00FF FE44", (0, 0, 0), 25, 0), thirteen(0, 3));
    // What is skipped needs no place.
    assert_eq!(flags(TWO, (0, 3, 7), 1, 1), given("0", (4, 0, 0)));
}

/// Whole numbers: each of these sums is 0, or a number that is there, modulo 2^64.
#[test]
fn sums_that_pass_64_bits() {
    let six = Flags::Refused(Refusal::cut(6, 0, 4));
    let most = u64::MAX;
    for (position, n) in [
        ((0, 1 << 61, 0), 0),
        ((0, 1 << 61, 0), 1),
        ((0, (1 << 61) + 1, 0), 8),
        ((0, 0, most), 1),
        ((0, 0, most), 9),
        ((0, 1, most), 1),
        ((0, most, 8), 0),
        ((0, most, most), most),
    ] {
        assert_eq!(flags(TWO, position, n, 99), six, "{position:?} {n}");
    }
    let six = Bytes::Refused(Refusal::cut(6, 0, 4));
    for (skip, n) in [(most, 1), (most, 2), (1 << 61, 0), (1 << 63, 1 << 63), (most, most)] {
        assert_eq!(read_bytes(&bytes(TWO), BytePosition { run: 0, bytes: skip }, n, 99), six);
    }
}

#[test]
fn bytes_and_the_position_after_them() {
    let read = |(run, skip), n, places| read_bytes(&bytes(TWO), BytePosition { run, bytes: skip }, n, places);
    let given =
        |hex: &str, (run, skip)| Bytes::Given { values: bytes(hex), next: BytePosition { run, bytes: skip } };
    assert_eq!(read((0, 0), 4, 4), given("FFFFFF00", (4, 0)));
    assert_eq!(read((0, 0), 3, 9), given("FFFFFF", (2, 0)));
    assert_eq!(read((0, 0), 2, 9), given("FFFF", (0, 2)));
    assert_eq!(read((0, 2), 2, 2), given("FF00", (4, 0)));
    assert_eq!(read((0, 3), 1, 9), given("00", (4, 0)));
    assert_eq!(read((2, 0), 1, 9), given("00", (4, 0)));
    // Nothing asked for: nothing looked at, or what is skipped.
    for at in [0, 1, 4, 5, u64::MAX] {
        assert_eq!(read((at, 0), 0, 0), given("", (at, 0)));
    }
    assert_eq!(read((0, 3), 0, 0), given("", (2, 0)));
    assert_eq!(read((0, 1), 0, 0), given("", (0, 1)));
    assert_eq!(read((0, 4), 0, 0), given("", (4, 0)));
    // 6, 13 and 8.
    assert_eq!(read((0, 0), 5, 0), Bytes::Refused(Refusal::cut(6, 0, 4)));
    assert_eq!(read((0, 5), 0, 0), Bytes::Refused(Refusal::cut(6, 0, 4)));
    assert_eq!(read((2, 1), 1, 9), Bytes::Refused(Refusal::cut(6, 2, 4)));
    assert_eq!(read((7, 0), 1, 9), Bytes::Refused(Refusal::cut(6, 7, 7)));
    assert_eq!(read((3, 0), 1, 9), Bytes::Refused(Refusal::cut(13, 3, 4)));
    assert_eq!(read((2, 0), 1, 0), Bytes::Refused(Refusal::whole(8, 2)));
}

/// From (at, 0, 0) the flags and refusals are those of the boolean reader.
#[test]
fn as_the_boolean_reader() {
    for input in [TWO, "00FF FE44", "FE4445 00", "80", ""] {
        for at in 0..6 {
            for n in 0..40 {
                for places in [0, 7, 8, 40] {
                    let booleans = read_booleans(&bytes(input), at, n, places);
                    match (flags(input, (at as u64, 0, 0), n as u64, places), booleans) {
                        (Flags::Given { values, .. }, Booleans::Given { values: other, .. }) => {
                            assert_eq!(values, other);
                        }
                        (Flags::Refused(refusal), Booleans::Refused(other)) => assert_eq!(refusal, other),
                        other => panic!("{input} {at} {n} {places}: {other:?}"),
                    }
                }
            }
        }
    }
}
