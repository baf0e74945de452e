//! FORMAT.md, "Kept widths": the widths that are written, and the converter. Lines written out by hand.
use model::*;

fn bytes(hex: &str) -> Vec<u8> {
    let digits: Vec<u32> = hex.chars().filter_map(|c| c.to_digit(16)).collect();
    digits.chunks(2).map(|two| (two[0] * 16 + two[1]) as u8).collect()
}

/// The codes of 1, 2, 4, 8, 16, 24, 32, 40, 48, 56 and 64 bits.
const KEPT_CODES: [u8; 11] = [0, 1, 3, 7, 15, 23, 27, 28, 29, 30, 31];

#[test]
fn the_writer_s_codes() {
    for code in 0..=40 {
        for (form, kept) in [
            (Form::Direct, KEPT_CODES.contains(&code)),
            // Code 0 is the fixed delta's.
            (Form::PackedDelta, code != 0 && KEPT_CODES.contains(&code)),
        ] {
            // Before 11 (256 at 1 to 8 bits), and before 8.
            let number = |written| match written {
                Written::Run { .. } => 0,
                Written::Refused(refusal) => refusal.number,
            };
            assert_eq!(number(write_run(&[0, 0, 0], false, form, code, 99)), if kept { 0 } else { 10 });
            assert_eq!(number(write_run(&[0, 0, 0], false, form, code, 0)), if kept { 8 } else { 10 });
            let narrow = number(write_run(&[0, 0, 256], false, form, code, 99));
            let expected = if !kept {
                10
            } else if code < 15 {
                11
            } else {
                0
            };
            assert_eq!(narrow, expected, "{form:?} {code}");
            // 9 comes before.
            assert_eq!(number(write_run(&[], false, form, code, 99)), 9);
        }
    }
}

#[test]
fn the_narrowest_code() {
    for (bits, code) in [
        (1, 0),
        (2, 1),
        (3, 3),
        (4, 3),
        (5, 7),
        (8, 7),
        (9, 15),
        (16, 15),
        (17, 23),
        (24, 23),
        (25, 27),
        (26, 27),
        (32, 27),
        (33, 28),
        (40, 28),
        (41, 29),
        (48, 29),
        (49, 30),
        (56, 30),
        (57, 31),
        (64, 31),
    ] {
        // The least and the largest number that need that many bits.
        assert_eq!(narrowest_code(1 << (bits - 1)), code, "{bits}");
        assert_eq!(narrowest_code(u64::MAX >> (64 - bits)), code, "{bits}");
    }
    assert_eq!(narrowest_code(0), 0);
}

fn converts(input: &str, altered: usize, output: &str) {
    for signed in [false, true] {
        let written = Converted::Written { altered, bytes: bytes(output) };
        assert_eq!(convert(&bytes(input), signed, 10_000), written, "{input}");
        // "Rows are unchanged."
        let rows = |hex: &str| match read_stream(&bytes(hex), 0, signed, 10_000) {
            Stream::Whole { rows, .. } => rows,
            other => panic!("{hex}: {other:?}"),
        };
        assert_eq!(rows(input), rows(output), "{input}");
    }
}

#[test]
fn direct_runs() {
    // 26 bits are 32; three bits, 1, 2, 3, are four.
    converts("70 00 00000040", 1, "76 00 00000001");
    converts("44 02 2980", 1, "46 02 1230");
    // 5 are 8, 9 are 16, 17 are 24, 30 are 32: one row of 1 each. Set padding becomes zero padding.
    converts("48 00 08", 1, "4E 00 01");
    converts("50 00 0080", 1, "5E 00 0001");
    converts("60 00 000080", 1, "6E 00 000001");
    converts("74 00 00000004", 1, "76 00 00000001");
    converts("48 00 0F", 1, "4E 00 01");
    // Kept widths are copied, padding and all.
    converts("46 02 123F", 0, "46 02 123F");
    converts("40 00 FF", 0, "40 00 FF");
}

#[test]
fn delta_runs() {
    // 100, 97, 96, 92 at three bits.
    converts("C4 03 64 05 30", 1, "C6 03 64 05 14");
    // Two rows: no magnitudes, altered all the same. Varints come out shortest.
    converts("C4 01 0A 05", 1, "C6 01 0A 05");
    converts("C4 01 8A00 8500", 1, "C6 01 0A 05");
    // At a kept width, and in a fixed delta, they are copied as they are.
    converts("C6 01 8A00 8500", 0, "C6 01 8A00 8500");
    converts("C0 04 8A00 04", 0, "C0 04 8A00 04");
    // Rows that pass the ends of 64 bits: 2^63 - 1 and on, at five bits. Signed, the first row is -2^62,
    // by the same varint.
    converts("C8 02 FFFFFFFFFFFFFFFF7F 02 08", 1, "CE 02 FFFFFFFFFFFFFFFF7F 02 01");
}

#[test]
fn other_runs_are_copied() {
    converts("0A 012C", 0, "0A 012C");
    // A patched run at three bits: 1, 2, 3 over 100, a patch of three bits.
    converts("84 02 02 01 64 2980 28", 0, "84 02 02 01 64 2980 28");
    converts("", 0, "");
    let mixed = "0A012C 44022980 8402020164298028 C403640530 46021230 7000 00000040";
    let kept = "0A012C 46021230 8402020164298028 C603640514 46021230 7600 00000001";
    converts(mixed, 3, kept);
}

#[test]
fn refusals() {
    let two = bytes("44022980 7000 00000040");
    assert!(matches!(convert(&two, false, 10), Converted::Written { altered: 2, .. }));
    assert_eq!(convert(&two, false, 9), Converted::Refused(Refusal::whole(8, 0)));
    // The stream's own, with its place and byte, before the want of room.
    assert_eq!(convert(&two[..9], false, 0), Converted::Refused(Refusal::cut(13, 4, 6)));
    assert_eq!(convert(&bytes("44022980C200"), false, 0), Converted::Refused(Refusal::whole(4, 4)));
}
