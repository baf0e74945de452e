//! FORMAT.md, "Patch lists": a patch that fits is read, whatever the width of its field; one of
//! 2^(64-W) or more is refused with 3. Lines written out by hand.
use model::*;

fn bytes(hex: &str) -> Vec<u8> {
    let digits: Vec<u32> = hex.chars().filter_map(|c| c.to_digit(16)).collect();
    digits.chunks(2).map(|two| (two[0] * 16 + two[1]) as u8).collect()
}

fn rows(hex: &str, rows: &[i64]) {
    let bytes = bytes(hex);
    for signed in [false, true] {
        match read_run(&bytes, 0, signed, 512) {
            Answer::Run(run) => assert_eq!((&run.rows[..], run.consumed), (rows, bytes.len()), "{hex}"),
            other => panic!("{hex}: {other:?}"),
        }
    }
}

fn refused(hex: &str, number: u8) {
    for (signed, places) in [(false, 512), (true, 512), (false, 0)] {
        let refusal = Answer::Refused(Refusal::whole(number, 0));
        assert_eq!(read_run(&bytes(hex), 0, signed, places), refusal, "{hex}");
    }
}

fn cut(hex: &str, number: u8, byte: usize) {
    let refusal = Answer::Refused(Refusal::cut(number, 0, byte));
    assert_eq!(read_run(&bytes(hex), 0, false, 512), refusal, "{hex}");
}

/// Two values of 30 bits, 1 and 2, over a base of 10; patches of 40 bits, gaps of 1; entries of 48.
fn thirty_and_forty(entries: &[&str]) -> String {
    format!("B4 01 1C {:02X} 0A 0000000400000020 {}", entries.len(), entries.concat())
}

#[test]
fn thirty_bits_and_a_patch_field_of_forty() {
    // 2 + 3·2^30; 2 + (2^34 - 1)·2^30, which is 2^64 - 2^30 + 2; then a patch of 0.
    rows(&thirty_and_forty(&["010000000003"]), &[11, 12 + 3 * (1 << 30)]);
    rows(&thirty_and_forty(&["0103FFFFFFFF"]), &[11, 12 - (1 << 30)]);
    rows(&thirty_and_forty(&["000000000000"]), &[11, 12]);
    rows(&thirty_and_forty(&["000000000001", "010000000001"]), &[11 + (1 << 30), 12 + (1 << 30)]);
    // 2^34, and all forty bits.
    refused(&thirty_and_forty(&["010400000000"]), 3);
    refused(&thirty_and_forty(&["01FFFFFFFFFF"]), 3);
    refused(&thirty_and_forty(&["000000000001", "010400000000"]), 3);
    refused(&thirty_and_forty(&["000400000000", "010000000001"]), 3);
}

#[test]
fn three_comes_before_seven() {
    // Place 2 of two rows: with a patch that fits, then with 2^34.
    refused(&thirty_and_forty(&["020000000003"]), 7);
    refused(&thirty_and_forty(&["020400000000"]), 3);
    // Both at place 1; then the later one too large, and the earlier one.
    refused(&thirty_and_forty(&["010000000003", "000000000003"]), 7);
    refused(&thirty_and_forty(&["010000000003", "000400000000"]), 3);
    refused(&thirty_and_forty(&["010400000000", "000000000003"]), 3);
    // The last entry a skip; after a patch that is too large; before one, at place 255.
    refused(&thirty_and_forty(&["FF0000000000"]), 7);
    refused(&thirty_and_forty(&["010400000000", "FF0000000000"]), 3);
    refused(&thirty_and_forty(&["FF0000000000", "000400000000"]), 3);
    // One list out of place in every way, its last patch too large.
    let all = ["010000000003", "000000000003", "FF0000000000", "000400000000", "FF0000000000"];
    refused(&thirty_and_forty(&all), 3);
    let faults = Faults { too_large: true, last_skip: true, shared: true, outside: true };
    assert_eq!(list_faults(&bytes(&thirty_and_forty(&all))), Some(faults));
}

#[test]
fn an_empty_list_is_not_refused() {
    rows(&thirty_and_forty(&[]), &[11, 12]);
    // 64 bits and a patch width of 56; 9 bits and 56.
    rows("BE 00 1E 00 00 0000000000000007", &[7]);
    rows("90 00 1E 00 00 0080", &[1]);
    // Patch width 64 and gap width 1 are over 64 together, with an empty list too.
    refused("BE 00 1F 00 00 0000000000000007", 2);
}

#[test]
fn values_of_64_bits() {
    // One value, 7; patch width 1, gap width 1; the entry's two bits: gap, patch.
    rows("BE 00 00 01 00 0000000000000007 00", &[7]);
    refused("BE 00 00 01 00 0000000000000007 40", 3);
    refused("BE 00 00 01 00 0000000000000007 80", 7);
    refused("BE 00 00 01 00 0000000000000007 C0", 3);
    // The value's own top bit is no patch. Base -1.
    rows("BE 00 00 01 81 8000000000000000 00", &[i64::MAX]);
}

#[test]
fn values_of_56_bits() {
    // One value, 1; patch width 9, gap width 1: patches 255, 256 and 511.
    rows("BC 00 08 01 00 00000000000001 3FC0", &[1 - (1 << 56)]);
    refused("BC 00 08 01 00 00000000000001 4000", 3);
    refused("BC 00 08 01 00 00000000000001 7FC0", 3);
    // Patch width 8 adds up to 64: no patch is too large.
    rows("BC 00 07 01 00 00000000000001 7F80", &[1 - (1 << 56)]);
}

#[test]
fn three_comes_after_the_cuts() {
    let whole = thirty_and_forty(&["010400000000", "000000000003"]).replace(' ', "");
    for kept in 4..25 {
        let (number, byte) = match kept {
            4 => (6, 4),
            5..13 => (13, 5),
            _ => (14, 13),
        };
        cut(&whole[..2 * kept], number, byte);
    }
    refused(&whole, 3);
}

#[test]
fn the_longest_run_has_4356_bytes() {
    // 512 values of 64 bits, a base of 8 bytes, 31 entries of 64 bits: patch width 56, gap width 8,
    // each patch 0 and each gap 1.
    let list = "0100000000000000".repeat(31);
    let hex = format!("BF FF FE FF 0000000000000001 {} {list}", "00".repeat(4096));
    assert_eq!(bytes(&hex).len(), 4356);
    rows(&hex, &[1; 512]);
}
