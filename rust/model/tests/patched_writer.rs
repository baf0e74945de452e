//! FORMAT.md, "Patched writer": the patched writer's choices. Runs written out by hand.
use model::*;

fn bytes(hex: &str) -> Vec<u8> {
    let digits: Vec<u32> = hex.chars().filter_map(|c| c.to_digit(16)).collect();
    digits.chunks(2).map(|two| (two[0] * 16 + two[1]) as u8).collect()
}

fn write(rows: &[i64], base: i64, width: usize) -> Result<Vec<u8>, u8> {
    match write_patched(rows, base, width, 10_000) {
        Written::Run { bytes, .. } => Ok(bytes),
        Written::Refused(refusal) => Err(refusal.number),
    }
}

fn writes(rows: &[i64], base: i64, width: usize, hex: &str) {
    let run = bytes(hex);
    assert_eq!(write(rows, base, width), Ok(run.clone()), "{hex}");
    // "What it writes reads back", under either flag.
    for signed in [false, true] {
        match read_run(&run, 0, signed, 512) {
            Answer::Run(read) => {
                assert_eq!((&read.rows[..], read.width, read.consumed), (rows, width, run.len()), "{hex}");
            }
            other => panic!("{hex}: {other:?}"),
        }
    }
}

#[test]
fn the_specification_s_example() {
    let mut rows = vec![2030, 2000, 2020, 1_000_000];
    rows.extend((2040..=2190).step_by(10));
    writes(&rows, 2000, 8, "8E132B2107D01E00147028323C46505A646E78828C96A0AAB4BEFCE8");
}

#[test]
fn document_01_s_line_in_its_least_form() {
    // 83 is 5·16 + 3: a patch of three bits where the line has four.
    writes(&[101, 102, 183, 104], 100, 4, "86 03 02 21 64 1234 A8");
    // No patch: patch width 1, gap width 1, an empty list.
    writes(&[-99, -98, -97, -96], -100, 4, "86 03 00 00 E4 1234");
}

#[test]
fn bases() {
    for (base, hex) in [
        (0, "8600 00 00 00 10"),
        (1, "8600 00 00 01 10"),
        (-1, "8600 00 00 81 10"),
        (127, "8600 00 00 7F 10"),
        (-127, "8600 00 00 FF 10"),
        (128, "8600 20 00 0080 10"),
        (-128, "8600 20 00 8080 10"),
        (32_767, "8600 20 00 7FFF 10"),
        (32_768, "8600 40 00 008000 10"),
        (i64::MAX, "8600 E0 00 7FFFFFFFFFFFFFFF 10"),
        (-i64::MAX, "8600 E0 00 FFFFFFFFFFFFFFFF 10"),
    ] {
        writes(&[i64::wrapping_add(base, 1)], base, 4, hex);
    }
    // -2^63 has no sign and magnitude of 64 bits.
    for width in [1, 4, 64] {
        assert_eq!(write(&[i64::MIN], i64::MIN, width), Err(10));
        assert_eq!(write(&[0], i64::MIN, width), Err(10));
    }
}

#[test]
fn patch_widths() {
    // One row over the base 0 at 8 bits: the patch is what is above, and the entry is gap 0 and it.
    for (patch, code, entry) in [
        (1i64, "00", "40"),
        (2, "01", "40"),
        (255, "07", "7F80"),
        // Entries of 25 bits are 26, of 27 are 28, of 33 are 40, of 41 are 48; patches of 25 bits are 26,
        // of 31 are 32, of 33 are 40.
        ((1 << 24) - 1, "17", "3FFFFFC0"),
        (1 << 24, "18", "10000000"),
        (1 << 30, "1B", "0040000000"),
        (1 << 32, "1C", "000100000000"),
        // 56 bits and a gap of one are 57: entries of 64.
        ((1 << 48) + 1, "1E", "0001000000000001"),
    ] {
        let row = patch << 8 | 3;
        writes(&[row], 0, 8, &format!("8E00 {code} 01 00 03 {entry}"));
    }
    // All 56 bits above the eighth; at 4 bits of value 60 are left, which no field has.
    writes(&[-1], 0, 8, "8E00 1E 01 00 FF 00FFFFFFFFFFFFFF");
    assert_eq!(write(&[-1], 0, 4), Err(10));
    assert_eq!(write(&[(1 << 62) + 1], 0, 4), Err(10));
    // The difference counts, and not the row: over the base -2 the row -1 is 1.
    writes(&[-1], -2, 8, "8E00 00 00 82 01");
    // At 64 bits there is nothing above.
    writes(&[-1, i64::MIN], 5, 64, "BE01 00 00 05 FFFFFFFFFFFFFFFA 7FFFFFFFFFFFFFFB");
}

/// That many rows 5 with 11 at some places: over the base 5 at one bit, 6 is a value of 0 and a patch of 3.
fn rows(count: usize, places: &[usize]) -> Vec<i64> {
    let mut rows = vec![5; count];
    places.iter().for_each(|place| rows[*place] = 11);
    rows
}

#[test]
fn gap_widths_and_skips() {
    // 16 rows: two bytes of values. Patch width 2; entries of gap width + 2 bits.
    for (place, fourth, entry) in [
        (0, "01", "60"),
        (1, "01", "E0"),
        (2, "21", "B0"),
        (3, "21", "F0"),
        (4, "41", "98"),
        (15, "61", "FC"),
    ] {
        writes(&rows(16, &[place]), 5, 1, &format!("800F 01 {fourth} 05 0000 {entry}"));
    }
    // The widest gap decides: places 1 and 4 are gaps 1 and 3; 0 and 1 and 2 are 0, 1, 1.
    writes(&rows(16, &[1, 4]), 5, 1, "800F 01 22 05 0000 7F");
    writes(&rows(16, &[0, 1, 2]), 5, 1, "800F 01 03 05 0000 7F80");
    // 300 rows: 38 bytes of values. Gaps 127 and 128; 255, which is no skip; 256 and 265, which are a
    // skip and the rest.
    let values = "00".repeat(38);
    for (place, fourth, entries) in [
        (127, "C1", "FF80"),
        (128, "E1", "80C0"),
        (255, "E1", "FFC0"),
        (256, "E2", "FF0070"),
        (265, "E2", "FF02B0"),
    ] {
        writes(&rows(300, &[place]), 5, 1, &format!("812B 01 {fourth} 05 {values} {entries}"));
    }
    // 512 rows: a gap of 510 is a skip and a gap of 255; 511 is two skips and 1.
    let values = "00".repeat(64);
    writes(&rows(512, &[510]), 5, 1, &format!("81FF 01 E2 05 {values} FF3FF0"));
    writes(&rows(512, &[511]), 5, 1, &format!("81FF 01 E3 05 {values} FF3FC01C"));
}

#[test]
fn at_most_31_entries() {
    let first = |count: usize| (0..count).collect::<Vec<usize>>();
    assert!(write(&rows(512, &first(31)), 5, 1).is_ok());
    assert_eq!(write(&rows(512, &first(32)), 5, 1), Err(10));
    // 30 patches, the last after a gap of 256: a skip more, 31. With 31 patches, 32.
    let behind = |count: usize| [first(count - 1), vec![count - 2 + 256]].concat();
    assert!(write(&rows(512, &behind(30)), 5, 1).is_ok());
    assert_eq!(write(&rows(512, &behind(31)), 5, 1), Err(10));
    // At 4 bits the rows need no patch.
    assert!(write(&rows(512, &first(512)), 5, 4).is_ok());
}

#[test]
fn refusals_in_their_order() {
    let refused = |number| Written::Refused(Refusal::whole(number, 0));
    assert_eq!(write_patched(&[], i64::MIN, 0, 0), refused(9));
    assert_eq!(write_patched(&[5; 513], 5, 4, 9000), refused(9));
    // Widths that are none of the table's; then those that are not kept.
    for width in [0, 25, 27, 29, 31, 33, 63, 65, 255] {
        assert_eq!(write_patched(&[5], 5, width, 0), refused(10), "{width}");
    }
    for width in WIDTHS {
        let kept = [1, 2, 4, 8, 16, 24, 32, 40, 48, 56, 64].contains(&width);
        assert_eq!(write(&[5], 5, width).is_ok(), kept, "{width}");
    }
    assert_eq!(write_patched(&[101, 102, 183, 104], 100, 4, 7), refused(8));
    let written = write_patched(&[101, 102, 183, 104], 100, 4, 8);
    assert_eq!(written.info(), Some(Info { kind: Kind::PatchedBase, width: 4, rows: 4, bytes: 8 }));
}
