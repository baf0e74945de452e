//! Patched runs: written, refused, read back; and what they save.
#[path = "../examples/patched_sizes.rs"]
mod patched_sizes;

use menakovitsy::*;

fn written(rows: &[i64], base: i64, width: u8) -> Result<Vec<u8>, Refused> {
    let mut out = [77; MAX_WRITTEN];
    let run = write_patched(rows, base, width, &mut out)?;
    assert_eq!((run.kind, run.width, run.rows), (Kind::PatchedBase, width.into(), RowNumber(rows.len())));
    assert!(out[run.bytes.0..].iter().all(|byte| *byte == 77));
    Ok(out[..run.bytes.0].to_vec())
}

#[test]
fn what_is_written_reads_back() {
    let specification: Vec<i64> =
        [2030, 2000, 2020, 1_000_000].into_iter().chain((2040..=2190).step_by(10)).collect();
    let mut far = vec![5; 512];
    (far[255], far[511]) = (11, 1 << 50);
    for (rows, base, width) in [
        (&specification[..], 2000, 8),
        (&[-99, -98, -97, -96], -100, 4),
        (&[-1, i64::MIN], 5, 64),
        (&far, 5, 1),
    ] {
        let run = written(rows, base, width).unwrap();
        for sign in [Sign::Unsigned, Sign::Signed] {
            assert_eq!(Column::new(&run, sign).to_vec().unwrap(), rows);
        }
    }
    // The longest run.
    let longest = written(&[i64::MAX; 512], -i64::MAX, 64).unwrap();
    assert_eq!(longest.len(), MAX_WRITTEN);
}

#[test]
fn refusals_leave_every_byte() {
    let many = [5, 11].repeat(32);
    for (rows, base, width, lent, refusal) in [
        (&[][..], i64::MIN, 0, 0, Refusal::RowCount),
        (&[5; 513], 5, 4, 9000, Refusal::RowCount),
        (&[5], i64::MIN, 4, 0, Refusal::NotTheForm),
        (&[5], 5, 25, 100, Refusal::NotTheForm),
        (&[5], 5, 5, 100, Refusal::NotTheForm),
        (&[5], 5, 255, 100, Refusal::NotTheForm),
        (&[i64::MAX], 0, 1, 100, Refusal::NotTheForm),
        (&many, 5, 1, 9000, Refusal::NotTheForm),
        (&[101, 102, 183, 104], 100, 4, 7, Refusal::TooFewPlaces),
    ] {
        let mut out = vec![77; lent];
        let refused = write_patched(rows, base, width, &mut out).unwrap_err();
        assert_eq!((refused.refusal, refused.at, refused.cut), (refusal, None, None));
        assert!(out.iter().all(|byte| *byte == 77));
    }
}

/// Direct: two bytes and 512 rows of the width of the largest; patched: four, the base, 512 rows of W
/// bits and the list.
const EXPECTED: &str = "\
| 512 rows | direct | patched | W |
|---|---|---|---|
| window lengths, 4 pauses | 1538 | 530 | 8 |
| milliseconds between takes, 2 nights | 2050 | 273 | 4 |
| stem numbers, 1 of another session | 3074 | 279 | 4 |
| sizes, 30 large | 1538 | 570 | 8 |
| sizes, 64 large | 1538 | 1541 | 24 |
| no jump | 514 | 517 | 8 |
";

#[test]
fn what_they_save() {
    assert_eq!(patched_sizes::report(), EXPECTED);
}
