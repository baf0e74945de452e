//! Ours, through the safe wrapper.
use menakovitsy::{read_booleans, read_run_bytes, ByteOffset, Column, PartReader, RowNumber, Sign};

use crate::cases::Case;

pub fn sign(case: &Case) -> Sign {
    if case.signed {
        Sign::Signed
    } else {
        Sign::Unsigned
    }
}

/// Decodes every run of a case into `out`, eight bytes a row, by a call of `orc_read_run` each.
pub fn runs_into(case: &Case, out: &mut [u8]) {
    let (mut at, mut row) = (0, 0);
    while let Ok(Some(run)) = read_run_bytes(&case.bytes[at..], sign(case), &mut out[8 * row..]) {
        at += run.bytes.0;
        row += run.rows.0;
    }
}

/// Decodes a case into `rows` by one call of `orc_read_stream`.
pub fn stream_into(case: &Case, rows: &mut [i64]) {
    let read = Column::new(&case.bytes, sign(case)).read_into(rows);
    debug_assert!(read.is_ok());
}

/// Decodes `n` booleans into `out` by one call of `orc_read_booleans`.
pub fn booleans_into(bytes: &[u8], n: usize, out: &mut [u8]) {
    let read = read_booleans(bytes, ByteOffset(0), RowNumber(n), out);
    debug_assert!(read.is_ok());
}

/// Gives a case's bytes in parts of a size to a reader, and each run that it hands out to `run`.
pub fn parts_of(case: &Case, size: usize, run: &mut dyn FnMut(&[i64])) {
    let mut reader = PartReader::new(sign(case));
    for mut part in case.bytes.chunks(size) {
        while let Ok(Some(handed)) = reader.next_run(&mut part) {
            run(handed.rows);
            if part.is_empty() {
                break;
            }
        }
    }
    let end = reader.close();
    debug_assert!(end.is_ok());
}
