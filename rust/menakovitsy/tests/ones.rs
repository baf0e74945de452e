//! The count of true booleans, against bits counted one by one.
use menakovitsy::{count_true, ByteOffset, Bytes, Refusal, Refused, RowNumber};

/// Bytes that are like no pattern.
fn bytes(count: usize) -> Vec<u8> {
    (0..count as u32).map(|k| (k.wrapping_mul(2_654_435_761) >> 13) as u8).collect()
}

/// Of plain numbers.
fn count(packed: &[u8], n: usize) -> Result<usize, Refused> {
    count_true(packed, RowNumber(n)).map(usize::from)
}

#[test]
fn every_n_of_bytes() {
    let packed = bytes(300);
    let bit = |k: usize| usize::from(packed[k / 8] >> (7 - k % 8) & 1);
    let mut ones = 0;
    for n in 0..=8 * packed.len() {
        assert_eq!(count(&packed, n), Ok(ones), "{n}");
        if n < 8 * packed.len() {
            ones += bit(n);
        }
    }
    // Padding is not counted.
    assert_eq!(count(&[0xFF], 3), Ok(3));
    assert_eq!(count(&[], 0), Ok(0));
}

#[test]
fn more_than_the_bytes_hold() {
    for (held, n) in [(0, 1), (3, 25), (3, usize::MAX), (1, 1 << 61), (8, (1 << 61) + 8)] {
        let refused = count(&bytes(held), n).unwrap_err();
        assert_eq!((refused.refusal, refused.at), (Refusal::ValueCut, None), "{held} {n}");
        assert_eq!(refused.cut, Some(ByteOffset(0)));
    }
}

/// The README's own column: 24 of its 32 flags are true, and its own four bytes have 16 ones.
#[test]
fn the_bytes_and_not_the_column() {
    let column = [0x00, 0xFF, 0xFF, 0x00];
    let packed = Bytes::new(&column).next(ByteOffset(4)).unwrap();
    assert_eq!((count(&packed, 32), count(&column, 32)), (Ok(24), Ok(16)));
}
