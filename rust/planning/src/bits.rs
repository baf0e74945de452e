//! Bits of numbers, and the kept widths.

/// The kept widths, and their codes.
pub const KEPT: [(usize, usize); 11] =
    [(1, 0), (2, 1), (4, 3), (8, 7), (16, 15), (24, 23), (32, 27), (40, 28), (48, 29), (56, 30), (64, 31)];

/// How many bits a number needs; 0 needs one.
#[inline]
pub fn needs(number: u64) -> usize {
    64 - (number | 1).leading_zeros() as usize
}

/// The bytes of the shortest varint.
#[inline]
pub fn varint(number: u64) -> usize {
    (needs(number) * 37 + 222) >> 8
}

/// The number that stands for a row: zigzagged if signed.
#[inline]
pub fn number(row: i64, signed: bool) -> u64 {
    if signed {
        (row << 1 ^ row >> 63) as u64
    } else {
        row as u64
    }
}

/// The place among the kept widths of the narrowest that has that many bits.
#[inline]
pub fn class(bits: usize) -> usize {
    // 1, 2, 4, 8, and from there a byte each; sums and no branches, since rows vary.
    2 + bits.div_ceil(8) - usize::from(bits <= 4) - usize::from(bits <= 2) - usize::from(bits <= 1)
}

/// The narrowest kept width that has that many bits, and its code.
pub fn kept(bits: usize) -> (usize, usize) {
    KEPT[class(bits)]
}
