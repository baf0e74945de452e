//! FORMAT.md, "One flipped byte": what it can change, by the linked library. Every byte of the packed
//! block of sample runs is replaced by every other, at every width; which rows it may change is told by
//! "Packed blocks": field k of width w is bits k·w to k·w+w-1.
use menakovitsy::{read_run, ByteOffset, Sign, MAX_ROWS};

const WIDTHS: [usize; 32] = [
    1, 2, 3, 4, 5, 6, 7, 8, 9, 10, 11, 12, 13, 14, 15, 16, 17, 18, 19, 20, 21, 22, 23, 24, 26, 28, 30, 32,
    40, 48, 56, 64,
];

/// Reads a run, which is accepted, into the first places: how many rows it has.
fn read(run: &[u8], sign: Sign, rows: &mut [i64; MAX_ROWS]) -> usize {
    let read = read_run(run, ByteOffset(0), sign, rows).expect("a flipped byte of a block is accepted");
    read.expect("there is a run").rows.0
}

/// Bytes of no plan.
fn block(length: usize) -> Vec<u8> {
    (0..length).map(|k| (k * 151 + 89) as u8 ^ (k as u8) << 3).collect()
}

/// The fields of a width that have a bit in a byte of their block.
fn touched(fields: usize, width: usize, byte: usize) -> std::ops::Range<usize> {
    (8 * byte / width).min(fields)..((8 * byte + 7) / width + 1).min(fields)
}

/// Replaces every byte of the block after a header by every other value, and says for each the rows that
/// it has changed, from the first on.
fn every_flip(header: &[u8], block: &[u8], sign: Sign, mut each: impl FnMut(usize, &[usize])) {
    let run = [header, block].concat();
    let (mut before, mut after) = ([0; MAX_ROWS], [0; MAX_ROWS]);
    let rows = read(&run, sign, &mut before);
    let mut flipped = run.clone();
    for byte in 0..block.len() {
        for by in 1..=255 {
            flipped[header.len() + byte] ^= by;
            assert_eq!(read(&flipped, sign, &mut after), rows);
            let changed: Vec<usize> = (0..rows).filter(|row| before[*row] != after[*row]).collect();
            each(byte, &changed);
            flipped[header.len() + byte] ^= by;
        }
    }
}

#[test]
fn direct_runs() {
    for (code, width) in WIDTHS.into_iter().enumerate() {
        for rows in [1, 2, 7, 19] {
            let header = [0x40 | (code << 1) as u8, rows as u8 - 1];
            for sign in [Sign::Unsigned, Sign::Signed] {
                // At most that many rows, whatever byte it is.
                let most = 7usize.div_ceil(width) + 1;
                every_flip(&header, &block((rows * width).div_ceil(8)), sign, |byte, changed| {
                    let may = touched(rows, width, byte);
                    assert!(changed.iter().all(|row| may.contains(row)), "{width} bits, byte {byte}");
                    assert!(changed.len() <= most, "{width} bits, byte {byte}: {changed:?}");
                });
            }
        }
    }
}

#[test]
fn delta_runs() {
    for (code, width) in WIDTHS.into_iter().enumerate().skip(1) {
        for rows in [3, 9, 19] {
            // A rising run and a falling one.
            for base in [0x04, 0x05] {
                let header = [0xC0 | (code << 1) as u8, rows as u8 - 1, 0x64, base];
                let fields = rows - 2;
                for sign in [Sign::Unsigned, Sign::Signed] {
                    every_flip(&header, &block((fields * width).div_ceil(8)), sign, |byte, changed| {
                        // Magnitude k leads to row k + 2: no row before the first one that touches.
                        let may = touched(fields, width, byte);
                        let first = if may.is_empty() { rows } else { may.start + 2 };
                        assert!(changed.iter().all(|row| *row >= first), "{width} bits, byte {byte}");
                    });
                }
            }
        }
    }
}
