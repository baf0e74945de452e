//! FORMAT.md, "One flipped byte": what one can change. Every byte of the packed block is replaced
//! by every other, at every width; the rows that it may change are those of "Packed blocks": field k
//! of width w is bits k·w to k·w+w-1.
use model::*;

fn read(run: &[u8], signed: bool) -> Vec<i64> {
    match read_run(run, 0, signed, 512) {
        Answer::Run(run) => run.rows,
        other => panic!("{run:02X?}: {other:?}"),
    }
}

/// Bytes of no plan.
fn block(length: usize) -> Vec<u8> {
    (0..length).map(|k| (k * 151 + 89) as u8 ^ (k as u8) << 3).collect()
}

/// Whether field k of a width has a bit in a byte of its block.
fn touches(k: usize, width: usize, byte: usize) -> bool {
    (k * width..(k + 1) * width).any(|bit| bit / 8 == byte)
}

#[test]
fn direct_runs() {
    for (code, width) in WIDTHS.into_iter().enumerate() {
        let rows = 11;
        let run =
            [vec![0x40 | (code << 1) as u8, rows as u8 - 1], block((rows * width).div_ceil(8))].concat();
        for signed in [false, true] {
            let before = read(&run, signed);
            for byte in 0..run.len() - 2 {
                for by in 1..=255 {
                    let mut flipped = run.clone();
                    flipped[2 + byte] ^= by;
                    let after = read(&flipped, signed);
                    let kept = |k: &usize| !touches(*k, width, byte);
                    assert!(
                        (0..rows).filter(kept).all(|k| before[k] == after[k]),
                        "{width} bits, byte {byte}"
                    );
                    // A flipped bit that is no padding shows in its own row.
                    let shown = by == 0x80 && 8 * byte < rows * width;
                    assert!(!shown || before != after);
                }
            }
        }
    }
}

#[test]
fn delta_runs() {
    for (code, width) in WIDTHS.into_iter().enumerate().skip(1) {
        let rows = 11;
        for base in [0x04, 0x05] {
            let header = vec![0xC0 | (code << 1) as u8, rows as u8 - 1, 0x64, base];
            let run = [header, block(((rows - 2) * width).div_ceil(8))].concat();
            let before = read(&run, true);
            for byte in 0..run.len() - 4 {
                for by in 1..=255 {
                    let mut flipped = run.clone();
                    flipped[4 + byte] ^= by;
                    let after = read(&flipped, true);
                    // Magnitude k leads to row k + 2: all rows before the first one that touches.
                    let first = (0..rows - 2).find(|k| touches(*k, width, byte)).map_or(rows, |k| k + 2);
                    assert_eq!(before[..first], after[..first], "{width} bits, byte {byte}");
                }
            }
        }
    }
}
