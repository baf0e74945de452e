//! Byte runs, of flag and byte streams, over the exported functions.
//!
//! The library reads any number of bytes from a position inside byte runs, and says the position after them; it
//! has no call that says what one run is. So each run is found in two steps. Its control byte says how many bytes
//! it stands for (docs/FORMAT.md, "Booleans": c below 128 is a repeat of c + 3 bytes, any other is 256 - c
//! literals). Then the proved reader is asked for exactly these, from the run's first byte on, and the position
//! that it answers must be the first byte of another run: where the run ends is what the library says, and a run
//! that is cut is refused by it.
use menakovitsy::{read_bytes, ByteOffset, BytePosition, Refused, Sign};

use crate::stream::{RunKind, Stream};
use crate::walk::{Counts, Measured};

/// The most bytes that a byte run stands for, flags that these are, and bytes that it takes up.
const MOST: usize = 130;
pub const MOST_FLAGS: usize = 8 * MOST;
pub const MOST_BYTES: usize = 129;

/// A run: its kind, what it stands for, and the byte after it.
struct ByteRun {
    kind: RunKind,
    bytes: [u8; MOST],
    count: usize,
    next: usize,
}

/// The run at a byte; nothing at the end.
fn run(input: &[u8], at: usize) -> Result<Option<ByteRun>, Refused> {
    let Some(control) = input.get(at) else { return Ok(None) };
    let (kind, count) = match usize::from(*control) {
        control @ 0..=127 => (RunKind::Repeat, control + 3),
        control => (RunKind::Literals, 256 - control),
    };
    let mut bytes = [0; MOST];
    let position = BytePosition { run: ByteOffset(at), bytes: ByteOffset(0) };
    let next = read_bytes(input, position, ByteOffset(count), &mut bytes)?;
    // Anything else is not the proved library's answer: a run of no bytes, which the walk refuses.
    let next = if next.bytes == ByteOffset(0) { next.run.0 } else { at };
    Ok(Some(ByteRun { kind, bytes, count, next }))
}

/// Reads the run at a byte into `rows`, which has places for any; nothing at the end.
pub fn read(
    input: &[u8],
    at: ByteOffset,
    stream: Stream,
    rows: &mut [i64],
) -> Result<Option<Measured>, Refused> {
    let Some(run) = run(input, at.0)? else { return Ok(None) };
    let bytes = &run.bytes[..run.count];
    let (bits, count) = match stream {
        Stream::Flags => {
            let flags = bytes.iter().flat_map(|byte| (0..8).rev().map(move |bit| i64::from(byte >> bit & 1)));
            rows.iter_mut().zip(flags).for_each(|(row, flag)| *row = flag);
            (1, 8 * run.count)
        }
        Stream::Bytes(Sign::Signed) => {
            rows.iter_mut().zip(bytes).for_each(|(row, byte)| *row = i64::from(*byte as i8));
            (8, run.count)
        }
        _ => {
            rows.iter_mut().zip(bytes).for_each(|(row, byte)| *row = i64::from(*byte));
            (8, run.count)
        }
    };
    Ok(Some(Measured { kind: run.kind, bits, rows: count, bytes: run.next.saturating_sub(at.0) }))
}

/// The runs of a window before the one that holds a row; all that are whole, if none does.
pub fn passed(window: &[u8], stream: Stream, row: u64) -> Counts {
    let each = if stream == Stream::Flags { 8 } else { 1 };
    let mut passed = Counts::default();
    while let Ok(Some(run)) = run(window, passed.bytes as usize) {
        let rows = each * run.count as u64;
        let bytes = (run.next as u64).saturating_sub(passed.bytes);
        if passed.rows + rows > row || bytes == 0 {
            break;
        }
        passed.add(Counts { runs: 1, rows, bytes });
    }
    passed
}
