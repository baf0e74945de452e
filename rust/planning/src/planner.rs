//! The planner: windows of at most 512 rows, the cheapest way through each, and for each run of it the
//! exact width and base. Nothing is allocated; the segments are lent.
//!
//! For a window: `menu` counts which widths its rows and steps have; `walk` goes over the rows once with
//! an open run for each of these widths and each form, `frames` being those of patched runs; the way
//! is turned round, and its runs are proposed, all of them or all but the last.
use crate::bits::{class, needs, number, varint, KEPT};
use crate::frames::{head, Frame};
use crate::patched;
use crate::runs::Run;
use crate::walk::{Way, DIRECT, FIXED, PACKED, PATCHED, SHORT, WINDOW};
use model::Segment;

/// A window's last run is left to the next window where it begins this late: a run is then not cut
/// where the window ends, and a row is walked over at most 4/3 times.
const LATE: usize = 384;

/// Proposes segments for a column: how many, or none where too few are lent.
pub fn plan(rows: &[i64], signed: bool, segments: &mut [Segment]) -> usize {
    let mut way = Way::START;
    let (mut at, mut count, mut total) = (0, 0, 0);
    while at < rows.len() {
        let window = &rows[at..rows.len().min(at + WINDOW)];
        way.walk(window, signed);
        let whole = at + window.len() == rows.len();
        let end = match way.turn(window.len()) {
            late if !whole && late >= LATE => late,
            _ => window.len(),
        };
        let mut from = 0;
        while from < end {
            let (mut next, form) = way.run(from);
            if form == FIXED && next == window.len() {
                next = from + stretch(&rows[at + from..], next - from);
            }
            if count == segments.len() {
                return 0;
            }
            let (run, bytes) = run_of(&rows[at + from..at + next], signed, form);
            segments[count] = run.segment(at + from, next - from);
            total += bytes;
            count += 1;
            from = next;
        }
        at += from;
    }
    // Never above the direct runs of 64 bits.
    let runs = rows.len().div_ceil(WINDOW);
    if total > 2 * runs + 8 * rows.len() {
        return widest(rows.len(), segments);
    }
    count
}

/// The same as a list of its own.
pub fn proposed(rows: &[i64], signed: bool) -> Vec<Segment> {
    let mut segments = vec![Run::WIDEST.segment(0, 0); rows.len()];
    let count = plan(rows, signed, &mut segments);
    segments.truncate(count);
    segments
}

/// How many rows a fixed delta of that many rows goes on with in equal steps, after the window too: they cost nothing.
fn stretch(rows: &[i64], count: usize) -> usize {
    let step = rows[1].wrapping_sub(rows[0]);
    let mut count = count;
    while count < rows.len() && count < WINDOW && rows[count].wrapping_sub(rows[count - 1]) == step {
        count += 1;
    }
    count
}

/// The direct runs of 64 bits themselves: as many as windows at most, so that there is room.
fn widest(rows: usize, segments: &mut [Segment]) -> usize {
    let runs = rows.div_ceil(WINDOW);
    for k in 0..runs {
        segments[k] = Run::WIDEST.segment(WINDOW * k, WINDOW.min(rows - WINDOW * k));
    }
    runs
}

/// Width and base of a run, from its rows, and its bytes.
fn run_of(rows: &[i64], signed: bool, form: u64) -> (Run, usize) {
    match form {
        SHORT => {
            let width = needs(number(rows[0], signed)).div_ceil(8);
            (Run { form, width, base: 0 }, 1 + width)
        }
        DIRECT => direct(rows, signed),
        FIXED => (Run::FIXED, delta_head(rows, signed)),
        PACKED => {
            let (width, code) = KEPT[class(needs(magnitudes(rows))).max(1)];
            let bytes = delta_head(rows, signed) + ((rows.len() - 2) * width).div_ceil(8);
            (Run { form, width: code, base: 0 }, bytes)
        }
        _ => patched(rows, signed, KEPT[(form - PATCHED) as usize].0),
    }
}

fn direct(rows: &[i64], signed: bool) -> (Run, usize) {
    let mut all = 0;
    for row in rows {
        all |= number(*row, signed);
    }
    let (width, code) = KEPT[class(needs(all))];
    (Run { form: DIRECT, width: code, base: 0 }, 2 + (rows.len() * width).div_ceil(8))
}

/// Header, first row and first step of a delta run.
fn delta_head(rows: &[i64], signed: bool) -> usize {
    2 + varint(number(rows[0], signed)) + varint(number(rows[1].wrapping_sub(rows[0]), true))
}

/// The bits of all magnitudes after the first step, one over the other.
fn magnitudes(rows: &[i64]) -> u64 {
    let falls = rows[1].wrapping_sub(rows[0]) < 0;
    let mut all = 0;
    for at in 2..rows.len() {
        let step = rows[at].wrapping_sub(rows[at - 1]);
        all |= if falls { step.wrapping_neg() } else { step } as u64;
    }
    all
}

/// The patched run over the base that its frame has; direct where its writer does not accept it, or
/// direct is no longer: the frame's own figures are those of the bases that it had on its way.
fn patched(rows: &[i64], signed: bool, width: usize) -> (Run, usize) {
    let mut frame = Frame::open(width, 0, rows[0], head(rows[0]));
    for at in 1..rows.len() {
        frame.take(width, at, rows[at]);
    }
    let base = frame.base(width);
    let direct = direct(rows, signed);
    match patched::bytes(rows, base, width) {
        Some(bytes) if bytes < direct.1 => (Run { form: PATCHED, width, base: base as u64 }, bytes),
        _ => direct,
    }
}
