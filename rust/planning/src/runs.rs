//! A run's form, width and base, and the exact bytes that each form takes.
use crate::bits::{class, needs, number, KEPT};
use model::{direct_size, fixed_delta_size, packed_delta_size, patched_size, short_repeat_size, Segment};

/// A proposed run without its place.
#[derive(Debug, Clone, Copy, PartialEq, Eq)]
pub struct Run {
    pub form: u64,
    pub width: usize,
    pub base: u64,
}

impl Run {
    pub const FIXED: Run = Run { form: 2, width: 0, base: 0 };
    pub const WIDEST: Run = Run { form: 1, width: 31, base: 0 };

    pub fn segment(self, first: usize, rows: usize) -> Segment {
        let (first, rows) = (first as u64, rows as u64);
        Segment { first, rows, form: self.form, width: self.width as u64, base: self.base }
    }
}

/// Direct at the narrowest kept width.
pub fn as_direct(rows: &[i64], signed: bool) -> Run {
    let bits = rows.iter().map(|row| needs(number(*row, signed))).max().unwrap_or(1);
    Run { form: 1, width: KEPT[class(bits)].1, base: 0 }
}

/// The bytes of a proposal by the model's sizes: nothing where it does not cover the rows in order or
/// a run's writer does not accept it.
pub fn bytes(rows: &[i64], signed: bool, proposal: &[Segment]) -> Option<usize> {
    let (mut total, mut at) = (0, 0);
    for segment in proposal {
        if segment.first != at as u64 {
            return None;
        }
        let end = at + segment.rows as usize;
        total += run_bytes(rows.get(at..end)?, signed, segment)?;
        at = end;
    }
    (at == rows.len()).then_some(total)
}

fn run_bytes(rows: &[i64], signed: bool, segment: &Segment) -> Option<usize> {
    if !(1..=512).contains(&rows.len()) {
        return None;
    }
    let width = segment.width as usize;
    let at_least = |(least, bytes): (usize, usize)| (width == least).then_some(bytes);
    match segment.form {
        0 => short_repeat_size(rows, signed).and_then(at_least),
        1 if width == 31 => Some(2 + 8 * rows.len()),
        1 => at_least(direct_size(rows, signed)),
        2 => fixed_delta_size(rows, signed),
        3 => packed_delta_size(rows, signed).and_then(at_least),
        4 => patched_size(rows, segment.base as i64, width).map(|(_, bytes)| bytes),
        _ => None,
    }
}

/// Direct runs of 512 rows, each at the narrowest kept width.
pub fn narrowest_direct(rows: &[i64], signed: bool) -> Vec<Segment> {
    let run = |(k, some): (usize, &[i64])| as_direct(some, signed).segment(512 * k, some.len());
    rows.chunks(512).enumerate().map(run).collect()
}

/// Direct runs of 64 bits.
pub fn widest_direct(rows: &[i64]) -> Vec<Segment> {
    let run = |(k, some): (usize, &[i64])| Run::WIDEST.segment(512 * k, some.len());
    rows.chunks(512).enumerate().map(run).collect()
}
