//! Runs laid down field by field. Nothing is tested: a run may be a damaged one.
use super::numbers::largest;
use crate::bits::{Put, WIDTHS};

fn header(kind: u64, code: usize, rows: usize) -> Put {
    let mut put = Put::default();
    put.header(kind, code, rows);
    put
}

/// Packed fields, and padding bits, which a reader must not look at.
fn block(put: &mut Put, fields: &[u64], width: usize, padding: bool) {
    fields.iter().for_each(|field| put.number(*field, width));
    put.pad_with(padding);
}

fn bytes(put: &mut Put, bytes: &[u8]) {
    bytes.iter().for_each(|byte| put.number(u64::from(*byte), 8));
}

pub fn short_repeat(size: usize, count: usize, value: u64) -> Vec<u8> {
    let mut put = Put::default();
    put.number(size as u64 - 1, 5);
    put.number(count as u64 - 3, 3);
    put.number(value, 8 * size);
    put.bytes()
}

pub fn direct(code: usize, fields: &[u64], padding: bool) -> Vec<u8> {
    let mut put = header(1, code, fields.len());
    block(&mut put, fields, WIDTHS[code], padding);
    put.bytes()
}

/// The two varints are given as bytes: they may be longer than they need be, or too long.
pub fn fixed_delta(rows: usize, first: &[u8], base: &[u8]) -> Vec<u8> {
    let mut put = header(3, 0, rows);
    bytes(&mut put, first);
    bytes(&mut put, base);
    put.bytes()
}

pub fn packed_delta(code: usize, first: &[u8], base: &[u8], magnitudes: &[u64], padding: bool) -> Vec<u8> {
    let mut put = header(3, code, magnitudes.len() + 2);
    bytes(&mut put, first);
    bytes(&mut put, base);
    block(&mut put, magnitudes, WIDTHS[code], padding);
    put.bytes()
}

/// A patched run.
#[derive(Clone)]
pub struct Patched {
    pub code: usize,
    pub values: Vec<u64>,
    pub base: Vec<u8>,
    pub patch_code: usize,
    pub gap_width: usize,
    /// Gaps and patches.
    pub list: Vec<(u64, u64)>,
    pub padding: bool,
}

impl Patched {
    pub fn patch_width(&self) -> usize {
        WIDTHS[self.patch_code]
    }

    /// "The least width of the table that holds patch width + gap width"; 64 if none does.
    fn entry_width(&self) -> usize {
        let bits = self.patch_width() + self.gap_width;
        WIDTHS.into_iter().find(|width| *width >= bits).unwrap_or(64)
    }

    /// The largest gap that an entry has room for, with the bits that its width is rounded up by.
    pub fn largest_gap(&self) -> u64 {
        largest(self.entry_width() - self.patch_width())
    }

    pub fn largest_patch(&self) -> u64 {
        largest(self.patch_width())
    }

    /// The largest patch that fits above a value.
    pub fn fits(&self) -> u64 {
        largest(64 - WIDTHS[self.code])
    }

    /// The same run with another list, if its entries have room for it.
    pub fn with(&self, list: Vec<(u64, u64)>) -> Option<Patched> {
        let has_room =
            |(gap, patch): &(u64, u64)| *gap <= self.largest_gap() && *patch <= self.largest_patch();
        (list.len() <= 31 && list.iter().all(has_room)).then(|| Patched { list, ..self.clone() })
    }

    pub fn bytes(&self) -> Vec<u8> {
        let mut put = header(2, self.code, self.values.len());
        put.number(self.base.len() as u64 - 1, 3);
        put.number(self.patch_code as u64, 5);
        put.number(self.gap_width as u64 - 1, 3);
        put.number(self.list.len() as u64, 5);
        bytes(&mut put, &self.base);
        block(&mut put, &self.values, WIDTHS[self.code], self.padding);
        let above = |gap: u64| gap.checked_shl(self.patch_width() as u32).unwrap_or(0);
        let entries: Vec<u64> = self.list.iter().map(|(gap, patch)| above(*gap) | patch).collect();
        block(&mut put, &entries, self.entry_width(), self.padding);
        put.bytes()
    }
}
