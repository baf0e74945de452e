//! Patched runs while the rows come in: for some widths W a run that is open, its frame (the least and
//! the greatest of the rows that W bits hold above the least) and what the rows outside cost as patches.
use crate::bits::needs;
use crate::patched::{base_bytes, is_read_everywhere, table};

/// Bits that no way through a window takes: a state that cannot go on.
pub const FAR: u64 = 1 << 26;

/// An open patched run.
#[derive(Debug, Clone, Copy)]
pub struct Frame {
    /// Where it begins, in rows.
    pub start: usize,
    low: i64,
    high: i64,
    /// How many rows are equal to the greatest.
    highs: u64,
    /// Entries of the list, skips among them.
    entries: u64,
    /// Bits of the widest difference that is patched.
    reach: usize,
    last: usize,
    gap: usize,
    /// How many rows outside came one after the other.
    pub streak: usize,
    /// Bits of all before the run, its header, base and values; and of its list.
    bits: u64,
    list: u64,
}

/// Bits of a patched run's header and base.
#[inline]
pub fn head(base: i64) -> u64 {
    match base_bytes(base) {
        9 => FAR,
        bytes => 32 + 8 * bytes as u64,
    }
}

impl Frame {
    /// A run of one row, after that many bits, the head among them.
    #[inline]
    pub fn open(width: usize, at: usize, row: i64, before: u64) -> Frame {
        let bits = before + width as u64;
        let (low, high, highs) = (row, row, 1);
        Frame {
            start: at,
            low,
            high,
            highs,
            entries: 0,
            reach: 0,
            last: at,
            gap: 1,
            streak: 0,
            bits,
            list: 16,
        }
    }

    /// A state that any run replaces.
    pub const NONE: Frame = Frame {
        start: 0,
        low: 0,
        high: 0,
        highs: 0,
        entries: 0,
        reach: 0,
        last: 0,
        gap: 1,
        streak: 0,
        bits: FAR,
        list: 16,
    };

    /// The bits up to here, if the run ends.
    #[inline]
    pub fn cost(&self) -> u64 {
        self.bits.next_multiple_of(8) + self.list
    }

    /// One row more.
    #[inline]
    pub fn take(&mut self, width: usize, at: usize, row: i64) {
        self.bits += width as u64;
        if row.wrapping_sub(self.low) as u64 >> width == 0 {
            if row >= self.high {
                self.raise(row);
            }
        } else if row < self.low && self.high.wrapping_sub(row) as u64 >> width == 0 {
            self.lower(row);
        } else if at == self.start + 1 && row < self.low {
            // The first row was the one that sticks out.
            let first = self.low;
            self.lower(row);
            (self.high, self.highs) = (row, 1);
            self.patch(width, self.start, first);
        } else {
            self.patch(width, at, row);
        }
    }

    fn lower(&mut self, row: i64) {
        self.bits = self.bits + head(row) - head(self.low);
        self.low = row;
    }

    fn raise(&mut self, row: i64) {
        self.highs = if row == self.high { self.highs + 1 } else { 1 };
        self.high = row;
        if self.entries == 0 {
            // A list must not be empty: the greatest rows are patched, over a base 2^W below them.
            self.list = if self.highs > 31 { FAR } else { (9 * self.highs).next_multiple_of(8) };
        }
    }

    fn patch(&mut self, width: usize, at: usize, row: i64) {
        let distance = at - self.last;
        self.last = at;
        self.streak = if distance == 1 { self.streak + 1 } else { 1 };
        self.entries += if distance > 255 { 1 + (distance as u64 - 1) / 255 } else { 1 };
        self.gap = self.gap.max(distance.min(255));
        self.reach = self.reach.max(needs(row.wrapping_sub(self.low) as u64));
        let patch = table(self.reach.max(width + 1) - width);
        let entry = table(patch + needs(self.gap as u64)) as u64;
        let fits = self.entries <= 31 && patch <= 56 && is_read_everywhere(patch);
        self.list = if fits { (self.entries * entry).next_multiple_of(8) } else { FAR };
    }

    /// The base that the run is written with.
    pub fn base(&self, width: usize) -> i64 {
        if self.entries == 0 {
            self.high.wrapping_sub(1 << width)
        } else {
            self.low
        }
    }
}
