//! What the picture needs of a file's runs, in bounded memory: each of them while they are few, and always a
//! number of stretches of equal length, with what stands in each.
use std::ops::Range;

use crate::stream::RunKind;
use crate::walk::RunInfo;

/// Up to this many runs are kept one by one.
const FEW: usize = 440;

/// There are up to this many stretches: more than two for each pixel of the picture, so that each pixel has about
/// as much of the file.
const STRETCHES: usize = 4096;

/// No stream has more kinds of runs.
pub const LANES: usize = 4;

/// What stands in a stretch of one kind: how many bytes, and the sum of their runs' widths.
#[derive(Debug, Clone, Copy, Default, PartialEq)]
pub struct Share {
    pub bytes: f64,
    pub widths: f64,
}

impl Share {
    /// Adds a part of another.
    pub fn add(&mut self, other: Share, part: f64) {
        self.bytes += part * other.bytes;
        self.widths += part * other.widths;
    }

    /// The mean width of what stands here.
    pub fn mean(self) -> f64 {
        self.widths / self.bytes
    }
}

/// What stands in a stretch, by kind.
pub type Shares = [Share; LANES];

/// The file as far as it was read.
#[derive(Debug)]
pub struct Strip {
    kinds: &'static [RunKind],
    few: Vec<RunInfo>,
    many: bool,
    length: u64,
    stretches: Vec<Shares>,
    /// The byte after the last run: the last stretch ends there.
    end: u64,
}

impl Strip {
    pub fn new(kinds: &'static [RunKind]) -> Self {
        Strip { kinds, few: Vec::new(), many: false, length: 1, stretches: Vec::new(), end: 0 }
    }

    pub fn add(&mut self, run: &RunInfo) {
        if self.few.len() < FEW {
            self.few.push(*run);
        } else {
            self.many = true;
        }
        if let Some(lane) = self.lane(run.kind) {
            self.share(run.at..run.at + run.bytes, lane, run.bits);
        }
    }

    /// The place of a kind among the stream's.
    pub fn lane(&self, kind: RunKind) -> Option<usize> {
        self.kinds.iter().position(|other| *other == kind)
    }

    /// Gives the bytes of a run to the stretches that they stand in.
    fn share(&mut self, bytes: Range<u64>, lane: usize, bits: u64) {
        while bytes.end > self.length * STRETCHES as u64 {
            self.double();
        }
        let mut at = bytes.start;
        while at < bytes.end {
            let stretch = (at / self.length) as usize;
            let end = bytes.end.min((stretch as u64 + 1) * self.length);
            if self.stretches.len() <= stretch {
                self.stretches.resize(stretch + 1, Shares::default());
            }
            let held = (end - at) as f64;
            self.stretches[stretch][lane].add(Share { bytes: 1.0, widths: bits as f64 }, held);
            at = end;
        }
        self.end = bytes.end;
    }

    /// Two stretches become one of twice the length.
    fn double(&mut self) {
        self.length *= 2;
        let joined = self.stretches.chunks(2).map(|two| {
            let mut one = two[0];
            if let Some(other) = two.get(1) {
                one.iter_mut().zip(other).for_each(|(share, other)| share.add(*other, 1.0));
            }
            one
        });
        self.stretches = joined.collect();
    }

    /// Each run, if they are few.
    pub fn few(&self) -> Option<&[RunInfo]> {
        (!self.many).then_some(&self.few)
    }

    /// What stands between two places of the file, given in bytes. Of a stretch that is not all between them, the
    /// part counts that is.
    pub fn between(&self, from: f64, to: f64) -> Shares {
        let (length, end) = (self.length as f64, self.end as f64);
        let mut shares = Shares::default();
        let first = (from / length) as usize;
        for (number, stretch) in self.stretches.iter().enumerate().skip(first) {
            let begin = number as f64 * length;
            let stop = end.min(begin + length);
            if begin >= to || from >= stop {
                break;
            }
            let part = (to.min(stop) - from.max(begin)) / (stop - begin);
            shares.iter_mut().zip(stretch).for_each(|(share, other)| share.add(*other, part));
        }
        shares
    }
}

#[cfg(test)]
mod tests {
    use super::*;

    /// However the stretches grow, each byte stays in its place, of its kind.
    #[test]
    fn every_byte_stands_in_a_stretch() {
        let mut strip = Strip::new(&[]);
        let (mut at, mut bytes, mut widths) = (0, [0.0; 4], [0.0; 4]);
        for k in 0..5000u64 {
            let (lane, length, bits) = ((k % 4) as usize, 1 + k * 7 % 4356, k % 65);
            strip.share(at..at + length, lane, bits);
            at += length;
            bytes[lane] += length as f64;
            widths[lane] += (length * bits) as f64;
            assert!(strip.stretches.len() <= STRETCHES && strip.length.is_power_of_two());
        }
        for (place, stretch) in strip.stretches.iter().enumerate() {
            let end = at.min((place as u64 + 1) * strip.length);
            let held: f64 = stretch.iter().map(|share| share.bytes).sum();
            assert_eq!(held, (end - place as u64 * strip.length) as f64, "stretch {place}");
        }
        for lane in 0..4 {
            let all = strip.between(0.0, at as f64 + strip.length as f64)[lane];
            assert_eq!((all.bytes, all.widths), (bytes[lane], widths[lane]));
        }
    }

    /// Parts of the file that touch each other have what the whole has, wherever they touch.
    #[test]
    fn parts_add_up() {
        let mut strip = Strip::new(&[]);
        (0..20_000).for_each(|k| strip.share(100 * k..100 * k + 100, (k % 2) as usize, 8 + k % 2));
        let end = 2_000_000.0;
        let parts: Vec<Shares> = (0..77)
            .map(|k| strip.between(end * f64::from(k) / 77.0, end * f64::from(k + 1) / 77.0))
            .collect();
        for lane in 0..2 {
            let held: f64 = parts.iter().map(|part| part[lane].bytes).sum();
            assert!((held - end / 2.0).abs() < 1.0, "{held}");
            assert!(parts.iter().all(|part| (part[lane].mean() - 8.0 - lane as f64).abs() < 1e-9));
        }
    }
}
