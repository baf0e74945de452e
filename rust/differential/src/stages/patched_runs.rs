//! FORMAT.md, "Patched writer": patched runs, written by the model and by ours, and read back by the Rust.
use model::{Written, KEPT};
use oracle::Run;

use super::Session;
use crate::frames::largest_patch;
use crate::listed::{self, Call, Sort};
use crate::probe::Requests;
use model::random::Random;

/// Rows, a base and a value width: mostly ones that the writer takes, a few rows with a patch.
pub fn any_patched_rows(random: &mut Random) -> (Vec<i64>, i64, usize) {
    let width = if random.once_in(32) { random.below(70) } else { random.pick(&KEPT) };
    let base = random.any() as i64 >> random.below(64);
    let count = match random.below(16) {
        0 => random.from(250, 513),
        _ => random.from(1, 20),
    };
    let patched = random.pick(&[1, 2, 8, 40, 1000]);
    let patch_bits = random.from(1, 64);
    let rows = (0..count).map(|_| {
        let low = random.any() & if width < 64 { (1 << width) - 1 } else { u64::MAX };
        let patch = random.any() >> (64 - patch_bits) & largest_patch(width.min(64));
        let high = if width < 64 && random.once_in(patched) { patch << width } else { 0 };
        base.wrapping_add((low | high) as i64)
    });
    (rows.collect(), base, width)
}

impl Session {
    pub(super) fn patched_runs(&mut self) {
        self.tally.stage("written patched runs read back");
        for _ in 0..self.size.pick(2_000, 100_000, 1_000_000) {
            let (rows, base, width) = any_patched_rows(&mut self.random);
            let paper = model::write_patched(&rows, base, width, usize::MAX);
            #[cfg(feature = "ours")]
            self.ours_writes(&rows, base, width, &paper);
            let Written::Run { bytes, .. } = paper else {
                continue;
            };
            let signed = self.random.once_in(2);
            // The model reads what it wrote, so the rule for runs says what the Rust may make of it.
            let paper = model::read_run(&bytes, 0, signed, 512);
            let rust = oracle::read_run(&bytes, signed);
            let same = matches!(&rust, Run::Rows { rows: read, consumed } if *read == rows && *consumed == bytes.len());
            let sort = listed::of_run(&bytes, &paper, &rust).filter(|sort| same || *sort != Sort::Same);
            self.tally.record(sort, &bytes, Call::ReadBack { signed }, || {
                [format!("{rows:?}"), format!("{rust:?}")]
            });
        }
    }

    /// The linked library writes what the model writes: so the Rust reads back what ours writes.
    #[cfg(feature = "ours")]
    fn ours_writes(&mut self, rows: &[i64], base: i64, width: usize, paper: &Written) {
        if self.ours.is_none() {
            return;
        }
        match crate::ours::Ours::check_patched(rows, base, width as u8, paper) {
            Ok(answers) => self.tally.ours(answers),
            Err(answer) => {
                let call = format!("patched, base {base}, {width} bits, rows {rows:?}");
                self.tally.unlisted(&format!("{call}\n  the rules: {paper:?}\n  ours: {answer}"));
            }
        }
    }
}

/// Any patched run for the probe.
pub fn probe_line(requests: &mut Requests, random: &mut Random) {
    let (rows, base, width) = any_patched_rows(random);
    let places = random.pick(&[0, 4, 9, 40, 4108, 8192]);
    requests.write_patched(&rows, base, width as u8, places, random.once_in(2));
}

/// That many rows 5, with 11 at some places: over the base 5 at one bit these have a patch, of two bits.
fn rare(count: usize, places: &[usize]) -> Vec<i64> {
    let mut rows = vec![5; count];
    places.iter().for_each(|place| rows[*place] = 11);
    rows
}

/// Each limit of the patched writer.
pub fn fixed_lines(requests: &mut Requests) {
    let mut write = |rows: &[i64], base: i64, width: u8| {
        for signed in [false, true] {
            requests.write_patched(rows, base, width, 8192, signed);
        }
    };
    // At 64 bits nothing is above; and every width, those of the table and the others.
    write(&[-1, i64::MIN], 5, 64);
    write(&[i64::MAX; 512], 1, 64);
    for width in 0..=66 {
        write(&[5, 6, 5], 5, width);
    }
    write(&[5], 5, 255);
    // Patches of 55 to 64 bits: 56 is the widest that leaves a bit for a gap.
    for bits in 55..=63 {
        write(&[1 << bits, 0], 0, 1);
        write(&[-1], 0, 64 - bits as u8);
        write(&[0, 0, (u64::MAX >> (64 - bits)) as i64], 0, 1);
    }
    // Bases about the ends of a byte, and -2^63, which has no sign and magnitude.
    for base in [0, 1, -1, 127, 128, -127, -128, 32_767, 32_768, i64::MAX, -i64::MAX, i64::MIN] {
        write(&[base, base.wrapping_add(1), 0], base, 8);
        write(&[base.wrapping_add(200)], base, 4);
    }
    // 31 and 32 entries, without a skip and with one.
    let first = |count: usize| (0..count).collect::<Vec<usize>>();
    for count in [30, 31, 32] {
        write(&rare(512, &first(count)), 5, 1);
        write(&rare(512, &[first(count - 1), vec![count - 2 + 256]].concat()), 5, 1);
    }
    // The first patch at rows about one skip and about two; two patches 255, 256 and 510 apart.
    for place in [0, 1, 254, 255, 256, 509, 510, 511] {
        write(&rare(512, &[place]), 5, 1);
    }
    for places in [[0, 255], [0, 256], [7, 263], [1, 511], [255, 511], [0, 510]] {
        write(&rare(512, &places), 5, 1);
    }
    // The order 9, 10, 8, and every place about the run's end.
    write(&[], i64::MIN, 0);
    write(&[5; 513], 5, 4);
    for places in 0..=9 {
        requests.write_patched(&[101, 102, 183, 104], 100, 4, places, false);
        requests.write_patched(&[101, 102, 183, 104], 100, 5, places, false);
        requests.write_patched(&[101, 102, 183, 104], i64::MIN, 4, places, false);
        requests.write_patched(&[], 100, 0, places, false);
    }
}
