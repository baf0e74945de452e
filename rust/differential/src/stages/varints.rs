//! FORMAT.md, "Varints": varints of ten bytes and more, as the first row and as the base delta.
use super::Session;
use crate::probe::Requests;
use model::random::Random;

const TENTH: [u8; 9] = [0x00, 0x01, 0x02, 0x03, 0x40, 0x7F, 0x80, 0x81, 0xFF];

/// Delta runs with such a varint: a fixed delta, magnitudes of 4 and of 64 bits; nothing after the
/// tenth byte, or enough bytes for what is missing there.
fn runs(random: &mut Random) -> Vec<Vec<u8>> {
    let nine = |random: &mut Random| match random.below(4) {
        0 => [0x80; 9],
        1 => [0xFF; 9],
        _ => [(); 9].map(|()| random.byte() | 128),
    };
    let mut runs = Vec::new();
    for first in [0xC0, 0xC6, 0xFE] {
        for rows in [1, 2, 5] {
            for tenth in TENTH {
                for before in [&[][..], &[0x07], &[0x80, 0x01]] {
                    let varint = [&nine(random)[..], &[tenth]].concat();
                    let run = [&[first, rows - 1], before, &varint].concat();
                    let behind: Vec<u8> = (0..40).map(|_| random.byte() & 127).collect();
                    runs.push([&run[..], &behind].concat());
                    runs.push([&run[..], &nine(random), &[tenth], &behind].concat());
                    runs.push(run);
                }
            }
        }
    }
    runs
}

impl Session {
    pub(super) fn tenth_bytes(&mut self) {
        self.tally.stage("varints of ten bytes and more");
        for _ in 0..self.size.pick(1, 8, 64) {
            for run in runs(&mut self.random) {
                self.run_both(&run);
            }
        }
    }
}

/// The same as lines for the probe.
pub fn probe_lines(requests: &mut Requests, random: &mut Random) {
    for run in runs(random) {
        let signed = random.once_in(2);
        requests.run(&run, 0, signed, 512);
    }
}
