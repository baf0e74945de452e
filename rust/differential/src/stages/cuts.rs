//! FORMAT.md, "Places and cut bytes": what is read, cut at every byte, after bytes that are not its own.
use super::Session;
use crate::frames;
use crate::probe::Requests;
use model::random::Random;

/// Boolean runs, and how many booleans need them all.
fn boolean_runs(random: &mut Random) -> Vec<(Vec<u8>, usize)> {
    let repeat = |control: u8, random: &mut Random| vec![control, random.byte()];
    let literals = |count: usize, random: &mut Random| {
        let bytes = (0..count).map(|_| random.byte());
        [(256 - count) as u8].into_iter().chain(bytes).collect::<Vec<u8>>()
    };
    vec![
        (repeat(0, random), 24),
        (repeat(0, random), 1),
        (literals(1, random), 8),
        (literals(3, random), 17),
        ([repeat(1, random), literals(2, random)].concat(), 48),
        ([literals(2, random), repeat(1, random), literals(4, random)].concat(), 50),
    ]
}

impl Session {
    /// Streams, booleans and byte values cut at every byte. (Runs are cut and damaged in a stage of
    /// their own.)
    pub(super) fn cuts(&mut self) {
        self.tally.stage("streams, booleans and byte values cut at every byte");
        let samples = frames::samples(&mut self.random);
        for sample in samples.iter().step_by(self.size.pick(7, 1, 1)) {
            let before = frames::readable(1, 3, 5, &mut self.random);
            let stream = [before, sample.clone()].concat();
            for kept in 0..=stream.len() {
                let signed = self.random.once_in(2);
                self.stream(&stream[..kept], signed);
            }
            for n in [0, sample.len() - 1, sample.len(), sample.len() + 1] {
                self.value_of(sample, n);
            }
        }
        for (runs, n) in boolean_runs(&mut self.random) {
            for kept in 0..=runs.len() {
                self.booleans_of(&runs[..kept], n);
            }
        }
    }
}

/// The same as lines for the probe, at a position too: the cut byte counts from the input's first.
pub fn probe_lines(requests: &mut Requests, random: &mut Random) {
    let behind = |before: usize, bytes: &[u8]| [vec![0x46; before], bytes.to_vec()].concat();
    for sample in frames::samples(random) {
        for kept in 0..=sample.len() {
            let (before, signed) = (random.below(3), random.once_in(2));
            let input = behind(before, &sample[..kept]);
            requests.run(&input, before as u64, signed, 512);
            requests.stream(&input, before as u64, signed, 512);
        }
    }
    for (runs, n) in boolean_runs(random) {
        for kept in 0..=runs.len() {
            for before in 0..3 {
                requests.booleans(&behind(before, &runs[..kept]), before as u64, n as u64, 64);
            }
        }
    }
    for (at, n) in [(0, 4), (1, 3), (3, 1), (4, 1), (u64::MAX, u64::MAX)] {
        requests.value(&[1, 2, 3], at, n);
    }
}
