//! FORMAT.md, "Converter": the converter of odd widths, in lines for the probe.
use model::{Converted, Stream, WIDTHS};

use crate::frames;
use crate::probe::{refused, Requests};
use crate::tally::Hex;
use model::random::Random;

/// What is converted, and the bytes that are lent for the new stream.
#[derive(Debug, Clone, PartialEq, Eq)]
pub struct Asked {
    pub input: Vec<u8>,
    pub flag: u64,
    pub places: usize,
}

/// Any stream, whole, damaged or cut, with places about those that it needs.
pub fn any(random: &mut Random) -> Asked {
    let (input, flag) = (frames::any_stream(random), random.below(2) as u64);
    let needs = match model::convert(&input, flag != 0, usize::MAX) {
        Converted::Written { bytes, .. } => bytes.len(),
        Converted::Refused(_) => random.below(100),
    };
    let places = random.pick(&[needs, needs, needs + 1, needs + 40, needs.saturating_sub(1), 0]);
    Asked { input, flag, places }
}

impl Requests {
    pub fn convert(&mut self, Asked { input, flag, places }: &Asked) {
        let expected = match model::convert(input, *flag != 0, *places) {
            Converted::Written { altered, bytes } => {
                format!("converted {altered} {} {}", bytes.len(), Hex(&bytes)).to_lowercase()
            }
            Converted::Refused(refusal) => refused(refusal),
        };
        self.ask(format!("0e{flag:02x}{places:04x}{}", Hex(input)), expected);
    }
}

/// Any conversion, as a line for the probe.
pub fn probe_line(requests: &mut Requests, random: &mut Random) {
    requests.convert(&any(random));
}

/// Runs of every kind at every width, by themselves and one after the other; every cut; places about those
/// that are needed.
pub fn fixed_lines(requests: &mut Requests, random: &mut Random) {
    let mut all = Vec::new();
    for code in 0..WIDTHS.len() {
        // One row, two (of a delta, no magnitude), some, and of a patched run and a short repeat, too.
        for (kind, rows) in [(1, 1), (1, 9), (3, 2), (3, 3), (3, 9), (2, 5), (0, 4)] {
            let run = frames::readable(kind, code, rows, random);
            let flag = (code + rows) as u64 % 2;
            let places = if code % 8 == 0 { 2 } else { 65_535 };
            requests.convert(&Asked { input: run.clone(), flag, places });
            if let Stream::Whole { .. } = model::read_stream(&run, 0, false, usize::MAX) {
                all.extend(run);
            }
        }
    }
    for flag in [0, 1] {
        requests.convert(&Asked { input: all.clone(), flag, places: 65_535 });
        requests.convert(&Asked { input: vec![], flag, places: 0 });
    }
    // Three rows of 3 bits, a damaged run, cut at every byte: the stream's own refusal comes before 8.
    let three = [0x44, 0x02, 0x29, 0x80, 0xC6, 0x03, 0x64, 0x05, 0x14, 0x0A, 0x01, 0x2C, 0xC2, 0x00];
    for end in 0..=three.len() {
        for places in [65_535, 13, 12, 11, 0] {
            requests.convert(&Asked { input: three[..end].to_vec(), flag: 0, places });
        }
    }
    for bad in ["0e", "0e00", "0e0000", "0e000", "0e020000"] {
        requests.bad(bad);
    }
}
