//! Test vectors: lines for the program `runs` on the four questions that its first users had no cases for.
//!
//! The lines are made here, field by field; what must be answered is what the model answers
//! ([`crate::answer_line`]). Every call gives the same lines. docs/VECTORS.md says what they are for.
//!
//! ```
//! let [widths, ..] = &model::vectors::FAMILIES;
//! let line = widths.frames().next().expect("a line").line();
//! assert_eq!((&line[..], &model::answer_line(line.as_bytes())[..]), ("0046021230", "run 3 4 1 2 3"));
//! ```
use std::fmt::Write;

use crate::{read_run, Answer};

mod cuts;
mod layout;
mod numbers;
mod patches;
mod sums;
mod widths;

/// The frame of a line: a flag, and bytes that begin with a run or with a part of one.
#[derive(Debug, Clone, PartialEq, Eq)]
pub struct Frame {
    pub signed: bool,
    pub bytes: Vec<u8>,
}

impl Frame {
    /// The line, without the newline.
    pub fn line(&self) -> String {
        let mut line = String::with_capacity(2 + 2 * self.bytes.len());
        for byte in [u8::from(self.signed)].iter().chain(&self.bytes) {
            write!(line, "{byte:02X}").expect("a string takes it");
        }
        line
    }

    /// What the model answers.
    pub fn answer(&self) -> Answer {
        read_run(&self.bytes, 0, self.signed, 512)
    }

    /// The same bytes under both flags.
    fn both(bytes: &[u8]) -> [Frame; 2] {
        [false, true].map(|signed| Frame { signed, bytes: bytes.to_vec() })
    }
}

/// Frames, one after another.
pub type Frames = Box<dyn Iterator<Item = Frame>>;

/// Lines of a family that ask the same.
pub struct Part {
    /// What they are, in a line.
    pub what: &'static str,
    /// Makes them.
    pub frames: fn() -> Frames,
}

/// The lines of a question.
pub struct Family {
    /// The name that its files have, before the dot.
    pub name: &'static str,
    pub question: &'static str,
    pub parts: &'static [Part],
}

impl Family {
    /// All frames, part after part.
    pub fn frames(&self) -> impl Iterator<Item = Frame> {
        self.parts.iter().flat_map(|part| (part.frames)())
    }
}

/// The four questions.
pub const FAMILIES: [Family; 4] = [
    Family { name: "widths", question: "each bit width at each run length", parts: widths::PARTS },
    Family { name: "patches", question: "damaged patch lists", parts: patches::PARTS },
    Family { name: "sums", question: "sums past 64 bits", parts: sums::PARTS },
    Family { name: "cuts", question: "every cut of sample streams", parts: cuts::PARTS },
];

/// Sample runs of the pages and of the specification, in hexadecimal, each after its flag.
fn samples(lines: &'static [&'static str]) -> Frames {
    Box::new(lines.iter().map(|line| {
        let (signed, bytes) = crate::frame_of(line.as_bytes()).expect("a good line");
        Frame { signed, bytes }
    }))
}
