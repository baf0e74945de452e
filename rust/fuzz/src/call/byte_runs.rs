//! Calls that write flags or bytes as byte runs, or ask for their size, and what the model answers them.
use differential::stages::lined_up::{self, ToWrite};
use menakovitsy::exported::{case, kind, BYTES_WRITTEN_WORDS, RUN_WORDS};
use model::random::Random;
use model::Refusal;

use super::{Lending, Outcome, MOST};

/// One of the calls.
#[derive(Debug, Clone, PartialEq, Eq)]
pub struct Asked {
    pub what: What,
    given: Vec<u8>,
    places: usize,
}

/// What is asked for.
#[derive(Debug, Clone, Copy, PartialEq, Eq)]
pub enum What {
    WriteBooleans,
    WriteBytes,
    SizeOfBooleans,
    SizeOfBytes,
}

/// Any of them, one of four for the size.
pub fn any(random: &mut Random) -> Asked {
    let ToWrite { flags, given, places } = lined_up::any_to_write(random);
    let (what, places) = match (flags, random.once_in(4)) {
        (true, false) => (What::WriteBooleans, places.min(MOST)),
        (false, false) => (What::WriteBytes, places.min(MOST)),
        (true, true) => (What::SizeOfBooleans, 0),
        (false, true) => (What::SizeOfBytes, 0),
    };
    Asked { what, given, places }
}

impl Asked {
    /// The function's name, and how many words its answer has.
    pub fn function(&self) -> (&'static str, usize) {
        match self.what {
            What::WriteBooleans => ("orc_write_booleans", RUN_WORDS),
            What::WriteBytes => ("orc_write_bytes", BYTES_WRITTEN_WORDS),
            What::SizeOfBooleans => ("orc_size_of_booleans", 0),
            What::SizeOfBytes => ("orc_size_of_bytes", 0),
        }
    }

    pub fn lending(&self) -> Lending<'_> {
        Lending { input: &self.given, bytes: self.places, ..Lending::default() }
    }

    /// What it comes to: the runs that the page says are chosen, which must stand for the bytes and be of the
    /// fewest bytes that any runs have; refused exactly if there are fewer places.
    pub fn outcome(&self) -> Outcome {
        let bytes = match self.what {
            What::WriteBooleans | What::SizeOfBooleans => model::packed_flags(&self.given),
            What::WriteBytes | What::SizeOfBytes => self.given.clone(),
        };
        let runs = model::chosen_byte_runs(&bytes);
        let [given, size] = [self.given.len(), model::least_size(&bytes)].map(|count| count as u64);
        assert!(
            runs.len() as u64 == size && model::runs_stand_for(&runs).as_ref() == Some(&bytes),
            "{bytes:?}"
        );
        let refused = size > self.places as u64;
        match self.what {
            What::SizeOfBooleans | What::SizeOfBytes => Outcome { returned: size, ..Outcome::default() },
            What::WriteBooleans if refused => Outcome::refused(Refusal::whole(8, 0)),
            What::WriteBytes if refused => Outcome::done(&[case::REFUSED, 8, 0, 0, 0]),
            What::WriteBooleans => {
                let words = [case::READ, 0, 0, kind::BOOLEANS, given, size, 0, 0, 1];
                Outcome { bytes: runs, ..Outcome::of(words) }
            }
            What::WriteBytes => Outcome { bytes: runs, ..Outcome::done(&[case::READ, 0, 0, given, size]) },
        }
    }
}
