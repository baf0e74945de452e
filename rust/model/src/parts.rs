//! The reader that takes its input in parts (FORMAT.md, "Reader in parts").
//!
//! It is modelled by what it does with a whole list of parts, each given in as many calls as it takes
//! until it is taken or refused, and then the closing call: no state is carried from call to call.
use crate::{read_run, Answer, Refusal, Run};

/// What all the calls came to.
#[derive(Debug, Clone, PartialEq, Eq)]
pub struct Parts {
    /// The runs that were handed out, each with its first byte, counted from the first part.
    pub runs: Vec<(usize, Run)>,
    /// The last call's refusal; none for "whole stream read".
    pub refusal: Option<Refusal>,
    /// The bytes that all calls took.
    pub taken: usize,
}

/// "The rows, the run starts .. and the refusal after the closing call are those of the whole-stream
/// reader over the same bytes with room enough."
pub fn read_parts(parts: &[&[u8]], signed: bool, places: usize) -> Parts {
    // "8 for fewer than 512 places, before all else."
    if places < 512 {
        return Parts { runs: Vec::new(), refusal: Some(Refusal::whole(8, 0)), taken: 0 };
    }
    let joined = parts.concat();
    let mut runs = Vec::new();
    let mut at = 0;
    loop {
        match read_run(&joined, at, signed, 512) {
            Answer::End => return Parts { runs, refusal: None, taken: joined.len() },
            Answer::Refused(refusal) => {
                return Parts { runs, refusal: Some(refusal), taken: taken(parts, at, signed) };
            }
            Answer::Run(run) => {
                let start = at;
                at += run.consumed;
                runs.push((start, run));
            }
        }
    }
}

/// The bytes that are taken where the run at a byte is refused. "A refusing call takes nothing": that
/// is the closing call, after every byte was taken, "unless that reader, over the bytes so far, gives
/// one other than 1, 6, 12, 13 and 14". Then it is the call with the first part that shows it, after
/// the runs that end in that part.
fn taken(parts: &[&[u8]], at: usize, signed: bool) -> usize {
    let mut so_far: Vec<u8> = Vec::new();
    for part in parts {
        let before = so_far.len();
        so_far.extend(*part);
        if let Answer::Refused(refusal) = read_run(&so_far, at, signed, 512) {
            if ![1, 6, 12, 13, 14].contains(&refusal.number) {
                return before.max(at);
            }
        }
    }
    so_far.len()
}
