//! Calls that rescue rows by positions, and what the model answers them.
use differential::stages::rescue::{self, Asked};
use menakovitsy::exported::case;
use model::random::Random;
use model::Rescued;

use super::{Call, Lending, Outcome};

pub fn any(flag: u64, random: &mut Random) -> Call {
    Call::Rescue(Asked { flag, ..rescue::any(random) })
}

/// The verdicts are lent as bytes.
pub fn lending(asked: &Asked) -> Lending<'_> {
    let [runs, skips, counts] = asked.columns.each_ref().map(Vec::as_slice);
    let [rows, bytes] = asked.places;
    let columns = [runs, skips, counts, &[], &[]];
    Lending { input: &asked.input, columns, rows, bytes, ..Lending::default() }
}

/// The words of a rescue, the rows and the verdicts.
pub fn outcome(asked: &Asked) -> Outcome {
    match asked.answer() {
        Rescued::Refused(refusal) => {
            Outcome::done(&[case::REFUSED, refusal.number.into(), refusal.place as u64, 0, 0])
        }
        Rescued::Given { kept, rows } => {
            let groups = kept.iter().filter(|kept| **kept).count() as u64;
            let words = [case::READ, 0, 0, rows.len() as u64, groups];
            let bytes = kept.into_iter().map(u8::from).collect();
            Outcome { rows, bytes, ..Outcome::done(&words) }
        }
    }
}
