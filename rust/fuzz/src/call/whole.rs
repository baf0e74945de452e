//! Calls that make a new stream of a whole one, salvaged or converted, and what the model answers them.
use differential::stages::{convert, salvage};
use menakovitsy::exported::case;
use model::random::Random;
use model::{Converted, Refusal, Salvaged};

use super::{Call, Outcome, MOST};

/// Any salvage: its two columns may have unequal lengths here.
pub fn any_salvage(flag: u64, random: &mut Random) -> Call {
    let mut asked = salvage::Asked { flag, ..salvage::any(random) };
    if random.once_in(16) {
        asked.counts.push(1);
    }
    asked.places = asked.places.min(MOST);
    let report = match asked.answer(usize::MAX) {
        Salvaged::Written { report, .. } => report.len(),
        Salvaged::Refused(_) => 100,
    };
    let report = random.pick(&[report, report, report, report + 9, report.saturating_sub(1), 0]);
    Call::Salvage(asked, report)
}

/// The words of a salvage, lent that many bytes for the report.
pub fn salvaged(asked: &salvage::Asked, report: usize) -> Outcome {
    match asked.answer(report) {
        Salvaged::Written { report, bytes } => {
            let words = [case::READ, 0, 0, bytes.len() as u64, report.len() as u64];
            Outcome { bytes, report: report.into_bytes(), ..Outcome::done(&words) }
        }
        Salvaged::Refused(refusal) => Outcome::done(&[case::REFUSED, refusal.number.into(), 0, 0, 0]),
    }
}

/// The words of a conversion: a cut field's stand after its own.
pub fn converted(asked: &convert::Asked) -> Outcome {
    match model::convert(&asked.input, asked.flag != 0, asked.places.min(MOST)) {
        Converted::Written { altered, bytes } => {
            let words = [case::READ, 0, 0, altered as u64, bytes.len() as u64, 0, 0];
            Outcome { bytes, ..Outcome::done(&words) }
        }
        Converted::Refused(Refusal { number, place, cut }) => {
            let (has, at) = (u64::from(cut.is_some()), cut.unwrap_or(0) as u64);
            Outcome::done(&[case::REFUSED, number.into(), place as u64, 0, 0, has, at])
        }
    }
}
