//! Calls of the planner, the check and the column writer.
use differential::stages::columns::{self, Asked};
use menakovitsy::exported::case;
use model::random::Random;
use model::Column;

use super::{Call, Outcome, MOST};

/// Any of the three; their columns may have unequal lengths.
pub fn any(flag: u64, random: &mut Random) -> Call {
    let mut asked = Asked { flag, ..columns::any(random) };
    asked.places = asked.places.min(MOST);
    match random.below(4) {
        0 => {
            let room = if random.once_in(4) { random.any() >> random.below(64) } else { asked.places as u64 };
            Call::CheckColumn(asked, room)
        }
        1 => {
            let most = if random.once_in(8) { 0 } else { asked.rows.len() };
            let mut lent = [random.pick(&[most, most, most + 9, most / 3, 1, 0]); 5];
            if random.once_in(4) {
                lent[random.below(5)] = random.below(most + 2);
            }
            let rows = if random.once_in(16) { vec![] } else { asked.rows };
            Call::Plan { rows, flag, lent }
        }
        _ => Call::Column(asked),
    }
}

/// The words and the bytes of the column writer.
pub fn written(asked: &Asked) -> Outcome {
    let (case, runs, bytes) = match asked.answer() {
        Column::Planned(bytes) => (case::READ, asked.columns[0].len(), bytes),
        Column::Direct(bytes) => (case::DIRECT, asked.rows.len().div_ceil(512), bytes),
        Column::Refused(refusal) => {
            return Outcome::done(&[case::REFUSED, refusal.number.into(), refusal.place as u64, 0, 0, 0]);
        }
    };
    let words = [case, 0, 0, runs as u64, asked.rows.len() as u64, bytes.len() as u64];
    Outcome { bytes, ..Outcome::done(&words) }
}

/// The words of the check, which refuses nothing.
pub fn checked(asked: &Asked, room: u64) -> Outcome {
    let room = usize::try_from(room).unwrap_or(usize::MAX);
    let words = match asked.accepted(room) {
        Some(bytes) => {
            [case::READ, asked.columns[0].len() as u64, asked.rows.len() as u64, bytes.len() as u64]
        }
        None => [case::NOT_ACCEPTED, 0, 0, 0],
    };
    Outcome { words: words.to_vec(), ..Outcome::default() }
}
