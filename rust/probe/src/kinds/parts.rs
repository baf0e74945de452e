//! 07 parts: flag, places, how many parts, each part's length, the parts' bytes.
use menakovitsy::exported::{case, part_word, MAX_RUN_BYTES, PART_WORDS, STATE_WORDS};

use super::{ended, FLAGS};
use crate::answer::{say_rows, Answer};
use crate::calls::{self, Kept};
use crate::lent::Lent;
use crate::line::Fields;

/// How many words are lent for the state beyond its own: they must keep their mark.
const MORE: usize = 4;

/// The calls on one reader, and what was seen of them.
struct Reading {
    flag: u64,
    places: usize,
    state: Lent<u64>,
    held: Lent<u8>,
    line: String,
    taken: u64,
    fits: bool,
    touched: bool,
}

impl Reading {
    fn start(flag: u64, places: usize) -> Self {
        let mut state = Lent::places(STATE_WORDS + MORE);
        let fits = calls::part_start(state.content_mut()) == 0;
        let (held, line) = (Lent::places(MAX_RUN_BYTES), "parts".into());
        Reading { flag, places, state, held, line, taken: 0, fits, touched: false }
    }

    /// One call: with a part, or the closing one.
    fn call(&mut self, part: Option<&[u8]>) -> Answer {
        let lent = Lent::holding(part.unwrap_or_default());
        let mut rows = Lent::places(self.places);
        let (before, bytes) = (self.state.content().to_vec(), self.held.content().to_vec());
        let answer = Answer::of_part(|words| {
            let kept = Kept { state: self.state.content_mut(), held: self.held.content_mut() };
            match part {
                Some(_) => calls::part_take(kept, lent.content(), self.flag, rows.content_mut(), words),
                None => calls::part_close(kept, self.flag, rows.content_mut(), words),
            }
        });
        let run = answer.case() == case::READ;
        let given = if run { answer.rows() } else { 0 };
        if run {
            self.line += &format!(" run {} {}", answer.word(part_word::START), answer.say_run());
            say_rows(&mut self.line, rows.content(), given);
        }
        let taken = answer.word(part_word::TAKEN);
        self.taken = self.taken.wrapping_add(taken);
        self.fits &= answer.part_fits() && given <= self.places as u64;
        self.fits &= taken <= lent.content().len() as u64;
        // What is lent beside the answer: a run that lies whole in its part is not copied, and a call that
        // takes nothing leaves the bytes held.
        let kept = before[1] as usize;
        let stays = if run && kept == 0 { 0 } else { kept.min(bytes.len()) };
        self.touched |= lent.altered(part.unwrap_or_default()) || rows.touched(given as usize);
        self.touched |= answer.touched() || self.state.touched(STATE_WORDS);
        self.touched |= self.held.content()[..stays] != bytes[..stays] || self.held.guards_touched();
        self.touched |= run && kept == 0 && self.held.content() != bytes;
        answer
    }

    /// The calls with a part, until it is taken or refused.
    fn take(&mut self, part: &[u8]) {
        let mut rest = part;
        loop {
            let answer = self.call(Some(rest));
            let taken = answer.word(part_word::TAKEN) as usize;
            rest = rest.get(taken..).unwrap_or_default();
            // A run that takes nothing of a part would be handed out forever.
            if answer.case() != case::READ || taken == 0 || rest.is_empty() {
                return;
            }
        }
    }
}

/// `parts`, then for each run ` run START KIND/WIDTH/ROWS/BYTES r r ..`, then ` whole` or ` REFUSED` as the
/// closing call answered, then ` taken N`; ` unsteady` where later calls answer otherwise or take bytes.
pub fn parts(mut fields: Fields) -> Option<String> {
    let flag = fields.below(FLAGS)?;
    let places = fields.places()?;
    let count = fields.count()?;
    let lengths = (0..count).map(|_| fields.count()).collect::<Option<Vec<_>>>()?;
    let parts = lengths.into_iter().map(|length| fields.bytes(length)).collect::<Option<Vec<_>>>()?;
    fields.end()?;
    let mut reading = Reading::start(flag, places);
    for part in parts {
        reading.take(part);
    }
    let last = reading.call(None);
    let whole = last.case() == case::END;
    let said = if whole { "whole".into() } else { last.say_other() };
    let mut line = std::mem::take(&mut reading.line) + " " + &said + &format!(" taken {}", reading.taken);
    let later = [reading.call(Some(&[0])), reading.call(None)];
    if later.iter().any(|answer| !same(answer, &last)) {
        line += " unsteady";
    }
    ended(line, reading.fits, reading.touched)
}

/// Whether a later call repeats the answer, and takes nothing.
fn same(answer: &Answer, last: &Answer) -> bool {
    let words = part_word::CASE..PART_WORDS;
    answer.word(part_word::TAKEN) == 0 && words.clone().all(|place| answer.word(place) == last.word(place))
}
