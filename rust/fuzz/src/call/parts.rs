//! Calls of the reader in parts: one call from any state, also from one that no start leads to, and what
//! FORMAT.md, "Reader in parts", says that it comes to.
use differential::frames;
use menakovitsy::exported::{case, MAX_ROWS, MAX_RUN_BYTES, PART_WORDS, STATE_WORDS, TOO_FEW_WORDS};
use model::random::Random;
use model::{Answer, Refusal};

use super::{named, Outcome, MOST};

/// One call: with a part, or, without one, the closing call.
#[derive(Debug, Clone, PartialEq, Eq)]
pub struct Asked {
    pub state: Vec<u64>,
    pub held: Vec<u8>,
    pub part: Option<Vec<u8>>,
    pub flag: u64,
    pub places: usize,
}

/// What the words of a state stand for.
struct State {
    held: usize,
    at: u64,
    standing: Standing,
}

enum Standing {
    Open,
    Refused(Refusal),
    Closed,
}

/// What a call answers: the words of a run or of none, and the run's rows.
type Said = ([u64; PART_WORDS], Vec<i64>);

/// Any call: most of them of an open reader, with a run that crosses into the part, and room enough.
pub fn any(flag: u64, random: &mut Random) -> Asked {
    let frame = frames::any_frame(random);
    let (first, rest) = frame.split_at(random.below(frame.len() + 1).min(MAX_RUN_BYTES));
    let lent = random.pick(&[MAX_RUN_BYTES, MAX_RUN_BYTES, MAX_RUN_BYTES, MAX_RUN_BYTES + 1, MOST]);
    let lent = if random.once_in(32) { random.pick(&[0, 1, MAX_RUN_BYTES - 1]) } else { lent };
    let mut held = first.to_vec();
    held.resize(lent, 77);
    let known = if random.once_in(16) { random.any() >> random.below(64) } else { first.len() as u64 };
    let standing = if random.once_in(8) { random.pick(&[1, 1, 2, 3, u64::MAX]) } else { 0 };
    let number = random.pick(&[1, 2, 3, 4, 5, 6, 7, 12, 13, 14]) + 256 * random.pick(&[0, 0, 1, 1 << 40]);
    let at = if random.once_in(4) { u64::MAX - random.below(20) as u64 } else { random.below(99) as u64 };
    let mut state = vec![standing, known, at, number, random.any(), random.below(3) as u64, random.any()];
    if random.once_in(32) {
        state.truncate(random.below(STATE_WORDS));
    }
    let part = [rest, &frames::any_stream(random)].concat();
    let part = (!random.once_in(3)).then_some(part);
    let places = if random.once_in(16) { random.below(MAX_ROWS) } else { MAX_ROWS + random.below(3) };
    Asked { state, held, part, flag, places }
}

impl Asked {
    pub fn function(&self) -> &'static str {
        if self.part.is_some() {
            "orc_part_take"
        } else {
            "orc_part_close"
        }
    }

    /// What the call comes to, lent that many words: the state's at exit, too.
    pub fn expected(&self, words: usize) -> (Outcome, Vec<u64>) {
        if words < PART_WORDS || self.state.len() < STATE_WORDS {
            let untouched =
                Outcome { returned: TOO_FEW_WORDS, bytes: self.held.clone(), ..Outcome::default() };
            return (untouched, self.state.clone());
        }
        let mut state = State::of(&self.state);
        let mut bytes = self.held.clone();
        let (said, rows) = self.answered(&mut state, &mut bytes);
        (
            Outcome { returned: said[1], words: said.to_vec(), rows, bytes, ..Outcome::default() },
            state.words(),
        )
    }

    fn answered(&self, state: &mut State, bytes: &mut [u8]) -> Said {
        if self.places < MAX_ROWS || self.held.len() < MAX_RUN_BYTES {
            return (refused(Refusal::whole(8, 0)), vec![]);
        }
        match state.standing {
            Standing::Refused(refusal) => return (refused(refusal), vec![]),
            Standing::Closed => return ([0; PART_WORDS], vec![]),
            Standing::Open => {}
        }
        let held = state.held.min(self.held.len());
        let part = self.part.as_deref().unwrap_or_default();
        let seen = [&self.held[..held], part].concat();
        let said = match model::read_run(&seen, 0, self.flag != 0, MAX_ROWS) {
            Answer::Run(run) => {
                let [kind, width, rows, consumed] = named(Some(run.info()));
                let taken = run.consumed.saturating_sub(held).min(part.len()) as u64;
                let start = state.at;
                (state.held, state.at) = (0, start.wrapping_add(consumed));
                ([case::READ, 0, 0, kind, rows, consumed, 0, 0, width, start, taken], run.rows)
            }
            Answer::Refused(refusal)
                if self.part.is_none() || ![1, 6, 12, 13, 14].contains(&refusal.number) =>
            {
                let cut = refusal.cut.map(|byte| state.at.wrapping_add(byte as u64) as usize);
                let refusal = Refusal { place: state.at as usize, cut, ..refusal };
                state.standing = Standing::Refused(refusal);
                (refused(refusal), vec![])
            }
            Answer::End if self.part.is_none() => {
                state.standing = Standing::Closed;
                ([0; PART_WORDS], vec![])
            }
            Answer::End | Answer::Refused(_) => {
                state.held = seen.len();
                ([case::MORE, 0, 0, 0, 0, 0, 0, 0, 0, 0, part.len() as u64], vec![])
            }
        };
        // A part that is taken whole stands after the bytes held; of one that ends a run which began before it,
        // as many bytes as a run can have. No other call changes the lent bytes, one that refuses least of all.
        let copied = match said.0[0] {
            case::MORE => part.len(),
            case::READ if held > 0 => part.len().min(MAX_RUN_BYTES.saturating_sub(held)),
            _ => 0,
        };
        bytes[held..][..copied].copy_from_slice(&part[..copied]);
        said
    }
}

/// The words of a refusing call.
fn refused(refusal: Refusal) -> [u64; PART_WORDS] {
    let [number, place, cut, byte] = refusal_words(refusal);
    [case::REFUSED, number, place, 0, 0, 0, cut, byte, 0, 0, 0]
}

fn refusal_words(refusal: Refusal) -> [u64; 4] {
    let cut = refusal.cut.map_or([0, 0], |byte| [1, byte as u64]);
    [refusal.number.into(), refusal.place as u64, cut[0], cut[1]]
}

impl State {
    fn of(words: &[u64]) -> Self {
        let cut = (words[5] != 0).then_some(words[6] as usize);
        let standing = match words[0] {
            0 => Standing::Open,
            1 => Standing::Refused(Refusal { number: (words[3] % 256) as u8, place: words[4] as usize, cut }),
            _ => Standing::Closed,
        };
        State { held: words[1] as usize, at: words[2], standing }
    }

    fn words(&self) -> Vec<u64> {
        let (standing, repeated) = match self.standing {
            Standing::Open => (0, [0; 4]),
            Standing::Refused(refusal) => (1, refusal_words(refusal)),
            Standing::Closed => (2, [0; 4]),
        };
        [&[standing, self.held as u64, self.at][..], &repeated].concat()
    }
}
