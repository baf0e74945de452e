//! The words of an answer, and what is said of them.
use std::fmt::Write as _;

use menakovitsy::exported::{
    case, kind, label_word, labels_word, part_word, run_word, stream_word, word, LABEL_WORDS, PART_WORDS,
    RUN_WORDS, STREAM_WORDS,
};

use crate::lent::Lent;

/// How many words are lent beyond those of an answer: they must keep their mark.
const MORE: usize = 4;

/// The refusal that names a row: no such name.
pub const NO_SUCH_NAME: u64 = 19;

/// What a call returned, and the words that it was lent; how many of them are its answer's.
pub struct Answer {
    returned: u64,
    words: Lent<u64>,
    own: usize,
    /// The word that says whether a field is cut, with its byte after it, where the answer has such.
    cut: Option<usize>,
}

impl Answer {
    /// Of a function of the run's family.
    pub fn of(call: impl FnOnce(&mut [u64]) -> u64) -> Self {
        Self::of_words(RUN_WORDS, Some(run_word::CUT), call)
    }

    pub fn of_stream(call: impl FnOnce(&mut [u64]) -> u64) -> Self {
        Self::of_words(STREAM_WORDS, Some(stream_word::CUT), call)
    }

    pub fn of_label(call: impl FnOnce(&mut [u64]) -> u64) -> Self {
        Self::of_words(LABEL_WORDS, None, call)
    }

    pub fn of_part(call: impl FnOnce(&mut [u64]) -> u64) -> Self {
        Self::of_words(PART_WORDS, Some(part_word::CUT), call)
    }

    /// Of a function with that many words.
    pub fn of_words(own: usize, cut: Option<usize>, call: impl FnOnce(&mut [u64]) -> u64) -> Self {
        let mut words = Lent::places(own + MORE);
        let returned = call(words.content_mut());
        Answer { returned, words, own, cut }
    }

    pub fn word(&self, place: usize) -> u64 {
        self.words.content()[place]
    }

    pub fn case(&self) -> u64 {
        self.word(word::CASE)
    }

    pub fn rows(&self) -> u64 {
        self.word(run_word::ROWS)
    }

    pub fn bytes(&self) -> u64 {
        self.word(run_word::BYTES)
    }

    pub fn refused(&self) -> bool {
        self.case() == case::REFUSED
    }

    /// `refused NUMBER PLACE`, with ` cut BYTE` after it where a field is cut; `end`; and what a case
    /// is that is none.
    pub fn say_other(&self) -> String {
        match self.case() {
            case::REFUSED => {
                let refused = format!("refused {} {}", self.word(word::NUMBER), self.word(word::PLACE));
                match self.cut.filter(|cut| self.word(*cut) != 0) {
                    None => refused,
                    Some(cut) => format!("{refused} cut {}", self.word(cut + 1)),
                }
            }
            case::END => "end".into(),
            other => format!("case {other}"),
        }
    }

    /// `KIND WIDTH ROWS BYTES`.
    pub fn say_info(&self) -> String {
        format!("{} {}", say_kind(self.word(run_word::KIND)), self.say_counts())
    }

    /// `WIDTH ROWS BYTES`.
    pub fn say_counts(&self) -> String {
        format!("{} {} {}", self.word(run_word::WIDTH), self.rows(), self.bytes())
    }

    /// `none`, or `KIND/WIDTH/ROWS/BYTES`, of a stream's last run.
    pub fn say_last(&self) -> String {
        if self.word(stream_word::LAST) == 0 {
            return "none".into();
        }
        let [width, rows, bytes] = [stream_word::LAST_WIDTH, stream_word::LAST_ROWS, stream_word::LAST_BYTES]
            .map(|place| self.word(place));
        format!("{}/{width}/{rows}/{bytes}", say_kind(self.word(stream_word::LAST_KIND)))
    }

    /// `KIND/WIDTH/ROWS/BYTES`, of a run.
    pub fn say_run(&self) -> String {
        self.say_info().replace(' ', "/")
    }

    /// Whether the kind is this one: lines of booleans and byte values do not say it.
    pub fn has_kind(&self, kind: u64) -> bool {
        self.word(run_word::KIND) == kind
    }

    /// Whether there is a cut field exactly for the refusals that have one.
    fn cut_fits(&self) -> bool {
        let has_field = self.refused() && [6, 12, 13, 14].contains(&self.word(word::NUMBER));
        match self.cut {
            None => !has_field,
            Some(cut) if has_field => self.word(cut) == 1,
            Some(cut) => self.zero(&[cut, cut + 1]),
        }
    }

    fn zero(&self, places: &[usize]) -> bool {
        places.iter().all(|place| self.word(*place) == 0)
    }

    /// Whether a stream names no run of its own, and a last run exactly where one was read.
    fn last_fits(&self) -> bool {
        use stream_word::{BYTES, LAST, LAST_BYTES, LAST_KIND, LAST_ROWS, LAST_WIDTH, ROWS};
        let last = match self.word(LAST) {
            0 => self.zero(&[ROWS, BYTES, LAST_KIND, LAST_WIDTH, LAST_ROWS, LAST_BYTES]),
            1 => {
                (1..=self.rows()).contains(&self.word(LAST_ROWS))
                    && (1..=self.bytes()).contains(&self.word(LAST_BYTES))
            }
            _ => false,
        };
        last && self.zero(&[run_word::KIND, run_word::WIDTH])
    }

    /// Whether the words fit together: what is returned is the refusal's number, and the words that
    /// have no meaning in their case are 0. A stream counts in both its cases.
    pub fn fits(&self) -> bool {
        const RUN: [usize; 4] = [run_word::KIND, run_word::WIDTH, run_word::ROWS, run_word::BYTES];
        let stream = self.own == STREAM_WORDS;
        let fits = match self.case() {
            case::END => self.zero(&[word::NUMBER, word::PLACE]) && self.zero(&RUN),
            case::READ => self.zero(&[word::NUMBER, word::PLACE]),
            case::REFUSED => !self.zero(&[word::NUMBER]) && (stream || self.zero(&RUN)),
            _ => false,
        };
        let returned = self.returned == self.word(word::NUMBER);
        fits && returned && self.cut_fits() && (!stream || self.last_fits())
    }

    /// The same of a call of the reader in parts: only a run starts somewhere, and a call that refuses, or
    /// ends, takes nothing.
    pub fn part_fits(&self) -> bool {
        const NONE: [usize; 9] = [1, 2, 3, 4, 5, 6, 7, 8, part_word::START];
        match self.case() {
            case::READ => self.fits(),
            case::MORE => self.returned == 0 && self.zero(&NONE),
            _ => self.fits() && self.zero(&[part_word::START, part_word::TAKEN]),
        }
    }

    /// Whether the words fit together of an answer that has words of its own after the place: where it
    /// is refused, these are 0, but for a cut field's.
    pub fn own_fits(&self) -> bool {
        let cut = self.cut.map_or(0..0, |cut| cut..cut + 2);
        let own: Vec<usize> = (word::PLACE + 1..self.own).filter(|place| !cut.contains(place)).collect();
        let fits = match self.case() {
            case::READ => self.zero(&[word::NUMBER, word::PLACE]),
            case::REFUSED => !self.zero(&[word::NUMBER]) && self.zero(&own),
            _ => false,
        };
        fits && self.returned == self.word(word::NUMBER) && self.cut_fits()
    }

    /// The same of an answer that may be the end, too: then all words are 0.
    pub fn own_or_end_fits(&self) -> bool {
        match self.case() {
            case::END => self.returns(0) && (0..self.own).all(|place| self.word(place) == 0),
            _ => self.own_fits(),
        }
    }

    /// The same of all labels: the place is 0, a row is named for refusal 19 alone, and there are as many
    /// rows as flags.
    pub fn labels_fits(&self, all: bool) -> bool {
        let fits = match self.case() {
            case::READ => all && self.zero(&[word::NUMBER, labels_word::REFUSED_ROW]),
            case::REFUSED => {
                !self.zero(&[word::NUMBER])
                    && self.zero(&[labels_word::ROWS])
                    && (self.refuses(NO_SUCH_NAME) || self.zero(&[labels_word::REFUSED_ROW]))
            }
            _ => false,
        };
        fits && self.zero(&[word::PLACE]) && self.returned == self.word(word::NUMBER)
    }

    /// Whether it is this refusal.
    pub fn refuses(&self, number: u64) -> bool {
        self.refused() && self.word(word::NUMBER) == number
    }

    /// The same of a written column, which may be direct, too.
    pub fn column_fits(&self) -> bool {
        match self.case() {
            case::DIRECT => self.returns(0) && self.zero(&[word::NUMBER, word::PLACE]),
            _ => self.own_fits(),
        }
    }

    /// Whether this is what the call returned.
    pub fn returns(&self, number: u64) -> bool {
        self.returned == number
    }

    /// The part of a block, or of the fallback, that a label names; nothing where it is not within.
    pub fn part_of<'a>(&self, block: &'a [u8]) -> Option<&'a [u8]> {
        let [start, size] =
            [label_word::START, label_word::SIZE].map(|place| usize::try_from(self.word(place)).ok());
        block.get(start?..)?.get(..size?)
    }

    /// Whether a label's words fit together: a refusal has place 0 and no part, and only a name begins
    /// somewhere.
    pub fn label_fits(&self) -> bool {
        use label_word::{SIZE, START};
        let fits = match self.case() {
            case::READ => self.zero(&[word::NUMBER, word::PLACE]),
            case::FALLBACK => self.zero(&[word::NUMBER, word::PLACE, START]),
            case::REFUSED => !self.zero(&[word::NUMBER]) && self.zero(&[word::PLACE, START, SIZE]),
            _ => false,
        };
        fits && self.returned == self.word(word::NUMBER)
    }

    /// Whether a word after the answer, or beside the lent ones, has changed.
    pub fn touched(&self) -> bool {
        self.words.touched(self.own)
    }
}

fn say_kind(number: u64) -> String {
    match number {
        kind::SHORT_REPEAT => "short".into(),
        kind::DIRECT => "direct".into(),
        kind::PATCHED_BASE => "patched".into(),
        kind::DELTA => "delta".into(),
        other => format!("kind-{other}"),
    }
}

/// The first rows, each after a space.
pub fn say_rows(line: &mut String, rows: &[i64], count: u64) {
    for row in first(rows, count) {
        write!(line, " {row}").expect("a string takes it");
    }
}

/// The first places; all, where fewer were lent than are counted.
pub fn first<T>(places: &[T], count: u64) -> &[T] {
    let count = usize::try_from(count).unwrap_or(usize::MAX);
    places.get(..count).unwrap_or(places)
}

/// Lowercase hexadecimal.
pub fn hex(bytes: &[u8]) -> String {
    bytes.iter().fold(String::with_capacity(2 * bytes.len()), |mut hex, byte| {
        write!(hex, "{byte:02x}").expect("a string takes it");
        hex
    })
}

#[cfg(test)]
mod tests;
