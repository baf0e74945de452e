//! The library's words, and the answers that they are.
use super::{Kind, Refused, Run, Stream, StreamRefused};
use crate::exported::{case, label_word, part_word, run_word, stream_word, word, TOO_FEW_WORDS};
use crate::{ByteOffset, Refusal, RowNumber, MAX_ROWS, MAX_RUN_BYTES};

/// The words that a call lends: more than an answer has now, so that a later library, which appends
/// some, finds room for them.
#[derive(Debug, Clone)]
pub(crate) struct Words {
    pub lent: [u64; 16],
    /// What the call returned.
    pub number: u64,
    /// The most rows and bytes that an answer may count: what was lent. So whatever library is
    /// linked, its counts are within the caller's slices.
    most: (usize, usize),
    /// Whether the call reads an input: its want of places is then of the run that lacks them.
    reads: bool,
}

impl Words {
    /// For an answer that counts no more than these. (One with words of its own has its counts looked at where
    /// it is made.)
    pub fn lent(most_rows: usize, most_bytes: usize) -> Self {
        Words { lent: [0; 16], number: 0, most: (most_rows, most_bytes), reads: false }
    }

    /// The same for a call that reads an input.
    pub fn reading(self) -> Self {
        Words { reads: true, ..self }
    }

    /// The answer of a run reader.
    pub fn run_or_end(&self) -> Result<Option<Run>, Refused> {
        match self.case() {
            Some(case::END) => Ok(None),
            Some(case::READ) => Ok(Some(self.run())),
            _ => Err(self.refused()),
        }
    }

    /// The case of the reader in parts, if it refuses nothing and counts no more than a run can have.
    #[inline]
    pub fn part_case(&self) -> Option<u64> {
        let counts = self.rows().0 <= MAX_ROWS && self.bytes().0 <= MAX_RUN_BYTES;
        (self.number == 0 && counts).then_some(self.lent[word::CASE])
    }

    /// A word of the reader in parts.
    #[inline]
    pub fn part_word(&self, place: usize) -> usize {
        usize::try_from(self.lent[place]).unwrap_or(usize::MAX)
    }

    /// Its refusal: the words after an answer's are a part's own, and the others are as in every answer.
    #[cold]
    pub fn part_refused(&mut self) -> Refused {
        self.lent[part_word::START] = 0;
        self.lent[part_word::TAKEN] = 0;
        self.refused()
    }

    /// The answer of a call that has no end.
    pub fn one_run(&self) -> Result<Run, Refused> {
        match self.case() {
            Some(case::READ) => Ok(self.run()),
            _ => Err(self.refused()),
        }
    }

    /// The answer of the stream reader.
    pub fn stream(&self) -> Result<Stream, StreamRefused> {
        let read = Stream { rows: self.rows(), bytes: self.bytes(), last: self.last() };
        match self.case() {
            Some(case::READ) => Ok(read),
            Some(_) => Err(StreamRefused { refused: self.refused(), before: read }),
            None => Err(StreamRefused { refused: self.refused(), before: Stream::default() }),
        }
    }

    /// The case, and the words of a label; or its refusal.
    pub fn label(&self) -> Result<(u64, usize, usize), Refused> {
        match self.lent[word::CASE] {
            case @ (case::READ | case::FALLBACK) if self.number == 0 => {
                Ok((case, self.lent[label_word::START] as usize, self.lent[label_word::SIZE] as usize))
            }
            case::REFUSED if self.number != TOO_FEW_WORDS => Err(self.refused_at(None)),
            _ => Err(self.unknown()),
        }
    }

    /// That an answer with words of its own refuses nothing; or its refusal. `cut` is the word that says
    /// whether a field is cut, with its byte after it, if the answer has such.
    pub fn accepted(&self, cut: Option<usize>) -> Result<(), Refused> {
        let at = |place: usize| self.lent.get(place).copied().unwrap_or_default();
        match at(word::CASE) {
            case::READ if self.number == 0 => Ok(()),
            case::REFUSED if self.number != TOO_FEW_WORDS => {
                let cut = cut.filter(|cut| at(*cut) == 1).map(|cut| ByteOffset(at(cut + 1) as usize));
                Err(self.refused_at(cut))
            }
            _ => Err(self.unknown()),
        }
    }

    /// The same of an answer that may be the end, too: whether it is not.
    pub fn accepted_or_end(&self, cut: usize) -> Result<bool, Refused> {
        if self.lent[word::CASE] == case::END && self.number == 0 {
            return Ok(false);
        }
        self.accepted(Some(cut)).map(|()| true)
    }

    /// What an answer is that contradicts itself, or what was lent.
    pub fn unknown(&self) -> Refused {
        Refused::nowhere(Refusal::Unknown(self.number))
    }

    /// The case. None if the library wants more words than it was given, and so wrote none, or counts
    /// more than there is.
    fn case(&self) -> Option<u64> {
        let (rows, bytes) = self.most;
        let last = self.last().is_none_or(|last| last.rows <= self.rows() && last.bytes <= self.bytes());
        let counts = self.rows().0 <= rows && self.bytes().0 <= bytes && last;
        (self.number != TOO_FEW_WORDS && counts).then_some(self.lent[word::CASE])
    }

    #[inline]
    pub fn run(&self) -> Run {
        Run {
            kind: Kind::of_number(self.lent[run_word::KIND]),
            width: self.lent[run_word::WIDTH],
            rows: self.rows(),
            bytes: self.bytes(),
        }
    }

    /// The last run of a stream. Other answers have no such word, and the place that was lent for it
    /// is 0.
    fn last(&self) -> Option<Run> {
        (self.lent[stream_word::LAST] == 1).then(|| Run {
            kind: Kind::of_number(self.lent[stream_word::LAST_KIND]),
            width: self.lent[stream_word::LAST_WIDTH],
            rows: RowNumber(self.lent[stream_word::LAST_ROWS] as usize),
            bytes: ByteOffset(self.lent[stream_word::LAST_BYTES] as usize),
        })
    }

    /// The rows of a run; a stream and a part have the word at the same place, and those below it too.
    #[inline]
    fn rows(&self) -> RowNumber {
        RowNumber(self.lent[run_word::ROWS] as usize)
    }

    #[inline]
    fn bytes(&self) -> ByteOffset {
        ByteOffset(self.lent[run_word::BYTES] as usize)
    }

    /// The refusal; a case that is none, too, by whatever number came with it.
    fn refused(&self) -> Refused {
        if self.case() != Some(case::REFUSED) {
            return self.unknown();
        }
        let cut_at = ByteOffset(self.lent[run_word::CUT_AT] as usize);
        self.refused_at((self.lent[run_word::CUT] == 1).then_some(cut_at))
    }

    /// The refusal that the words name, with a cut field. Its place is 0 if it means nothing (FORMAT.md,
    /// "Places and cut bytes"): then there is none.
    fn refused_at(&self, cut: Option<ByteOffset>) -> Refused {
        let refusal = Refusal::of_number(self.lent[word::NUMBER]);
        let placed = refusal.has_place() && (self.reads || refusal != Refusal::TooFewPlaces);
        let at = placed.then_some(ByteOffset(self.lent[word::PLACE] as usize));
        Refused { refusal, at, cut }
    }
}

#[cfg(test)]
mod tests {
    use super::*;

    fn words(number: u64, first: &[u64]) -> Words {
        let mut words = Words { number, ..Words::lent(2, 3).reading() };
        words.lent[..first.len()].copy_from_slice(first);
        words
    }

    /// What a later library may answer is an answer here, too.
    #[test]
    fn a_later_library() {
        let unknown = |number| Refused::nowhere(Refusal::Unknown(number));
        let later = words(40, &[2, 40, 9]);
        let at = Some(ByteOffset(9));
        assert_eq!(later.one_run().unwrap_err(), Refused { at, ..unknown(40) });
        let case = words(0, &[3]);
        assert_eq!(case.run_or_end().unwrap_err(), unknown(0));
        let wants_more = words(TOO_FEW_WORDS, &[]);
        assert_eq!(wants_more.run_or_end().unwrap_err(), unknown(TOO_FEW_WORDS));
        assert_eq!(wants_more.stream().unwrap_err().refused.refusal, Refusal::Unknown(TOO_FEW_WORDS));
        let run = Run { kind: Kind::Unknown(6), width: 7, rows: RowNumber(2), bytes: ByteOffset(3) };
        assert_eq!(words(0, &[1, 0, 0, 6, 2, 3, 0, 0, 7]).one_run(), Ok(run));
        let stream = words(0, &[1, 0, 0, 0, 2, 3, 0, 0, 0, 1, 6, 7, 2, 3]).stream().unwrap();
        assert_eq!((stream.rows, stream.bytes, stream.last), (RowNumber(2), ByteOffset(3), Some(run)));
    }

    /// A cut field is named by its byte, also one that only a later library has.
    #[test]
    fn cut_fields() {
        let list = words(14, &[2, 14, 0, 0, 0, 0, 1, 7]).one_run().unwrap_err();
        assert_eq!((list.refusal, list.cut), (Refusal::ListCut, Some(ByteOffset(7))));
        assert_eq!(list.meaning(), "the patch list that begins at byte 7 is cut");
        assert!(list
            .to_string()
            .starts_with("at byte 0: refusal 14: the patch list that begins at byte 7 is"));
        let later = words(40, &[2, 40, 0, 0, 0, 0, 1, 7]).one_run().unwrap_err();
        assert_eq!(later.meaning(), "the field that begins at byte 7 is cut");
        let none = words(5, &[2, 5, 3, 0, 0, 0, 0, 0]).one_run().unwrap_err();
        assert_eq!((none.cut, none.meaning().as_str()), (None, Refusal::VarintTooLong.meaning()));
    }

    /// A place is of an input: by the number, and of 8 if an input is read.
    #[test]
    fn places() {
        for number in (1..=21).filter(|number| *number != 20) {
            let refused = words(number, &[2, number, 5]);
            let reader = refused.one_run().unwrap_err();
            let writer = Words { reads: false, ..refused }.one_run().unwrap_err();
            let (of_run, of_places) = (matches!(number, 1..=7 | 12..=14), number == 8);
            assert_eq!(reader.at, (of_run || of_places).then_some(ByteOffset(5)), "{number}");
            assert_eq!(writer.at, of_run.then_some(ByteOffset(5)), "{number}");
            assert_eq!(reader.to_string().starts_with("at byte 5: refusal "), reader.at.is_some());
            assert_eq!(writer.to_string().starts_with("refusal "), writer.at.is_none());
        }
    }

    /// An answer with words of its own: accepted, refused with a cut field and without, and what is none.
    #[test]
    fn words_of_its_own() {
        assert_eq!(words(0, &[1, 0, 0, 7]).accepted(None), Ok(()));
        let refused = words(13, &[2, 13, 4, 0, 0, 1, 6]);
        let [at, cut] = [4, 6].map(|byte| Some(ByteOffset(byte)));
        let cut = Refused { refusal: Refusal::RowsCut, at, cut };
        assert_eq!(refused.accepted(Some(5)), Err(cut));
        assert_eq!(refused.accepted(None), Err(Refused { cut: None, ..cut }));
        for (number, first) in
            [(0, &[0][..]), (0, &[3]), (4, &[1]), (TOO_FEW_WORDS, &[]), (TOO_FEW_WORDS, &[2])]
        {
            let refusal = words(number, first).accepted(None).unwrap_err().refusal;
            assert_eq!(refusal, Refusal::Unknown(number));
        }
        assert_eq!(words(0, &[0]).accepted_or_end(5), Ok(false));
        assert_eq!(words(0, &[1, 0, 0, 7]).accepted_or_end(5), Ok(true));
        assert_eq!(refused.accepted_or_end(5), Err(cut));
        for number in [7, TOO_FEW_WORDS] {
            let refusal = words(number, &[0]).accepted_or_end(5).unwrap_err().refusal;
            assert_eq!(refusal, Refusal::Unknown(number));
        }
    }

    /// The reader in parts: what refuses, or counts more than a run can have, is no case; its own words are
    /// not taken for a last run's.
    #[test]
    fn a_part() {
        for case in [case::END, case::READ, case::MORE] {
            assert_eq!(words(0, &[case, 0, 0, 0, 512, 4356]).part_case(), Some(case));
        }
        for (number, rows, bytes) in [(0, 513, 3), (0, 3, 4357), (4, 3, 3), (TOO_FEW_WORDS, 0, 0)] {
            assert_eq!(words(number, &[case::READ, 0, 0, 0, rows, bytes]).part_case(), None);
        }
        let refused = words(13, &[2, 13, 9, 0, 0, 0, 1, 11, 0, 1, 5]).part_refused();
        assert_eq!((refused.refusal, refused.at), (Refusal::RowsCut, Some(ByteOffset(9))));
        assert_eq!(refused.cut, Some(ByteOffset(11)));
    }

    /// Counts that pass what was lent are never handed on.
    #[test]
    fn counts_are_within_what_was_lent() {
        for counts in [[3, 3], [2, 4], [u64::MAX, 0]] {
            let words = words(0, &[1, 0, 0, 1, counts[0], counts[1]]);
            assert_eq!(words.one_run().unwrap_err().refusal, Refusal::Unknown(0));
            assert_eq!(words.run_or_end().unwrap_err().refusal, Refusal::Unknown(0));
            let stream = words.stream().unwrap_err();
            assert_eq!((stream.refused.refusal, stream.before), (Refusal::Unknown(0), Stream::default()));
        }
        // A last run that has more than all runs together.
        for counts in [[2, 3], [1, 4]] {
            let words = words(0, &[1, 0, 0, 0, 1, 3, 0, 0, 0, 1, 1, 7, counts[0], counts[1]]);
            assert_eq!(words.stream().unwrap_err().before, Stream::default());
        }
    }
}
