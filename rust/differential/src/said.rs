//! What the rules answer to the probe's lines 11 to 19: a line of hexadecimal in, the text out, by the
//! model.
//!
//! The line is read here once more, from the words of the page, so that a line that does not fit its form
//! is found to be bad without the probe.
use std::borrow::Cow;
use std::fmt::{self, Display};

use model::{
    Batch, BytePosition, Bytes, FlagPosition, Flags, LabelPlaces, Labels, Names, Positions, Refusal, Rescued,
    RowPosition, Spread,
};

use crate::probe::{refused, with_rows};
use crate::tally::Hex;

/// The most characters of a line, and the most places that it may ask for.
const MOST_LINE: usize = 65_536;
const MOST_PLACES: usize = 8_192;

/// What a line has to be answered by.
#[derive(Debug, Clone, PartialEq, Eq)]
pub enum Expected {
    /// This text. (A part that is empty leaves a space at the end of its line, or does not.)
    Text(String),
    /// `written N BYTES HEX`, with byte runs of the writer's own choice that stand for these bytes and are
    /// as few bytes as any.
    Written { things: usize, bytes: Vec<u8> },
}

impl Expected {
    /// Whether an answer is one that the rules give.
    pub fn takes(&self, answer: &str) -> bool {
        match self {
            Expected::Text(text) => answer.trim_end() == text.trim_end(),
            Expected::Written { things, bytes } => {
                let words: Vec<&str> = answer.trim_end().split(' ').collect();
                let [word, count, size, runs @ ..] = words.as_slice() else { return false };
                let runs = match runs {
                    [] => Some(Vec::new()),
                    [hex] => digits(hex).filter(|_| *hex == hex.to_lowercase()),
                    _ => None,
                };
                runs.is_some_and(|runs| {
                    *word == "written"
                        && *count == things.to_string()
                        && *size == runs.len().to_string()
                        && runs.len() == model::least_size(bytes)
                        && model::runs_stand_for(&runs).as_ref() == Some(bytes)
                })
            }
        }
    }

    /// The text; of written runs, that of the runs which the page says are chosen.
    pub fn text(&self) -> Cow<'_, str> {
        match self {
            Expected::Text(text) => text.into(),
            Expected::Written { things, bytes } => {
                let runs = model::chosen_byte_runs(bytes);
                format!("written {things} {} {}", runs.len(), Hex(&runs)).to_lowercase().into()
            }
        }
    }
}

impl Display for Expected {
    fn fmt(&self, f: &mut fmt::Formatter) -> fmt::Result {
        match self {
            Expected::Text(text) => f.write_str(text),
            Expected::Written { things, bytes } => {
                let size = model::least_size(bytes);
                write!(f, "written {things} {size}, byte runs that stand for {}", Hex(bytes))
            }
        }
    }
}

/// The bytes that hexadecimal of either case writes.
fn digits(line: &str) -> Option<Vec<u8>> {
    if line.len() > MOST_LINE || line.len() % 2 == 1 {
        return None;
    }
    let digits: Vec<u32> = line.chars().map(|digit| digit.to_digit(16)).collect::<Option<_>>()?;
    Some(digits.chunks(2).map(|two| (two[0] * 16 + two[1]) as u8).collect())
}

/// The fields of a line that are left.
struct Fields<'a>(&'a [u8]);

impl<'a> Fields<'a> {
    fn bytes(&mut self, count: usize) -> Option<&'a [u8]> {
        let (field, rest) = self.0.split_at_checked(count)?;
        self.0 = rest;
        Some(field)
    }

    fn number(&mut self, bytes: usize) -> Option<u64> {
        Some(self.bytes(bytes)?.iter().fold(0, |number, byte| number * 256 + u64::from(*byte)))
    }

    /// "A row, row number, position, n, start, fill, skip and each number of a column has 8 bytes."
    fn word(&mut self) -> Option<u64> {
        self.number(8)
    }

    /// "A count .. of things in the line 2."
    fn count(&mut self) -> Option<usize> {
        Some(self.number(2)? as usize)
    }

    /// "A count of places .. 2", of 8,192 at most.
    fn places(&mut self) -> Option<usize> {
        self.count().filter(|places| *places <= MOST_PLACES)
    }

    /// 0 unsigned, 1 signed.
    fn flag(&mut self) -> Option<bool> {
        match self.number(1)? {
            0 => Some(false),
            1 => Some(true),
            _ => None,
        }
    }

    fn words(&mut self, count: usize) -> Option<Vec<u64>> {
        (0..count).map(|_| self.word()).collect()
    }

    /// Numbers of a column of i64.
    fn rows(&mut self, count: usize) -> Option<Vec<i64>> {
        Some(self.words(count)?.into_iter().map(|number| number as i64).collect())
    }

    fn end(&self) -> Option<()> {
        self.0.is_empty().then_some(())
    }
}

/// What the rules answer to a line: of those that begin with 11 to 19, and of those that are bad.
pub fn said(line: &str) -> Expected {
    let frame = digits(line);
    let read = frame.as_deref().and_then(|frame| answer(Fields(frame)));
    read.unwrap_or_else(|| Expected::Text("bad line".into()))
}

fn answer(mut fields: Fields) -> Option<Expected> {
    let text = match fields.number(1)? {
        0x11 => rows(fields),
        0x12 => batches(fields),
        0x13 => flags(fields),
        0x14 => bytes(fields),
        0x15 => spread(fields),
        0x16 => labels(fields),
        0x17 => return write(fields, model::packed_flags),
        0x18 => return write(fields, <[u8]>::to_vec),
        0x19 => rescue(fields),
        _ => None,
    };
    Some(Expected::Text(text?))
}

/// One batch's text, and the position after it.
fn batch(input: &[u8], position: RowPosition, signed: bool, places: usize) -> (String, Option<RowPosition>) {
    match model::read_rows(input, position, signed, places) {
        Batch::End => ("end".into(), None),
        Batch::Refused(refusal) => (refused(refusal), None),
        Batch::Given { rows, next } => {
            let text = format!("rows {} {} {}", rows.len(), next.run, next.skip);
            (with_rows(text, &rows), Some(next))
        }
    }
}

/// 11: flag, run, skip, places, input.
fn rows(mut fields: Fields) -> Option<String> {
    let signed = fields.flag()?;
    let position = RowPosition { run: fields.word()?, skip: fields.word()? };
    let places = fields.places()?;
    Some(batch(fields.0, position, signed, places).0)
}

/// 12: flag, run, skip, how many sizes, each size, input. "No size at all is a bad line."
fn batches(mut fields: Fields) -> Option<String> {
    let signed = fields.flag()?;
    let mut position = RowPosition { run: fields.word()?, skip: fields.word()? };
    let count = fields.count().filter(|count| *count > 0)?;
    let sizes: Vec<usize> = (0..count).map(|_| fields.places()).collect::<Option<_>>()?;
    let mut texts = Vec::new();
    for size in sizes {
        let (text, next) = batch(fields.0, position, signed, size);
        texts.push(text);
        // "The first `end` or REFUSED is the last text."
        let Some(next) = next else { break };
        position = next;
    }
    Some(texts.join(" ; "))
}

/// 13: n, run, bytes, bits, places, input.
fn flags(mut fields: Fields) -> Option<String> {
    let n = fields.word()?;
    let position = FlagPosition { run: fields.word()?, bytes: fields.word()?, bits: fields.word()? };
    let places = fields.places()?;
    Some(match model::read_flags(fields.0, position, n, places) {
        Flags::Refused(refusal) => refused(refusal),
        Flags::Given { values, next: FlagPosition { run, bytes, bits } } => {
            let flags: String = values.iter().map(|value| if *value { '1' } else { '0' }).collect();
            format!("flags {n} {run} {bytes} {bits} {flags}")
        }
    })
}

/// 14: n, run, bytes, places, input.
fn bytes(mut fields: Fields) -> Option<String> {
    let n = fields.word()?;
    let position = BytePosition { run: fields.word()?, bytes: fields.word()? };
    let places = fields.places()?;
    Some(match model::read_bytes(fields.0, position, n, places) {
        Bytes::Refused(refusal) => refused(refusal),
        Bytes::Given { values, next: BytePosition { run, bytes } } => {
            format!("bytes {n} {run} {bytes} {}", Hex(&values)).to_lowercase()
        }
    })
}

/// 15: fill, places, how many flags, how many rows, flags, rows.
fn spread(mut fields: Fields) -> Option<String> {
    let (fill, places) = (fields.word()? as i64, fields.places()?);
    let counts = [fields.count()?, fields.count()?];
    let (flags, rows) = (fields.bytes(counts[0])?, fields.rows(counts[1])?);
    fields.end()?;
    Some(match model::spread(flags, &rows, fill, places) {
        Spread::Refused(refusal) => refused(refusal),
        Spread::Given(rows) => with_rows(format!("spread {}", rows.len()), &rows),
    })
}

/// 16: block length, how many flags, numbers, lengths, then offsets, starts and sizes lent, then flags,
/// numbers, lengths. "The probe prints that row where it prints a place."
fn labels(mut fields: Fields) -> Option<String> {
    let block_length = fields.word()?;
    let counts = [fields.count()?, fields.count()?, fields.count()?];
    let places = LabelPlaces { offsets: fields.places()?, starts: fields.places()?, sizes: fields.places()? };
    let flags = fields.bytes(counts[0])?;
    let (numbers, lengths) = (fields.rows(counts[1])?, fields.rows(counts[2])?);
    fields.end()?;
    let names = Names { flags, numbers: &numbers, lengths: &lengths, block_length };
    Some(match model::label_column(names, places) {
        Labels::Refused { refusal: Refusal { number, .. }, row: Some(row) } => {
            format!("refused {number} {row}")
        }
        Labels::Refused { refusal, row: None } => refused(refusal),
        Labels::Given { offsets, parts } => {
            let offsets: String = offsets.iter().map(|offset| format!(" {offset}")).collect();
            let parts: String = parts.iter().map(|part| format!(" {}/{}", part.start, part.size)).collect();
            format!("labels{offsets} /{parts}")
        }
    })
}

/// 17 and 18: places, then flags or bytes.
fn write(mut fields: Fields, stand_for: fn(&[u8]) -> Vec<u8>) -> Option<Expected> {
    let places = fields.places()?;
    let bytes = stand_for(fields.0);
    if model::least_size(&bytes) > places {
        return Some(Expected::Text(refused(Refusal::whole(8, 0))));
    }
    Some(Expected::Written { things: fields.0.len(), bytes })
}

/// 19: flag, fill, rows lent, verdicts lent, how many runs, skips, counts, then the three columns, input.
fn rescue(mut fields: Fields) -> Option<String> {
    let (signed, fill) = (fields.flag()?, fields.word()? as i64);
    let places = [fields.places()?, fields.places()?];
    let counts = [fields.count()?, fields.count()?, fields.count()?];
    let columns = [fields.words(counts[0])?, fields.words(counts[1])?, fields.words(counts[2])?];
    let [runs, skips, counts] = columns.each_ref().map(Vec::as_slice);
    Some(match model::rescue(fields.0, signed, Positions { runs, skips, counts }, fill, places) {
        Rescued::Refused(refusal) => refused(refusal),
        Rescued::Given { kept, rows } => {
            let verdicts: String = kept.iter().map(|kept| if *kept { '1' } else { '0' }).collect();
            with_rows(format!("rescued {verdicts}"), &rows)
        }
    })
}
