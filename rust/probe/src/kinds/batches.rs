//! 11 rows, 12 batches, 13 flags and 14 bytes: batches from positions inside runs.
use menakovitsy::exported::{
    batch_word, bytes_word, case, flags_word, BATCH_WORDS, BYTES_WORDS, FLAGS_WORDS,
};

use super::booleans::bit;
use super::{ended, FLAGS};
use crate::answer::{first, hex, say_rows, Answer};
use crate::calls::batches as calls;
use crate::lent::Lent;
use crate::line::Fields;

/// What one call of `orc_read_rows` came to.
struct Batch {
    text: String,
    /// The position after the rows, if there are any.
    next: Option<[u64; 2]>,
    fits: bool,
    touched: bool,
}

/// `rows N RUN SKIP r r ..`, `end`, or REFUSED.
fn batch(input: &[u8], position: [u64; 2], flag: u64, places: usize) -> Batch {
    let lent = Lent::holding(input);
    let mut rows = Lent::places(places);
    let answer = Answer::of_words(BATCH_WORDS, Some(batch_word::CUT), |words| {
        calls::read_rows(lent.content(), position, flag, rows.content_mut(), words)
    });
    let read = answer.case() == case::READ;
    let [given, run, skip] =
        [batch_word::ROWS, batch_word::NEXT_RUN, batch_word::NEXT_SKIP].map(|place| answer.word(place));
    let given = if read { given } else { 0 };
    let mut text = if read { format!("rows {given} {run} {skip}") } else { answer.say_other() };
    say_rows(&mut text, rows.content(), given);
    let touched = lent.altered(input) || rows.touched(given as usize) || answer.touched();
    let fits = answer.own_or_end_fits() && given <= places as u64;
    Batch { text, next: read.then_some([run, skip]), fits, touched }
}

/// 11: flag, run, skip, places, input.
pub fn rows(mut fields: Fields) -> Option<String> {
    let flag = fields.below(FLAGS)?;
    let position = [fields.word()?, fields.word()?];
    let places = fields.places()?;
    let Batch { text, fits, touched, .. } = batch(fields.rest(), position, flag, places);
    ended(text, fits, touched)
}

/// 12: flag, run, skip, how many sizes, each size, input. A call for each size in turn, at the position that
/// came back; the first `end` or REFUSED is the last.
pub fn batches(mut fields: Fields) -> Option<String> {
    let flag = fields.below(FLAGS)?;
    let mut position = [fields.word()?, fields.word()?];
    let count = fields.count().filter(|count| *count > 0)?;
    let sizes = (0..count).map(|_| fields.places()).collect::<Option<Vec<_>>>()?;
    let input = fields.rest();
    let (mut texts, mut fits, mut touched) = (Vec::new(), true, false);
    for size in sizes {
        let call = batch(input, position, flag, size);
        texts.push(call.text);
        fits &= call.fits;
        touched |= call.touched;
        match call.next {
            Some(next) => position = next,
            None => break,
        }
    }
    ended(texts.join(" ; "), fits, touched)
}

/// 13: n, run, bytes, bits, places, input. `flags N RUN BYTES BITS 0110..`, or REFUSED.
pub fn flags(mut fields: Fields) -> Option<String> {
    let n = fields.word()?;
    let position = [fields.word()?, fields.word()?, fields.word()?];
    let places = fields.places()?;
    let input = fields.rest();
    let lent = Lent::holding(input);
    let mut out = Lent::places(places);
    let answer = Answer::of_words(FLAGS_WORDS, Some(flags_word::CUT), |words| {
        calls::read_flags(lent.content(), position, n, out.content_mut(), words)
    });
    let read = answer.case() == case::READ;
    let given = if read { answer.word(flags_word::GIVEN) } else { 0 };
    let mut line = answer.say_other();
    if read {
        let [run, bytes, bits] = [flags_word::NEXT_RUN, flags_word::NEXT_BYTES, flags_word::NEXT_BITS]
            .map(|place| answer.word(place));
        let flags: String = first(out.content(), given).iter().map(|byte| bit(*byte)).collect();
        line = format!("flags {given} {run} {bytes} {bits} {flags}");
    }
    let touched = lent.altered(input) || out.touched(given as usize) || answer.touched();
    ended(line, answer.own_fits() && given <= places as u64, touched)
}

/// 14: n, run, bytes, places, input. `bytes N RUN BYTES HEX`, or REFUSED.
pub fn bytes(mut fields: Fields) -> Option<String> {
    let n = fields.word()?;
    let position = [fields.word()?, fields.word()?];
    let places = fields.places()?;
    let input = fields.rest();
    let lent = Lent::holding(input);
    let mut out = Lent::places(places);
    let answer = Answer::of_words(BYTES_WORDS, Some(bytes_word::CUT), |words| {
        calls::read_bytes(lent.content(), position, n, out.content_mut(), words)
    });
    let read = answer.case() == case::READ;
    let given = if read { answer.word(bytes_word::GIVEN) } else { 0 };
    let mut line = answer.say_other();
    if read {
        let [run, bytes] = [bytes_word::NEXT_RUN, bytes_word::NEXT_BYTES].map(|place| answer.word(place));
        line = format!("bytes {given} {run} {bytes} {}", hex(first(out.content(), given)));
    }
    let touched = lent.altered(input) || out.touched(given as usize) || answer.touched();
    ended(line, answer.own_fits() && given <= places as u64, touched)
}
