//! 0E convert: flag, bytes lent, input.
use menakovitsy::exported::{case, convert_word, CONVERT_WORDS};

use super::{ended, FLAGS};
use crate::answer::{first, hex, Answer};
use crate::calls;
use crate::lent::Lent;
use crate::line::Fields;

/// `converted ALTERED BYTES HEX`, or REFUSED.
pub fn convert(mut fields: Fields) -> Option<String> {
    let (flag, places) = (fields.below(FLAGS)?, fields.count()?);
    let input = fields.rest();
    let lent = Lent::holding(input);
    let mut out = Lent::places(places);
    let answer = Answer::of_words(CONVERT_WORDS, Some(convert_word::CUT), |words| {
        calls::convert(lent.content(), flag, out.content_mut(), words)
    });
    let done = answer.case() == case::READ;
    let given = if done { answer.word(convert_word::BYTES) } else { 0 };
    let mut line = answer.say_other();
    if done {
        let altered = answer.word(convert_word::ALTERED);
        line = format!("converted {altered} {given} {}", hex(first(out.content(), given)));
    }
    let touched = lent.altered(input) || out.touched(given as usize) || answer.touched();
    ended(line, answer.own_fits() && given <= places as u64, touched)
}
