//! 10 count: n, bytes.
use menakovitsy::exported::{case, count_word, COUNT_WORDS};

use super::ended;
use crate::answer::Answer;
use crate::calls;
use crate::lent::Lent;
use crate::line::Fields;

/// `true N`, or REFUSED.
pub fn count(mut fields: Fields) -> Option<String> {
    let n = fields.word()?;
    let bytes = fields.rest();
    let packed = Lent::holding(bytes);
    let answer = Answer::of_words(COUNT_WORDS, Some(count_word::CUT), |words| {
        calls::count_true(packed.content(), n, words)
    });
    let line = match answer.case() {
        case::READ => format!("true {}", answer.word(count_word::TRUE)),
        _ => answer.say_other(),
    };
    ended(line, answer.own_fits(), packed.altered(bytes) || answer.touched())
}
