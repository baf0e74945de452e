//! 04 byte value: n, position, input.
use menakovitsy::exported::{case, kind};

use super::ended;
use crate::answer::{first, hex, Answer};
use crate::calls;
use crate::lent::Lent;
use crate::line::Fields;

/// `value WIDTH ROWS BYTES HEX`, or REFUSED. The part follows from the answer.
pub fn value(mut fields: Fields) -> Option<String> {
    let (n, at) = (fields.word()?, fields.word()?);
    let input = fields.rest();
    let lent = Lent::holding(input);
    let answer = Answer::of(|words| calls::byte_value(lent.content(), at, n, words));
    let read = answer.case() == case::READ;
    let mut line = answer.say_other();
    let rest = usize::try_from(at).ok().and_then(|at| lent.content().get(at..)).unwrap_or_default();
    if read {
        let part = first(rest, answer.bytes());
        line = format!("value {} {}", answer.say_counts(), hex(part));
    }
    let there = !read || answer.has_kind(kind::BYTE_VALUE) && answer.bytes() <= rest.len() as u64;
    ended(line, answer.fits() && there, lent.altered(input) || answer.touched())
}
