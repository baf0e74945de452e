//! 0F label: row, how many lengths, numbers, flags, bytes of the block and bytes of the fallback, then
//! these.
use menakovitsy::exported::case;

use super::ended;
use crate::answer::{hex, Answer};
use crate::calls::{self, Columns};
use crate::lent::Lent;
use crate::line::Fields;

/// `name HEX`, `fallback HEX`, or REFUSED. The part follows from the answer.
pub fn label(mut fields: Fields) -> Option<String> {
    let row = fields.word()?;
    let mut count = || fields.count();
    let counts = [count()?, count()?, count()?, count()?, count()?];
    let (lengths, numbers) = (fields.words(counts[0])?, fields.words(counts[1])?);
    let [flags, block, fallback] =
        [fields.bytes(counts[2])?, fields.bytes(counts[3])?, fields.bytes(counts[4])?];
    fields.end()?;
    let columns = [Lent::holding(&lengths), Lent::holding(&numbers)];
    let lent = [flags, block, fallback].map(Lent::holding);
    let given = Columns {
        lengths: columns[0].content(),
        numbers: columns[1].content(),
        flags: lent[0].content(),
        block: lent[1].content(),
        fallback: lent[2].content(),
    };
    let answer = Answer::of_label(|words| calls::label(given, row, words));
    let part = match answer.case() {
        case::READ => answer.part_of(lent[1].content()),
        case::FALLBACK => answer.part_of(lent[2].content()).filter(|part| part.len() == fallback.len()),
        _ => Some(&[][..]),
    };
    let line = match answer.case() {
        case::READ => format!("name {}", hex(part.unwrap_or_default())),
        case::FALLBACK => format!("fallback {}", hex(part.unwrap_or_default())),
        _ => answer.say_other(),
    };
    let altered = columns[0].altered(&lengths) || columns[1].altered(&numbers);
    let altered = altered || lent.iter().zip([flags, block, fallback]).any(|(lent, held)| lent.altered(held));
    ended(line, answer.label_fits() && part.is_some(), altered || answer.touched())
}
