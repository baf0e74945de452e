//! 03 booleans: n, position, places, input.
use menakovitsy::exported::{case, kind};

use super::ended;
use crate::answer::{first, Answer};
use crate::calls;
use crate::lent::Lent;
use crate::line::Fields;

/// `booleans WIDTH ROWS BYTES 0110..`, or REFUSED.
pub fn booleans(mut fields: Fields) -> Option<String> {
    let (n, at, places) = (fields.word()?, fields.word()?, fields.places()?);
    let input = fields.rest();
    let lent = Lent::holding(input);
    let mut out = Lent::places(places);
    let answer = Answer::of(|words| calls::read_booleans(lent.content(), at, n, out.content_mut(), words));
    let read = answer.case() == case::READ;
    let given = if read { answer.rows() } else { 0 };
    let mut line = answer.say_other();
    if read {
        let bits: String = first(out.content(), given).iter().map(|byte| bit(*byte)).collect();
        line = format!("booleans {} {bits}", answer.say_counts());
    }
    let touched = lent.altered(input) || out.touched(given as usize) || answer.touched();
    let fits = answer.fits() && given <= places as u64;
    ended(line, fits && (!read || answer.has_kind(kind::BOOLEANS)), touched)
}

/// A byte that is neither 0 nor 1 shows.
pub fn bit(byte: u8) -> char {
    match byte {
        0 => '0',
        1 => '1',
        _ => '?',
    }
}
