//! 17 write booleans, 18 write bytes: places, then flags, a byte each, or bytes. `written N BYTES HEX`, or
//! REFUSED.
//!
//! The size is asked for, too: a line is odd if it is not what was written, or if a call is refused that has
//! the places.
use menakovitsy::exported::{bytes_written_word, case, kind, run_word, BYTES_WRITTEN_WORDS};

use super::ended;
use crate::answer::{first, hex, Answer};
use crate::calls::byte_writer as calls;
use crate::lent::Lent;
use crate::line::Fields;

/// 17.
pub fn booleans(mut fields: Fields) -> Option<String> {
    let (places, flags) = (fields.places()?, fields.rest());
    let (lent, mut out) = (Lent::holding(flags), Lent::places(places));
    let answer = Answer::of(|words| calls::write_booleans(lent.content(), out.content_mut(), words));
    let size = calls::size_of_booleans(lent.content());
    let done = answer.case() == case::READ;
    let named = !done || answer.has_kind(kind::BOOLEANS) && answer.word(run_word::WIDTH) == 1;
    let fits = answer.fits() && named;
    said(Written { given: flags, lent, out, size, counts: [answer.rows(), answer.bytes()], fits }, &answer)
}

/// 18.
pub fn bytes(mut fields: Fields) -> Option<String> {
    let (places, bytes) = (fields.places()?, fields.rest());
    let (lent, mut out) = (Lent::holding(bytes), Lent::places(places));
    let answer = Answer::of_words(BYTES_WRITTEN_WORDS, None, |words| {
        calls::write_bytes(lent.content(), out.content_mut(), words)
    });
    let size = calls::size_of_bytes(lent.content());
    let counts = [bytes_written_word::TAKEN, bytes_written_word::SIZE].map(|place| answer.word(place));
    let fits = answer.own_fits();
    said(Written { given: bytes, lent, out, size, counts, fits }, &answer)
}

/// What a call was given, what it left behind, and the size that was asked for beside it.
struct Written<'a> {
    given: &'a [u8],
    lent: Lent<u8>,
    out: Lent<u8>,
    size: u64,
    /// How many it says that it took, and how many bytes it wrote.
    counts: [u64; 2],
    /// Whether its words fit together.
    fits: bool,
}

fn said(written: Written, answer: &Answer) -> Option<String> {
    let Written { given, lent, out, size, counts: [taken, bytes], fits } = written;
    let done = answer.case() == case::READ;
    let bytes = if done { bytes } else { 0 };
    let mut line = answer.say_other();
    if done {
        line = format!("written {taken} {bytes} {}", hex(first(out.content(), bytes)));
    }
    let places = out.content().len() as u64;
    let sized = match done {
        true => size == bytes && bytes <= places,
        false => size > places,
    };
    ended(line, fits && sized, lent.altered(given) || out.touched(bytes as usize) || answer.touched())
}
