//! 01 run and 02 stream: flag, position, places, input.
use menakovitsy::exported::case;

use super::{ended, FLAGS};
use crate::answer::{say_rows, Answer};
use crate::calls;
use crate::lent::Lent;
use crate::line::Fields;

struct Asked<'a> {
    flag: u64,
    at: u64,
    places: usize,
    input: &'a [u8],
}

fn asked(mut fields: Fields) -> Option<Asked> {
    let flag = fields.below(FLAGS)?;
    let at = fields.word()?;
    let places = fields.places()?;
    Some(Asked { flag, at, places, input: fields.rest() })
}

/// `end`, `run KIND WIDTH ROWS BYTES r r ..`, or REFUSED.
pub fn run(fields: Fields) -> Option<String> {
    let Asked { flag, at, places, input } = asked(fields)?;
    let lent = Lent::holding(input);
    let mut rows = Lent::places(places);
    let answer = Answer::of(|words| calls::read_run_at(lent.content(), at, flag, rows.content_mut(), words));
    let read = answer.case() == case::READ;
    let mut line = if read { format!("run {}", answer.say_info()) } else { answer.say_other() };
    let given = if read { answer.rows() } else { 0 };
    say_rows(&mut line, rows.content(), given);
    let touched = lent.altered(input) || rows.touched(given as usize) || answer.touched();
    ended(line, answer.fits() && given <= places as u64, touched)
}

/// `whole ROWS BYTES LAST r r ..`, or `REFUSED ROWS BYTES LAST r r ..`.
pub fn stream(fields: Fields) -> Option<String> {
    let Asked { flag, at, places, input } = asked(fields)?;
    let lent = Lent::holding(input);
    let mut rows = Lent::places(places);
    let answer =
        Answer::of_stream(|words| calls::read_stream(lent.content(), at, flag, rows.content_mut(), words));
    let whole = answer.case() == case::READ;
    let mut line = if whole { "whole".into() } else { answer.say_other() };
    line += &format!(" {} {} {}", answer.rows(), answer.bytes(), answer.say_last());
    let given = if whole || answer.refused() { answer.rows() } else { 0 };
    say_rows(&mut line, rows.content(), given);
    let touched = lent.altered(input) || rows.touched(given as usize) || answer.touched();
    ended(line, answer.fits() && given <= places as u64, touched)
}
