//! 15 spread: rows that are missing; and 16 labels: the names of all rows.
use std::fmt::Write as _;

use menakovitsy::exported::{case, labels_word, spread_word, LABELS_WORDS, SPREAD_WORDS};

use super::ended;
use crate::answer::{first, say_rows, Answer, NO_SUCH_NAME};
use crate::calls::batches::{self as calls, Names};
use crate::lent::Lent;
use crate::line::Fields;

/// 15: fill, places, how many flags, how many rows, flags, rows. `spread N r r ..`, or REFUSED.
pub fn spread(mut fields: Fields) -> Option<String> {
    let (fill, places) = (fields.word()? as i64, fields.places()?);
    let counts = [fields.count()?, fields.count()?];
    let (flags, rows) = (fields.bytes(counts[0])?, fields.words(counts[1])?);
    fields.end()?;
    let (lent_flags, lent_rows) = (Lent::holding(flags), Lent::holding(&rows));
    let mut out = Lent::places(places);
    let answer = Answer::of_words(SPREAD_WORDS, None, |words| {
        calls::spread(lent_flags.content(), lent_rows.content(), fill, out.content_mut(), words)
    });
    let done = answer.case() == case::READ;
    let given = if done { answer.word(spread_word::ROWS) } else { 0 };
    let mut line = if done { format!("spread {given}") } else { answer.say_other() };
    say_rows(&mut line, out.content(), given);
    let altered = lent_flags.altered(flags) || lent_rows.altered(&rows);
    let fits = answer.own_fits() && given <= places as u64;
    ended(line, fits, altered || out.touched(given as usize) || answer.touched())
}

/// 16: block length, how many flags, numbers and lengths, offsets, starts and sizes lent, then flags, numbers,
/// lengths. `labels OFFSET .. / START/SIZE ..`, or REFUSED; of 19 with the row instead of a place.
pub fn labels(mut fields: Fields) -> Option<String> {
    let block_len = fields.word()?;
    let counts = [fields.count()?, fields.count()?, fields.count()?];
    let places = [fields.places()?, fields.places()?, fields.places()?];
    let flags = fields.bytes(counts[0])?;
    let (numbers, lengths) = (fields.words(counts[1])?, fields.words(counts[2])?);
    fields.end()?;
    let lent_flags = Lent::holding(flags);
    let columns = [Lent::holding(&numbers), Lent::holding(&lengths)];
    let names = Names {
        flags: lent_flags.content(),
        numbers: columns[0].content(),
        lengths: columns[1].content(),
        block_len,
    };
    let mut out = places.map(Lent::places);
    let answer = Answer::of_words(LABELS_WORDS, None, |words| {
        calls::label_column(names, out.each_mut().map(Lent::content_mut), words)
    });
    let done = answer.case() == case::READ;
    let rows = if done { answer.word(labels_word::ROWS) } else { 0 };
    let given = if done { [lengths.len() as u64, rows, rows] } else { [0; 3] };
    let line = if done { say_labels(&out, given) } else { say_refused(&answer) };
    let altered = lent_flags.altered(flags) || columns[0].altered(&numbers) || columns[1].altered(&lengths);
    let touched = out.iter().zip(given).any(|(column, given)| column.touched(given as usize));
    let within = out.iter().zip(given).all(|(column, given)| given <= column.content().len() as u64);
    let fits = answer.labels_fits(rows == flags.len() as u64) && within;
    ended(line, fits, altered || touched || answer.touched())
}

fn say_labels(out: &[Lent<u64>; 3], given: [u64; 3]) -> String {
    let [offsets, starts, sizes] = [0, 1, 2].map(|column| first(out[column].content(), given[column]));
    let mut line = String::from("labels");
    for offset in offsets {
        write!(line, " {offset}").expect("a string takes it");
    }
    line += " /";
    for (start, size) in starts.iter().zip(sizes) {
        write!(line, " {start}/{size}").expect("a string takes it");
    }
    line
}

/// The row stands where a place does: of 19 alone.
fn say_refused(answer: &Answer) -> String {
    match answer.word(labels_word::REFUSED_ROW) {
        row if answer.refuses(NO_SUCH_NAME) => format!("refused {NO_SUCH_NAME} {row}"),
        _ => answer.say_other(),
    }
}
