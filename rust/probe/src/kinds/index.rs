//! 08 index, 09 lookup and 0A read from: the index beside a stream, in three columns.
use std::fmt::Write as _;

use menakovitsy::exported::{
    case, entry_word, index_word, rows_from_word, ENTRY_WORDS, INDEX_WORDS, ROWS_FROM_WORDS,
};

use super::{ended, FLAGS};
use crate::answer::{first, say_rows, Answer};
use crate::calls;
use crate::lent::Lent;
use crate::line::Fields;

/// 08: entries lent in each of the three columns, input. `index ENTRIES ROWS BYTES FIRST/AT/ROWS ..`, or
/// REFUSED.
pub fn index(mut fields: Fields) -> Option<String> {
    let mut columns =
        [Lent::places(fields.places()?), Lent::places(fields.places()?), Lent::places(fields.places()?)];
    let input = fields.rest();
    let lent = Lent::holding(input);
    let answer = Answer::of_words(INDEX_WORDS, Some(index_word::CUT), |words| {
        calls::build_index(lent.content(), columns.each_mut().map(Lent::content_mut), words)
    });
    let built = answer.case() == case::READ;
    let given = if built { answer.word(index_word::ENTRIES) } else { 0 };
    let mut line = answer.say_other();
    if built {
        line = format!("index {given} {} {}", answer.rows(), answer.bytes());
        let [firsts, ats, counts] = columns.each_ref().map(|column| first(column.content(), given));
        for ((first, at), rows) in firsts.iter().zip(ats).zip(counts) {
            write!(line, " {first}/{at}/{rows}").expect("a string takes it");
        }
    }
    let within = columns.iter().all(|column| given <= column.content().len() as u64);
    let touched = columns.iter().any(|column| column.touched(given as usize));
    ended(line, answer.own_fits() && within, touched || lent.altered(input) || answer.touched())
}

/// A caller's index, and the stream.
struct Asked<'a> {
    held: [Vec<u64>; 3],
    columns: [Lent<u64>; 3],
    input: &'a [u8],
    lent: Lent<u8>,
}

impl<'a> Asked<'a> {
    /// How many first rows, byte offsets and row counts, then these, then the input.
    fn new(mut fields: Fields<'a>) -> Option<Self> {
        let counts = [fields.count()?, fields.count()?, fields.count()?];
        let held = [fields.numbers(counts[0])?, fields.numbers(counts[1])?, fields.numbers(counts[2])?];
        let columns = held.each_ref().map(|column| Lent::holding(column));
        let input = fields.rest();
        Some(Asked { held, columns, input, lent: Lent::holding(input) })
    }

    fn columns(&self) -> [&[u64]; 3] {
        self.columns.each_ref().map(Lent::content)
    }

    fn altered(&self) -> bool {
        let columns = self.columns.iter().zip(&self.held).any(|(column, held)| column.altered(held));
        columns || self.lent.altered(self.input)
    }
}

/// 09: row, a caller's index, input. `entry FIRST/AT/ROWS`, or REFUSED.
pub fn look_up(mut fields: Fields) -> Option<String> {
    let row = fields.word()?;
    let asked = Asked::new(fields)?;
    let answer = Answer::of_words(ENTRY_WORDS, None, |words| {
        calls::look_up(asked.lent.content(), asked.columns(), row, words)
    });
    let mut line = answer.say_other();
    if answer.case() == case::READ {
        let [first, at, rows] =
            [entry_word::FIRST, entry_word::AT, entry_word::ROWS].map(|place| answer.word(place));
        line = format!("entry {first}/{at}/{rows}");
    }
    ended(line, answer.own_fits(), asked.altered() || answer.touched())
}

/// 0A: flag, row, places, a caller's index, input. `rows ROWS r r ..`, or REFUSED.
pub fn read_from(mut fields: Fields) -> Option<String> {
    let (flag, row, places) = (fields.below(FLAGS)?, fields.word()?, fields.places()?);
    let asked = Asked::new(fields)?;
    let mut rows = Lent::places(places);
    let answer = Answer::of_words(ROWS_FROM_WORDS, None, |words| {
        calls::read_from(asked.lent.content(), asked.columns(), row, flag, rows.content_mut(), words)
    });
    let read = answer.case() == case::READ;
    let given = if read { answer.word(rows_from_word::ROWS) } else { 0 };
    let mut line = if read { format!("rows {given}") } else { answer.say_other() };
    say_rows(&mut line, rows.content(), given);
    let touched = rows.touched(given as usize) || asked.altered() || answer.touched();
    ended(line, answer.own_fits() && given <= places as u64, touched)
}
