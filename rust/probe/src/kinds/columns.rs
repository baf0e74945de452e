//! 0C column: flag, bytes lent, how many segments, each first row, rows, form, width and base, then the
//! rows. 0D plan: flag, segments lent, rows.
use std::fmt::Write as _;

use menakovitsy::exported::{case, check_word, column_word, CHECK_WORDS, COLUMN_WORDS};

use super::{ended, FLAGS};
use crate::answer::{first, hex, Answer};
use crate::calls;
use crate::lent::Lent;
use crate::line::Fields;

/// Forms 0 to 4.
const FORMS: u64 = 5;

/// The most rows of a direct run.
const RUN_ROWS: usize = 512;

/// The five columns of that many segments.
fn proposal(fields: &mut Fields, segments: usize) -> Option<[Vec<u64>; 5]> {
    let mut columns: [Vec<u64>; 5] = Default::default();
    for _ in 0..segments {
        let segment = [fields.word()?, fields.word()?, fields.below(FORMS)?, fields.byte()?, fields.word()?];
        columns.iter_mut().zip(segment).for_each(|(column, number)| column.push(number));
    }
    Some(columns)
}

/// `column planned BYTES HEX`, `column direct BYTES HEX`, or REFUSED. It ends in ` odd`, too, where the
/// check by itself says otherwise than the writer.
pub fn column(mut fields: Fields) -> Option<String> {
    let (flag, places, segments) = (fields.below(FLAGS)?, fields.count()?, fields.count()?);
    let held = proposal(&mut fields, segments)?;
    let given = fields.rows()?;
    let (rows, columns) = (Lent::holding(&given), held.each_ref().map(|column| Lent::holding(column)));
    let lent = columns.each_ref().map(Lent::content);
    let mut out = Lent::places(places);
    let answer = Answer::of_words(COLUMN_WORDS, None, |words| {
        calls::write_column(rows.content(), flag, lent, out.content_mut(), words)
    });
    let check = Answer::of_words(CHECK_WORDS, None, |words| {
        calls::check_column(rows.content(), flag, lent, places as u64, words)
    });
    let (what, runs) = match answer.case() {
        case::READ => ("planned", segments),
        case::DIRECT => ("direct", given.len().div_ceil(RUN_ROWS)),
        _ => ("", 0),
    };
    let bytes = if what.is_empty() { 0 } else { answer.word(column_word::BYTES) };
    let mut line = answer.say_other();
    let mut fits = answer.column_fits() && bytes <= places as u64;
    if !what.is_empty() {
        line = format!("column {what} {bytes} {}", hex(first(out.content(), bytes)));
        let counts = [answer.word(column_word::RUNS), answer.word(column_word::ROWS)];
        fits &= counts == [runs as u64, given.len() as u64];
    }
    let accepted = answer.case() == case::READ;
    let counts = if accepted { [segments as u64, given.len() as u64, bytes] } else { [0; 3] };
    let checked = [check_word::RUNS, check_word::ROWS, check_word::BYTES].map(|place| check.word(place));
    fits &= check.returns(0) && check.case() == u64::from(accepted) && checked == counts;
    let altered = rows.altered(&given) || columns.iter().zip(&held).any(|(lent, held)| lent.altered(held));
    let touched = altered || out.touched(bytes as usize) || answer.touched() || check.touched();
    ended(line, fits, touched)
}

/// `plan SEGMENTS FIRST/ROWS/FORM/WIDTH/BASE ..`. The places after the segments may have changed.
pub fn plan(mut fields: Fields) -> Option<String> {
    let (flag, lent) = (fields.below(FLAGS)?, fields.places()?);
    let given = fields.rows()?;
    let rows = Lent::holding(&given);
    let mut columns = [(); 5].map(|()| Lent::places(lent));
    let segments = calls::plan(rows.content(), flag, columns.each_mut().map(Lent::content_mut));
    let mut line = format!("plan {segments}");
    let [firsts, counts, forms, widths, bases] =
        columns.each_ref().map(|column| first(column.content(), segments));
    for (place, base) in bases.iter().enumerate() {
        let [first, rows, form, width] = [firsts, counts, forms, widths].map(|column| column[place]);
        write!(line, " {first}/{rows}/{form}/{width}/{base}").expect("a string takes it");
    }
    let touched = rows.altered(&given) || columns.iter().any(Lent::guards_touched);
    ended(line, segments <= lent as u64, touched)
}
