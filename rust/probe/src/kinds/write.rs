//! 05 write: flag, form, width, places, for a patched run the base, rows. 06 narrowest code: a number.
use menakovitsy::exported::case;

use super::{ended, FLAGS};
use crate::answer::{first, hex, Answer};
use crate::calls::{self, Writing};
use crate::lent::Lent;
use crate::line::Fields;

/// Forms 0 to 3, and 4, which is patched.
const FORMS: u64 = 5;
const PATCHED: u64 = 4;

/// `written KIND WIDTH ROWS BYTES HEX`, or REFUSED.
pub fn write(mut fields: Fields) -> Option<String> {
    let writing = Writing { flag: fields.below(FLAGS)?, form: fields.below(FORMS)?, width: fields.byte()? };
    let places = fields.places()?;
    let base = if writing.form == PATCHED { Some(fields.word()? as i64) } else { None };
    let rows = fields.rows()?;
    let lent = Lent::holding(&rows);
    let mut out = Lent::places(places);
    let answer = Answer::of(|words| match base {
        Some(base) => calls::write_patched(lent.content(), base, writing.width, out.content_mut(), words),
        None => calls::write_run(lent.content(), writing, out.content_mut(), words),
    });
    let written = answer.case() == case::READ;
    let given = if written { answer.bytes() } else { 0 };
    let mut line = answer.say_other();
    if written {
        line = format!("written {} {}", answer.say_info(), hex(first(out.content(), given)));
    }
    let touched = lent.altered(&rows) || out.touched(given as usize) || answer.touched();
    ended(line, answer.fits() && given <= places as u64, touched)
}

/// `code N`.
pub fn narrowest(mut fields: Fields) -> Option<String> {
    let number = fields.word()?;
    fields.end()?;
    Some(format!("code {}", calls::narrowest_code(number)))
}
