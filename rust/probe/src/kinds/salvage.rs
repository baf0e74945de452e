//! 0B salvage: flag, fill, bytes lent, how many pairs, each start and rows, input.
use menakovitsy::exported::{case, salvage_word, SALVAGE_WORDS};

use super::{ended, FLAGS};
use crate::answer::{first, hex, Answer};
use crate::calls::{self, Salvaging};
use crate::lent::Lent;
use crate::line::Fields;

/// How many bytes are lent for the report.
const REPORT: usize = 65_536;

/// `salvaged kept 0 5 replaced 1 7 .. bytes BYTES HEX`, or REFUSED.
pub fn salvage(mut fields: Fields) -> Option<String> {
    let (flag, fill, places) = (fields.below(FLAGS)?, fields.word()? as i64, fields.count()?);
    let pairs = fields.count()?;
    let pairs = fields.numbers(2 * pairs)?;
    let input = fields.rest();
    let column = |of: usize| pairs.iter().skip(of).step_by(2).copied().collect::<Vec<u64>>();
    let (starts, counts) = (column(0), column(1));
    let (lent, columns) = (Lent::holding(input), [&starts, &counts].map(|column| Lent::holding(column)));
    let (mut out, mut report) = (Lent::places(places), Lent::places(REPORT));
    let groups = [columns[0].content(), columns[1].content()];
    let answer = Answer::of_words(SALVAGE_WORDS, None, |words| {
        let salvaging = Salvaging { input: lent.content(), groups, fill, flag };
        calls::salvage(salvaging, out.content_mut(), report.content_mut(), words)
    });
    let done = answer.case() == case::READ;
    let word = |place| if done { answer.word(place) } else { 0 };
    let (bytes, told) = (word(salvage_word::BYTES), word(salvage_word::REPORT));
    let mut line = answer.say_other();
    if done {
        let report = String::from_utf8_lossy(first(report.content(), told)).replace('\n', " ");
        line = format!("salvaged {report}bytes {bytes} {}", hex(first(out.content(), bytes)));
    }
    let altered =
        lent.altered(input) || columns.iter().zip([&starts, &counts]).any(|(lent, held)| lent.altered(held));
    let touched = out.touched(bytes as usize) || report.touched(told as usize);
    let fits = answer.own_fits() && bytes <= places as u64 && told <= REPORT as u64;
    ended(line, fits, altered || touched || answer.touched())
}
