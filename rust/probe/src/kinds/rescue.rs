//! 19 rescue: flag, fill, rows lent, verdicts lent, how many runs, skips and counts, then the three columns,
//! input.
use menakovitsy::exported::{case, rescue_word, RESCUE_WORDS};

use super::booleans::bit;
use super::{ended, FLAGS};
use crate::answer::{first, say_rows, Answer};
use crate::calls::rescue::{self as calls, Rescuing};
use crate::lent::Lent;
use crate::line::Fields;

/// `rescued 101.. r r ..`, or REFUSED. It is odd, too, if the verdicts are not as many as the groups, or the
/// groups that were kept are counted otherwise.
pub fn rescue(mut fields: Fields) -> Option<String> {
    let (flag, fill) = (fields.below(FLAGS)?, fields.word()? as i64);
    let places = [fields.places()?, fields.places()?];
    let counts = [fields.count()?, fields.count()?, fields.count()?];
    let held = [fields.numbers(counts[0])?, fields.numbers(counts[1])?, fields.numbers(counts[2])?];
    let input = fields.rest();
    let (lent, columns) = (Lent::holding(input), held.each_ref().map(|column| Lent::holding(column)));
    let (mut rows, mut verdicts) = (Lent::places(places[0]), Lent::places(places[1]));
    let groups = columns.each_ref().map(Lent::content);
    let answer = Answer::of_words(RESCUE_WORDS, None, |words| {
        let rescuing = Rescuing { input: lent.content(), groups, fill, flag };
        calls::rescue(rescuing, rows.content_mut(), verdicts.content_mut(), words)
    });
    let done = answer.case() == case::READ;
    let word = |place| if done { answer.word(place) } else { 0 };
    let (given, kept) = (word(rescue_word::ROWS), word(rescue_word::KEPT));
    let judged = if done { counts[0] as u64 } else { 0 };
    let said = first(verdicts.content(), judged);
    let mut line = answer.say_other();
    if done {
        line = format!("rescued {}", said.iter().map(|verdict| bit(*verdict)).collect::<String>());
        say_rows(&mut line, rows.content(), given);
    }
    let altered = lent.altered(input) || columns.iter().zip(&held).any(|(lent, held)| lent.altered(held));
    let touched = rows.touched(given as usize) || verdicts.touched(judged as usize) || answer.touched();
    let counted = said.iter().filter(|verdict| **verdict == 1).count() as u64 == kept;
    let within = given <= places[0] as u64 && judged <= places[1] as u64;
    ended(line, answer.own_fits() && counted && within, altered || touched)
}
