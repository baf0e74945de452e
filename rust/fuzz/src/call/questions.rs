//! Calls that write nothing but words, a row's label and how many booleans are true, and what the model answers
//! them.
use differential::stages::labels::Asked;
use menakovitsy::exported::case;
use model::{Label, Ones, Refusal};

use super::Outcome;

/// The words of a label: where a name begins is by its place in the block.
pub fn label(asked: &Asked) -> Outcome {
    let words = match model::label(asked.row, asked.dictionary(), &asked.fallback) {
        Label::Name(part) => {
            let start = part.as_ptr() as usize - asked.block.as_ptr() as usize;
            [case::READ, 0, 0, start as u64, part.len() as u64]
        }
        Label::Fallback(part) => [case::FALLBACK, 0, 0, 0, part.len() as u64],
        Label::Refused(refusal) => [case::REFUSED, refusal.number.into(), 0, 0, 0],
    };
    Outcome::done(&words)
}

/// The words of a count.
pub fn counted(input: &[u8], n: u64) -> Outcome {
    let words = match model::count_true(input, n) {
        Ones::True(count) => [case::READ, 0, 0, count, 0, 0],
        Ones::Refused(Refusal { number, place, cut }) => {
            [case::REFUSED, number.into(), place as u64, 0, cut.is_some().into(), cut.unwrap_or(0) as u64]
        }
    };
    Outcome::done(&words)
}
