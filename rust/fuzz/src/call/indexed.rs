//! Calls of the index, and what the model answers them.
use differential::stages::index::{Asked, What};
use menakovitsy::exported::{case, ENTRY_WORDS, INDEX_WORDS, ROWS_FROM_WORDS};
use model::{Index, Lookup, Refusal, Rows};

use super::{Lending, Outcome};

/// The function's name, and how many words its answer has.
pub fn function(asked: &Asked) -> (&'static str, usize) {
    match asked.what {
        What::Build(_) => ("orc_build_index", INDEX_WORDS),
        What::LookUp { .. } => ("orc_look_up", ENTRY_WORDS),
        What::ReadFrom { .. } => ("orc_read_from", ROWS_FROM_WORDS),
    }
}

pub fn lending(asked: &Asked) -> Lending<'_> {
    let [first, at, counts] = asked.lent();
    let columns = [first, at, counts, &[], &[]];
    let lending = Lending { input: &asked.input, columns, ..Lending::default() };
    match asked.what {
        What::Build([first, at, counts]) => Lending { lent_columns: [first, at, counts, 0, 0], ..lending },
        What::LookUp { .. } => lending,
        What::ReadFrom { places, .. } => Lending { rows: places, ..lending },
    }
}

/// The words of an index, and what is written of it.
pub fn outcome(asked: &Asked) -> Outcome {
    let (input, columns) = (&asked.input, asked.lent());
    // A refusal's words are those of any answer, as far as they go.
    let refused = |refusal: Refusal| {
        let mut outcome = Outcome::refused(refusal);
        outcome.words.truncate(function(asked).1);
        outcome
    };
    match asked.what {
        What::Build(lent) => match model::build_index(input, lent) {
            Index::Refused(refusal) => refused(refusal),
            Index::Built { entries, rows, bytes } => {
                let column = |of: fn(&model::Entry) -> u64| entries.iter().map(of).collect();
                let [first, at] = [column(|entry| entry.first), column(|entry| entry.at)];
                let columns = [first, at, column(|entry| entry.rows), vec![], vec![]];
                let words = [case::READ, 0, 0, entries.len() as u64, rows, bytes as u64, 0, 0];
                Outcome { columns, ..Outcome::done(&words) }
            }
        },
        What::LookUp { row } => match model::look_up(row, columns, input) {
            Lookup::Refused(refusal) => refused(refusal),
            Lookup::Entry(entry) => Outcome::done(&[case::READ, 0, 0, entry.first, entry.at, entry.rows]),
        },
        What::ReadFrom { row, flag, places } => {
            match model::read_from(row, columns, input, flag != 0, places) {
                Rows::Refused(refusal) => refused(refusal),
                Rows::Given(rows) => {
                    let words = [case::READ, 0, 0, rows.len() as u64];
                    Outcome { rows, ..Outcome::done(&words) }
                }
            }
        }
    }
}
