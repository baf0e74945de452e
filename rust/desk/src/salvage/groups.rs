//! `--groups`: groups that begin where runs begin, kept byte for byte.
use menakovitsy::{salvage, Group, Refusal, Refused, RowNumber, Sign};

use super::lists::group_lines;
use super::Salvage;

pub fn salvaged(input: &[u8], groups: &[Group], fill: i64, sign: Sign) -> Result<Salvage, Refused> {
    let salvaged = salvage(input, groups, fill, sign)?;
    let total: RowNumber = groups.iter().map(|group| group.rows).sum();
    let lost: RowNumber =
        salvaged.replaced().filter_map(|number| groups.get(number)).map(|group| group.rows).sum();
    Ok(Salvage {
        new_positions: group_lines(&salvaged.groups),
        kept_rows: total - lost,
        lost_rows: lost,
        replaced_groups: salvaged.replaced().count(),
        bytes: salvaged.bytes,
        report: salvaged.report,
    })
}

pub fn advice(refusal: Refusal, length: usize) -> String {
    match refusal {
        Refusal::WrongStarts => format!(
            "the starts must begin at 0, rise from line to line, and none may be above {length}, the length of \
             the stream: compare the groups with the file's index, and the stream's length with the file's. \
             Groups that begin inside runs, several at one byte, are listed for --positions"
        ),
        Refusal::TooFewPlaces => {
            "the groups that are not good list more rows than there is room for: a count of theirs is wrong. \
             Compare them with the file's index"
                .into()
        }
        other => other.advice().into(),
    }
}
