//! Files that list row groups, a line each.
use std::fs;
use std::path::Path;

use menakovitsy::{ByteOffset, Group, PositionedGroup, RowNumber, RowPosition};

use super::options::Form;
use crate::ended::Failure;

/// The groups of a file.
pub enum List {
    Groups(Vec<Group>),
    Positions(Vec<PositionedGroup>),
}

impl List {
    pub fn read(path: &Path, form: Form) -> Result<Self, Failure> {
        Ok(match form {
            Form::Groups => {
                let lines = numbers(path, "two numbers are wanted, a group's start and its rows")?;
                let group =
                    |[start, rows]: [usize; 2]| Group { start: ByteOffset(start), rows: RowNumber(rows) };
                List::Groups(lines.into_iter().map(group).collect())
            }
            Form::Positions => {
                let wanted =
                    "three numbers are wanted, the byte of a run, the rows to skip from there, and the \
                              group's rows";
                List::Positions(numbers(path, wanted)?.into_iter().map(positioned).collect())
            }
        })
    }
}

fn positioned([run, skip, rows]: [usize; 3]) -> PositionedGroup {
    let position = RowPosition { run: ByteOffset(run), skip: RowNumber(skip) };
    PositionedGroup { position, rows: RowNumber(rows) }
}

/// The numbers of each line that is not empty, as many as are wanted.
fn numbers<const N: usize>(path: &Path, wanted: &str) -> Result<Vec<[usize; N]>, Failure> {
    let name = path.to_string_lossy();
    let text = fs::read_to_string(path).map_err(Failure::unreadable(&name))?;
    let read = |line: &str| {
        let numbers: Vec<usize> =
            line.split_ascii_whitespace().map(str::parse).collect::<Result<_, _>>().ok()?;
        numbers.try_into().ok()
    };
    let lines = text.lines().enumerate().filter(|(_, line)| !line.trim().is_empty());
    let told = |number: usize| Failure::Told(format!("{name}, line {}: {wanted}", number + 1));
    lines.map(|(number, line)| read(line).ok_or_else(|| told(number))).collect()
}

/// Groups by their starts, a line each.
pub fn group_lines(groups: &[Group]) -> String {
    groups.iter().map(|Group { start, rows }| format!("{start} {rows}\n")).collect()
}

/// Groups by their positions, a line each.
pub fn position_lines(groups: &[PositionedGroup]) -> String {
    let line = |PositionedGroup { position, rows }: &PositionedGroup| {
        format!("{} {} {rows}\n", position.run, position.skip)
    };
    groups.iter().map(line).collect()
}
