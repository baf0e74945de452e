//! `groups FOLDER`: writes the sample of `menakovitsy salvage`, a column of 500 chunk offsets in 20 row groups
//! with a damaged byte (FOLDER/damaged.rle), and the groups (FOLDER/damaged.groups), a line each: the byte
//! that it starts at and its rows. Groups of the same column that begin inside runs are listed by their positions
//! (FOLDER/damaged.positions): the byte of a run, the rows to skip from there, and the rows.
//!
//! ```text
//! cargo run --offline -p desk --example groups -- desk/sample
//! ```
use std::path::Path;
use std::process::ExitCode;
use std::{env, fs};

/// The group that is damaged.
pub const DAMAGED: usize = 7;

/// The groups, and rows in each.
const GROUPS: usize = 20;
const ROWS: i64 = 25;

/// Rows in each group that begins inside a run.
const WIDE: usize = 60;

/// A number as a varint.
fn varint(mut number: u64, run: &mut Vec<u8>) {
    while number >= 128 {
        run.push(number as u8 | 128);
        number >>= 7;
    }
    run.push(number as u8);
}

/// Rows of 24 bits, as they are.
fn direct(rows: &[i64]) -> Vec<u8> {
    let header = vec![0x6E, rows.len() as u8 - 1];
    rows.iter().fold(header, |mut run, row| {
        run.extend(&(*row as u32).to_be_bytes()[1..]);
        run
    })
}

/// A first row and one step.
fn fixed(rows: &[i64]) -> Vec<u8> {
    let mut run = vec![0xC0, rows.len() as u8 - 1];
    varint(rows[0] as u64, &mut run);
    varint(2 * (rows[1] - rows[0]) as u64, &mut run);
    run
}

/// A first row, a first step, and the other steps in 16 bits each.
fn packed(rows: &[i64]) -> Vec<u8> {
    let mut run = fixed(rows);
    run[0] = 0xDE;
    rows.windows(2).skip(1).for_each(|two| run.extend(((two[1] - two[0]) as u16).to_be_bytes()));
    run
}

/// The runs of a group, each with its rows.
fn runs(group: i64) -> Vec<(Vec<u8>, usize)> {
    // Chunks of half a second, some of which begin a little late.
    let begins = |late: i64| -> Vec<i64> {
        (ROWS * group..ROWS * (group + 1)).map(|chunk| 22_050 * chunk + chunk % 7 * late).collect()
    };
    match group % 3 {
        0 => vec![(fixed(&begins(0)), ROWS as usize)],
        1 => vec![(direct(&begins(11)), ROWS as usize)],
        _ => {
            let begins = begins(13);
            let (some, others) = begins.split_at(10);
            vec![(packed(some), some.len()), (direct(others), others.len())]
        }
    }
}

/// The column as it was before the damage, and its groups: the byte that each starts at, and its rows.
pub fn sample() -> (Vec<u8>, Vec<(usize, usize)>) {
    let (mut column, mut groups) = (Vec::new(), Vec::new());
    for group in 0..GROUPS as i64 {
        groups.push((column.len(), ROWS as usize));
        runs(group).into_iter().for_each(|(run, _)| column.extend(run));
    }
    (column, groups)
}

/// The same column in groups of 60 rows, some of which begin inside runs, as a row index lists them: the byte
/// of a run, the rows to skip from there, and the rows.
pub fn positions() -> Vec<[usize; 3]> {
    let (mut at, mut first, mut positions) = (0, 0, Vec::new());
    for (run, rows) in (0..GROUPS as i64).flat_map(runs) {
        let begins = (first..first + rows).filter(|row| row % WIDE == 0);
        positions.extend(begins.map(|row| [at, row - first, WIDE.min(GROUPS * ROWS as usize - row)]));
        (at, first) = (at + run.len(), first + rows);
    }
    positions
}

/// The same with its damaged byte: the group's run says that it has 256 rows, and not 25.
pub fn damaged() -> (Vec<u8>, Vec<(usize, usize)>) {
    let (mut column, groups) = sample();
    column[groups[DAMAGED].0 + 1] = 0xFF;
    (column, groups)
}

/// The groups, a line each.
pub fn lines(groups: &[(usize, usize)]) -> String {
    groups.iter().map(|(start, rows)| format!("{start} {rows}\n")).collect()
}

/// The positions, a line each.
pub fn position_lines(positions: &[[usize; 3]]) -> String {
    positions.iter().map(|[run, skip, rows]| format!("{run} {skip} {rows}\n")).collect()
}

#[allow(dead_code)] // tests take this file in
fn main() -> ExitCode {
    let Some(folder) = env::args_os().nth(1) else {
        eprintln!("usage: groups FOLDER");
        return ExitCode::from(2);
    };
    let (column, groups) = damaged();
    let folder = Path::new(&folder);
    let files = [
        ("damaged.rle", column),
        ("damaged.groups", lines(&groups).into_bytes()),
        ("damaged.positions", position_lines(&positions()).into_bytes()),
    ];
    for (name, bytes) in files {
        if let Err(error) = fs::write(folder.join(name), bytes) {
            eprintln!("{} cannot be written: {error}", folder.join(name).display());
            return ExitCode::from(2);
        }
    }
    ExitCode::SUCCESS
}
