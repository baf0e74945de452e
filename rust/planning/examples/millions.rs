//! Millions of random columns: whatever the planner proposes is accepted, and never above the direct runs
//! of 64 bits. By the model's sizes, which are those that its writers make; the planner is the linked one
//! with the feature `ours`, and is then compared with the one in Rust, too.
//!
//! `cargo run --release --offline -p planning --features ours --example millions [COLUMNS [SEED]]`
use planning::columns::{stretches, Dice};
use planning::{page, planner, runs};
use std::process::ExitCode;

fn main() -> ExitCode {
    let mut numbers = std::env::args().skip(1).map(|word| word.parse::<u64>().expect("a number"));
    let (count, seed) = (numbers.next().unwrap_or(3_000_000), numbers.next().unwrap_or(1));
    let mut dice = Dice::new(seed);
    let (mut rows, mut segments, mut wrong, mut others) = (0, 0, 0u64, 0u64);
    for turn in 0..count {
        let most = if turn % 50 == 0 { 1500 } else { [2, 12, 40, 120][dice.below(4) as usize] };
        let (column, signed) = (stretches(&mut dice, most), dice.once_in(2));
        let proposal = page::planned(&column, signed);
        let direct = 8 * column.len() + 2 * column.len().div_ceil(512);
        if runs::bytes(&column, signed, &proposal).is_none_or(|bytes| bytes > direct) {
            wrong += 1;
            eprintln!("not accepted, or above direct runs: {column:?}, signed {signed}: {proposal:?}");
        }
        others += u64::from(proposal != planner::proposed(&column, signed));
        (rows, segments) = (rows + column.len(), segments + proposal.len());
    }
    println!("{count} columns, seed {seed}: {rows} rows, {segments} segments");
    println!("{wrong} not accepted or above direct runs, {others} otherwise than the one in Rust");
    if wrong == 0 {
        ExitCode::SUCCESS
    } else {
        ExitCode::FAILURE
    }
}
