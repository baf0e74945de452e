//! `runs_list FOLDER`: writes the sample of the program, FOLDER/stdin and FOLDER/stdout.
//!
//! The answers are the model's, which is an independent reading of the rules: nothing of ours is
//! asked. The input is several blocks long, and wherever a block ends a line goes on after it.
//!
//! ```text
//! cargo run --offline -p differential --no-default-features --bin runs_list -- ../crates/runs
//! ```
use std::path::Path;
use std::process::ExitCode;
use std::{env, fs};

use differential::tally::Hex;
use differential::{frames, program};
use model::random::Random;

/// The README's lines, each refusal, and lines that are bad.
const SHORT: [&str; 54] = [
    "000A012C",
    "0046021230",
    "0086031F21",
    "01",
    "zz",
    "000A012C\r",
    "",
    "000A012",
    "020A012C",
    "FF0A012C",
    "000A012Cg0",
    "000A012C@0",
    "000A012C/0",
    "000A012C:0",
    "000A012C`0",
    "000A012CG0",
    " 000A012C",
    "0",
    "00",
    "000a012c",
    "000A012Cff",
    "010A012C",
    "010001",
    "0146021230",
    "00700000000040",
    "00C0040A04",
    "00C603640514",
    "00C0000700",
    "01C001FEFFFFFFFFFFFFFFFF0102",
    "007E00FFFFFFFFFFFFFFFF",
    "017E00FFFFFFFFFFFFFFFF",
    "017E00FFFFFFFFFFFFFFFE",
    "008603032164123494",
    "018603032164123494",
    "0086030320E41234",
    "0186030320e41234",
    "0046",
    "00860303",
    "00C0",
    "0086031F21",
    "00BE030001",
    "00C200",
    "00C000FFFFFFFFFFFFFFFFFFFF",
    "00C000FFFFFFFFFFFFFFFFFF",
    "000A01",
    "004602",
    "00860303416412348A",
    "01C1FFFFFFFFFFFFFFFFFFFF0100",
    "01c1ffffffffffffffffffff0100",
    "00B4011C010A0000000400000020010000000003",
    "00B4011C010A0000000400000020010400000000",
    "01B4011C000A0000000400000020",
    "00C0008080808080808080800100",
    "00C000FFFFFFFFFFFFFFFFFF7F00",
];

/// The most that the program holds of a line, and how much it reads after that: as much as its array has
/// places where a file gives it all that it asks, and what a pipe has in it at most.
const HELD: usize = 8_801;
const PLACES: usize = HELD + 65_536;
const PIPE: usize = 65_536;

/// A line of that many characters that is hexadecimal throughout: a run of 512 rows of 64 bits, and bytes
/// after it, which are not read. It is a good line where there are 8,800 at most, and an even number.
fn long(characters: usize, random: &mut Random) -> String {
    let mut frame = vec![1];
    frame.extend(frames::direct(31, 512, random));
    while 2 * frame.len() < characters {
        frame.push(random.byte());
    }
    Hex(&frame).to_string()[..characters].to_owned()
}

/// Lines of any frames, as many as come up to that length of the input.
fn fill(input: &mut String, end: usize, random: &mut Random) {
    while input.len() < end {
        let frame = frames::any_frame(random);
        *input += &format!("{:02x}{}\n", random.below(2), Hex(&frame));
    }
}

fn list() -> String {
    let mut random = Random::new(5);
    let mut input: String = SHORT.map(|line| format!("{line}\n")).concat();
    let line = |input: &mut String, characters| *input += &(long(characters, &mut Random::new(3)) + "\n");
    // At the limit, on both sides of it.
    for characters in [8_799, 8_800, 8_801, 8_802] {
        line(&mut input, characters);
    }
    // Good lines of the most characters, about the end of the first block of a pipe and of a file.
    fill(&mut input, PIPE - 4_000, &mut random);
    line(&mut input, 8_800);
    fill(&mut input, PLACES - 3_000, &mut random);
    line(&mut input, 8_800);
    // Bad ones that begin in one block and end in another, the last with a whole block inside it.
    fill(&mut input, 2 * PIPE - 12_000, &mut random);
    line(&mut input, 26_001);
    line(&mut input, 80_000);
    fill(&mut input, 4 * PIPE - 2_000, &mut random);
    line(&mut input, 8_798);
    input + "000A012C"
}

/// Where the blocks end, if as many bytes as that come at most.
fn block_ends(input: &[u8], most: usize) -> Vec<usize> {
    let (mut ends, mut end, mut held) = (Vec::new(), 0, 0);
    while end < input.len() {
        end = input.len().min(end + most.min(PLACES - held));
        let line = input[..end].iter().rposition(|byte| *byte == b'\n').map_or(0, |newline| newline + 1);
        held = HELD.min(end - line);
        ends.push(end);
    }
    ends
}

fn main() -> ExitCode {
    let Some(folder) = env::args().nth(1) else {
        eprintln!("usage: runs_list FOLDER");
        return ExitCode::from(2);
    };
    let input = list();
    for most in [PIPE, PLACES] {
        let ends = block_ends(input.as_bytes(), most);
        assert!(ends.len() > 3, "{} blocks only", ends.len());
        for end in ends {
            assert!(!input[..end].ends_with('\n'), "no line across the block's end at {end}");
        }
    }
    let text = program::text(input.as_bytes());
    for (name, text) in [("stdin", input.into_bytes()), ("stdout", text)] {
        if let Err(error) = fs::write(Path::new(&folder).join(name), text) {
            eprintln!("{folder}/{name}: {error}");
            return ExitCode::from(2);
        }
    }
    ExitCode::SUCCESS
}
