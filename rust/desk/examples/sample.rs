//! `sample OUT`: writes the sample of `menakovitsy annotate`, a column of sample offsets and counts with
//! runs of every kind and a damaged end, from bytes that were chosen by hand.
//!
//! ```text
//! cargo run --offline -p desk --example sample -- desk/sample/every-kind.rle
//! ```
use std::process::ExitCode;
use std::{env, fs};

/// A run a line, from the layouts of FORMAT.md and the examples of the ORC specification.
const RUNS: [&str; 11] = [
    // Delta with one step: 32 windows of half a second, 22,050 samples each, from 0 on.
    "C0 1F 00 C4 D8 02",
    // Short repeats: five times 300 in two bytes, ten times 42 in one.
    "0A 01 2C",
    "07 2A",
    // Direct: 4 rows of 16 bits, 3 of 4 bits, 8 of 24 bits (seconds, in samples).
    "5E 03 5C A1 AB 1E DE AD BE EF",
    "46 02 12 30",
    "6E 07 00 AC 44 01 58 88 02 04 CC 02 B1 10 03 5D 54 04 09 98 04 B5 DC 05 62 20",
    // Patched base: 20 rows of 8 bits, one of them patched to 1,000,000.
    "8E 13 2B 21 07 D0 1E 00 14 70 28 32 3C 46 50 5A 64 6E 78 82 8C 96 A0 AA B4 BE FC E8",
    // Delta with packed steps: the first ten primes, 4 bits.
    "C6 09 02 02 22 42 42 46",
    // Patched base: 2 rows of 30 bits under a patch field of 40.
    "B4 01 1C 01 0A 00 00 00 04 00 00 00 20 01 00 00 00 00 03",
    // Direct: 2 rows of 64 bits.
    "7E 01 00 00 00 00 00 00 00 01 7F FF FF FF FF FF FF FF",
    // The patched run from above again, without its last byte: the patch list is cut.
    "8E 13 2B 21 07 D0 1E 00 14 70 28 32 3C 46 50 5A 64 6E 78 82 8C 96 A0 AA B4 BE FC",
];

/// The sample's bytes.
pub fn bytes() -> Vec<u8> {
    let bytes = RUNS.iter().flat_map(|run| run.split(' '));
    bytes.map(|byte| u8::from_str_radix(byte, 16).expect("a byte in hexadecimal")).collect()
}

#[allow(dead_code)] // a test takes this file in and calls `bytes`
fn main() -> ExitCode {
    let Some(out) = env::args_os().nth(1) else {
        eprintln!("usage: sample OUT");
        return ExitCode::from(2);
    };
    match fs::write(&out, bytes()) {
        Ok(()) => ExitCode::SUCCESS,
        Err(error) => {
            eprintln!("{} cannot be written: {error}", out.to_string_lossy());
            ExitCode::from(2)
        }
    }
}
