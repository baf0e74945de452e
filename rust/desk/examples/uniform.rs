//! `uniform OUT`: writes 60 MB of runs of three kinds that come again and again in one order. In the picture that
//! `menakovitsy annotate --svg` makes of it, docs/uniform.svg, nothing may change from left to right.
//!
//! ```text
//! cargo run --offline -p desk --example uniform -- uniform.rle
//! cargo run --release --offline -p desk -- annotate uniform.rle --svg ../docs/uniform.svg
//! cargo run --release --offline -p desk -- annotate desk/sample/every-kind.rle --svg ../docs/annotate.svg
//! ```
use std::process::ExitCode;
use std::{env, fs};

/// How many bytes there are at least.
pub const LENGTH: usize = 60_000_000;

/// Runs of about a length: 512 rows of 24 bits, 300 of 8 bits, 32 with one step, and five times 300.
pub fn runs() -> Vec<u8> {
    let mut runs = vec![0x6F, 0xFF];
    runs.extend([0x01, 0x23, 0x45].repeat(512));
    runs.extend([0x4F, 0x2B]);
    runs.extend((0..300).map(|row| row as u8));
    runs.extend([0xC0, 0x1F, 0x00, 0xC4, 0xD8, 0x02]);
    runs.extend([0x0A, 0x01, 0x2C]);
    runs
}

#[allow(dead_code)] // a test takes this file in and calls `runs`
fn main() -> ExitCode {
    let Some(out) = env::args_os().nth(1) else {
        eprintln!("usage: uniform OUT");
        return ExitCode::from(2);
    };
    let runs = runs();
    match fs::write(&out, runs.repeat(LENGTH.div_ceil(runs.len()))) {
        Ok(()) => ExitCode::SUCCESS,
        Err(error) => {
            eprintln!("{} cannot be written: {error}", out.to_string_lossy());
            ExitCode::from(2)
        }
    }
}
