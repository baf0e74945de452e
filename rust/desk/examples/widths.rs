//! `widths OUT`: writes the sample of `menakovitsy convert`, a column with runs of every width, direct and
//! packed delta, and with runs that are only copied.
//!
//! ```text
//! cargo run --offline -p desk --example widths -- desk/sample/every-width.rle
//! ```
use std::process::ExitCode;
use std::{env, fs};

/// The widths of the codes, in bits.
const WIDTHS: [usize; 32] = [
    1, 2, 3, 4, 5, 6, 7, 8, 9, 10, 11, 12, 13, 14, 15, 16, 17, 18, 19, 20, 21, 22, 23, 24, 26, 28, 30, 32,
    40, 48, 56, 64,
];

/// Runs that are copied, whatever their widths: a short repeat, a delta with one step, a patched run whose
/// values have 30 bits.
const COPIED: [&[u8]; 3] = [
    &[0x0A, 0x01, 0x2C],
    &[0xC0, 0x04, 0x0A, 0x04],
    &[0xB4, 0x01, 0x1C, 0x01, 0x0A, 0, 0, 0, 0x04, 0, 0, 0, 0x20, 0x01, 0, 0, 0, 0, 0x03],
];

/// A delta of two rows, 5 and 7, at 3 bits: it has no packed block, and is altered all the same.
const TWO_ROWS: &[u8] = &[0xC4, 0x01, 0x05, 0x04];

/// Fields of a width, packed from the highest bit of each byte on.
fn packed(fields: &[u64], width: usize) -> Vec<u8> {
    let mut bytes = vec![0; (fields.len() * width).div_ceil(8)];
    for (place, field) in fields.iter().enumerate() {
        for bit in 0..width {
            let at = place * width + bit;
            bytes[at / 8] |= ((field >> (width - 1 - bit) & 1) as u8) << (7 - at % 8);
        }
    }
    bytes
}

/// Eight numbers of a width, the largest among them.
fn fields(width: usize) -> [u64; 8] {
    let most = u64::MAX >> (64 - width);
    [1, most, 0, most / 3, most / 2, most - most / 5, most / 7, 1]
}

/// The sample's bytes.
pub fn bytes() -> Vec<u8> {
    let mut bytes = COPIED.concat();
    for (code, width) in WIDTHS.into_iter().enumerate() {
        bytes.extend([0x40 | (code << 1) as u8, 7]);
        bytes.extend(packed(&fields(width), width));
        // Ten rows from 100 on, the first step 1: a width of one bit has no code of its own here.
        if code > 0 {
            bytes.extend([0xC0 | (code << 1) as u8, 9, 100, 2]);
            bytes.extend(packed(&fields(width), width));
        }
    }
    bytes.extend(TWO_ROWS);
    bytes
}

#[allow(dead_code)] // tests take this file in and call `bytes`
fn main() -> ExitCode {
    let Some(out) = env::args_os().nth(1) else {
        eprintln!("usage: widths OUT");
        return ExitCode::from(2);
    };
    match fs::write(&out, bytes()) {
        Ok(()) => ExitCode::SUCCESS,
        Err(error) => {
            eprintln!("{} cannot be written: {error}", out.to_string_lossy());
            ExitCode::from(2)
        }
    }
}
