//! The run writer.
use crate::bits::{Put, WIDTHS};
use crate::{Info, Kind, Refusal};

/// The form that rows are written in.
#[derive(Debug, Clone, Copy, PartialEq, Eq, Hash)]
pub enum Form {
    ShortRepeat,
    Direct,
    FixedDelta,
    PackedDelta,
}

/// "The specification keeps widths 1, 2, 4, 8, 16, 24, 32, 40, 48, 56 and 64."
pub const KEPT: [usize; 11] = [1, 2, 4, 8, 16, 24, 32, 40, 48, 56, 64];

/// What the writer answers, with the bytes that it writes.
#[derive(Debug, Clone, PartialEq, Eq)]
pub enum Written {
    Run { kind: Kind, width: usize, rows: usize, bytes: Vec<u8> },
    Refused(Refusal),
}

impl Written {
    /// What the answer says beside the bytes.
    pub fn info(&self) -> Option<Info> {
        let Written::Run { kind, width, rows, bytes } = self else { return None };
        Some(Info { kind: *kind, width: *width, rows: *rows, bytes: bytes.len() })
    }
}

/// Writes rows, with that many places lent. "Writing order: 9, 10, 11, 8."
pub fn write_run(rows: &[i64], signed: bool, form: Form, width: u8, places: usize) -> Written {
    let refused = |number| Written::Refused(Refusal::whole(number, 0));
    match layout(rows, signed, form, usize::from(width)) {
        Ok((_, _, bytes)) if bytes.len() > places => refused(8),
        Ok((kind, width, bytes)) => Written::Run { kind, width, rows: rows.len(), bytes },
        Err(number) => refused(number),
    }
}

/// The run's kind, the width of its values in bits, and its bytes; or the refusal's number.
fn layout(rows: &[i64], signed: bool, form: Form, width: usize) -> Result<(Kind, usize, Vec<u8>), u8> {
    allowed(rows, form, width)?;
    let mut put = Put::default();
    let (kind, bits) = match form {
        Form::ShortRepeat => {
            put.number(0, 2);
            put.number(width as u64 - 1, 3);
            put.number(rows.len() as u64 - 3, 3);
            put_fields(&mut put, &[number(rows[0], signed)], 8 * width)?;
            (Kind::ShortRepeat, 8 * width)
        }
        Form::Direct => {
            put.header(1, width, rows.len());
            let fields: Vec<u64> = rows.iter().map(|row| number(*row, signed)).collect();
            put_fields(&mut put, &fields, WIDTHS[width])?;
            (Kind::Direct, WIDTHS[width])
        }
        Form::FixedDelta | Form::PackedDelta => {
            put.header(3, width, rows.len());
            put.varint(number(rows[0], signed));
            // "The base delta being row 1 - row 0 modulo 2^64 read as i64"; "one row writes delta 0".
            let base = steps(rows).first().map_or(0, |step| *step as i64);
            put.varint(number(base, true));
            if form == Form::PackedDelta {
                let toward = |step: u64| if base < 0 { step.wrapping_neg() } else { step };
                let magnitudes: Vec<u64> = steps(rows)[1..].iter().map(|step| toward(*step)).collect();
                put_fields(&mut put, &magnitudes, WIDTHS[width])?;
            }
            (Kind::Delta, if form == Form::PackedDelta { WIDTHS[width] } else { 0 })
        }
    };
    Ok((kind, bits, put.bytes()))
}

/// Refusal 9 for a row count that the form does not allow, then 10 for rows that do not have the form
/// or a width that is not one of the form's.
fn allowed(rows: &[i64], form: Form, width: usize) -> Result<(), u8> {
    let (counts, widths) = match form {
        Form::ShortRepeat => (3..=10, 1..=8),
        Form::Direct => (1..=512, 0..=31),
        Form::FixedDelta => (1..=512, 0..=0),
        Form::PackedDelta => (2..=512, 1..=31),
    };
    let has_form = match form {
        Form::ShortRepeat => rows.windows(2).all(|two| two[0] == two[1]),
        Form::FixedDelta => steps(rows).windows(2).all(|two| two[0] == two[1]),
        Form::Direct | Form::PackedDelta => true,
    };
    if !counts.contains(&rows.len()) {
        return Err(9);
    }
    if !has_form || !widths.contains(&width) {
        return Err(10);
    }
    // "Direct and packed delta refuse such a code": one of a width that is not kept.
    if matches!(form, Form::Direct | Form::PackedDelta) && !KEPT.contains(&WIDTHS[width]) {
        return Err(10);
    }
    Ok(())
}

/// From each row to the next, modulo 2^64.
pub(crate) fn steps(rows: &[i64]) -> Vec<u64> {
    rows.windows(2).map(|two| two[1].wrapping_sub(two[0]) as u64).collect()
}

/// The number that stands for a row: zigzagged if signed.
pub(crate) fn number(row: i64, signed: bool) -> u64 {
    let row = i128::from(row);
    match (signed, row < 0) {
        (true, true) => (-2 * row - 1) as u64,
        (true, false) => (2 * row) as u64,
        (false, _) => row as u64,
    }
}

/// Packed fields. Refusal 11 if one needs more bits than the width.
fn put_fields(put: &mut Put, fields: &[u64], width: usize) -> Result<(), u8> {
    if fields.iter().any(|field| needs(*field) > width) {
        return Err(11);
    }
    for field in fields {
        put.number(*field, width);
    }
    Ok(())
}

/// How many bits a number needs. "0 needs one bit."
fn needs(number: u64) -> usize {
    let mut bits = 1;
    while u128::from(number) >= 1u128 << bits {
        bits += 1;
    }
    bits
}

/// The code and the bits of the narrowest kept width that has that many bits.
pub fn next_kept_code(bits: usize) -> (usize, usize) {
    let width = *KEPT.iter().find(|width| **width >= bits).expect("64 bits hold it");
    (WIDTHS.iter().position(|other| *other == width).expect("a width of the table"), width)
}

/// The narrowest width code that holds a number: "the narrowest-width helper answers the next kept
/// width".
pub fn narrowest_code(number: u64) -> u8 {
    next_kept_code(needs(number)).0 as u8
}
