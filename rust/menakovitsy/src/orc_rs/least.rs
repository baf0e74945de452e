//! How many bytes a run has at least, by those of its bytes that are there. With the last byte of its header
//! it is how many it has.
//!
//! This says how much is read at a time, and nothing else. What the bytes mean is the proved readers' answer:
//! if a run turns out longer, one byte more is read, and if it is shorter, the others stay for the next.

/// The fewest bytes that a run of integers has, and a run of bytes.
const FEWEST: usize = 2;

/// Of a run of integers.
#[inline]
pub fn run(bytes: &[u8]) -> usize {
    match bytes {
        [first, _, ..] if first >> 6 == 0 => FEWEST + usize::from(first >> 3 & 7),
        [first, _, rest @ ..] => {
            let rows = rows(bytes);
            let code = first >> 1 & 31;
            FEWEST
                + match first >> 6 {
                    1 => block(rows, width(code)),
                    2 => patched(rows, width(code), rest),
                    _ => delta(rows, code, rest),
                }
        }
        _ => FEWEST,
    }
}

/// How many rows a run of integers has.
pub fn rows(bytes: &[u8]) -> usize {
    match bytes {
        [first, ..] if first >> 6 == 0 => 3 + usize::from(first & 7),
        [first, second, ..] => 1 + (usize::from(first & 1) << 8 | usize::from(*second)),
        _ => 0,
    }
}

/// Of a run of bytes.
pub fn byte_run(bytes: &[u8]) -> usize {
    match bytes {
        [control, ..] if *control >= 128 => 1 + literals(*control),
        _ => FEWEST,
    }
}

/// How many flags a run of bytes stands for. (One that is not there would stand for some.)
pub fn flags(bytes: &[u8]) -> usize {
    8 * match bytes {
        [control, ..] if *control >= 128 => literals(*control),
        [control, ..] => 3 + usize::from(*control),
        [] => 1,
    }
}

fn literals(control: u8) -> usize {
    256 - usize::from(control)
}

/// A patched run after its first two bytes: the widths, the base, the rows and the list.
fn patched(rows: usize, bits: usize, rest: &[u8]) -> usize {
    let [widths, gaps, ..] = rest else { return 2 };
    let base = 1 + usize::from(widths >> 5);
    let entry = width(widths & 31) + 1 + usize::from(gaps >> 5);
    if entry > 64 {
        return 2;
    }
    2 + base + block(rows, bits) + block(usize::from(gaps & 31), next_width(entry))
}

/// A delta run after its first two bytes: two varints, and the steps after the first.
fn delta(rows: usize, code: u8, rest: &[u8]) -> usize {
    let Some(first) = varint(rest) else { return rest.len() + 2 };
    let Some(second) = varint(rest.get(first..).unwrap_or_default()) else { return rest.len() + 1 };
    let steps = if code == 0 { 0 } else { block(rows.saturating_sub(2), width(code)) };
    first + second + steps
}

/// How many bytes a varint has, if its last is there.
fn varint(bytes: &[u8]) -> Option<usize> {
    bytes
        .iter()
        .take(10)
        .position(|byte| *byte < 128)
        .map(|last| last + 1)
        .or((bytes.len() >= 10).then_some(10))
}

fn block(fields: usize, bits: usize) -> usize {
    (fields * bits).div_ceil(8)
}

/// The width of a code, in bits.
fn width(code: u8) -> usize {
    match usize::from(code) {
        code @ 0..=23 => code + 1,
        code @ 24..=26 => 2 * code - 22,
        code => 8 * (code - 23),
    }
}

/// The next width that a code has.
fn next_width(bits: usize) -> usize {
    match bits {
        0..=24 => bits,
        25..=30 => bits.next_multiple_of(2),
        _ => bits.next_multiple_of(8),
    }
}
