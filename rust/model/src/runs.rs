//! The run reader.
use crate::bits::{zigzag, Bits, Varint, WIDTHS};
use crate::{rest, Answer, Kind, Refusal, Run};

/// Reads the run at a position, with that many places lent.
pub fn read_run(input: &[u8], at: usize, signed: bool, places: usize) -> Answer {
    let rest = rest(input, at);
    if rest.is_empty() {
        return Answer::End;
    }
    match run(rest, signed) {
        Ok(run) if run.rows.len() > places => Answer::Refused(Refusal::whole(8, at)),
        Ok(run) => Answer::Run(run),
        Err(fault) => Answer::Refused(fault.at(at)),
    }
}

/// What is wrong with a run: the refusal's number and, where a field of it is cut, how many bytes of
/// the run stand before that field.
struct Fault {
    number: u8,
    cut: Option<usize>,
}

impl Fault {
    fn of(number: u8) -> Self {
        Fault { number, cut: None }
    }

    /// The refusal of a run that begins at a byte.
    fn at(self, place: usize) -> Refusal {
        Refusal { number: self.number, place, cut: self.cut.map(|before| place + before) }
    }
}

/// Takes a field that begins here, with the number for the case that it is cut.
fn field<T>(bits: &mut Bits, number: u8, take: impl FnOnce(&mut Bits) -> Option<T>) -> Result<T, Fault> {
    let begins = bits.bytes();
    take(bits).ok_or(Fault { number, cut: Some(begins) })
}

/// A number of the fixed header, all of which is there.
fn of_header(bits: &mut Bits, width: usize) -> usize {
    bits.number(width).expect("the header is all there") as usize
}

/// Reads what follows the two bits of the kind, under a flag: the width of the values in bits, and the
/// rows.
type Layout = fn(&mut Bits, bool) -> Result<(usize, Vec<i64>), Fault>;

/// The run at the start of some bytes, of which there is one.
fn run(bytes: &[u8], signed: bool) -> Result<Run, Fault> {
    let mut bits = Bits::new(bytes);
    let (kind, header, layout): (Kind, usize, Layout) = match of_header(&mut bits, 2) {
        0 => (Kind::ShortRepeat, 1, short_repeat),
        1 => (Kind::Direct, 2, direct),
        2 => (Kind::PatchedBase, 4, patched_base),
        _ => (Kind::Delta, 2, delta),
    };
    if bytes.len() < header {
        return Err(Fault::of(1));
    }
    let (width, rows) = layout(&mut bits, signed)?;
    Ok(Run { kind, width, rows, consumed: bits.bytes() })
}

/// A number as a row: zigzag decoded if signed, otherwise the i64 with the same bits.
fn row(number: u64, signed: bool) -> i64 {
    if signed {
        zigzag(number)
    } else {
        number as i64
    }
}

/// The five bits of a width code, and the nine bits of rows - 1.
fn code_and_rows(bits: &mut Bits) -> (usize, usize) {
    (of_header(bits, 5), of_header(bits, 9) + 1)
}

/// "2 bits kind, 3 bits size-1, 3 bits count-3. Then size bytes."
fn short_repeat(bits: &mut Bits, signed: bool) -> Result<(usize, Vec<i64>), Fault> {
    let size = of_header(bits, 3) + 1;
    let count = of_header(bits, 3) + 3;
    let value = field(bits, 6, |bits| bits.number(8 * size))?;
    Ok((8 * size, vec![row(value, signed); count]))
}

/// "2 bits kind, 5 bits width code, 9 bits rows-1", then the packed rows.
fn direct(bits: &mut Bits, signed: bool) -> Result<(usize, Vec<i64>), Fault> {
    let (code, rows) = code_and_rows(bits);
    let block = field(bits, 13, |bits| bits.block(rows, WIDTHS[code]))?;
    Ok((WIDTHS[code], block.into_iter().map(|number| row(number, signed)).collect()))
}

/// A varint: 12 where it is cut, 5 where its tenth byte is above 1.
fn varint(bits: &mut Bits) -> Result<u64, Fault> {
    match field(bits, 12, |bits| bits.varint())? {
        Varint::Number(number) => Ok(number),
        Varint::TooMuch => Err(Fault::of(5)),
    }
}

/// "First row as a varint (zigzag if signed), then the base delta as a zigzag varint always."
fn delta(bits: &mut Bits, signed: bool) -> Result<(usize, Vec<i64>), Fault> {
    let (code, count) = code_and_rows(bits);
    if code != 0 && count == 1 {
        return Err(Fault::of(4));
    }
    let first = row(varint(bits)?, signed);
    let base = zigzag(varint(bits)?);
    let mut rows = vec![first];
    if code == 0 {
        while rows.len() < count {
            rows.push(rows[rows.len() - 1].wrapping_add(base));
        }
        return Ok((0, rows));
    }
    rows.push(first.wrapping_add(base));
    for magnitude in field(bits, 13, |bits| bits.block(count - 2, WIDTHS[code]))? {
        let before = rows[rows.len() - 1];
        rows.push(match base < 0 {
            true => before.wrapping_sub(magnitude as i64),
            false => before.wrapping_add(magnitude as i64),
        });
    }
    Ok((WIDTHS[code], rows))
}

/// An entry of a patch list.
struct Entry {
    gap: u64,
    patch: u64,
}

impl Entry {
    /// "An entry with gap 255 and patch 0 is a skip."
    fn is_skip(&self) -> bool {
        self.gap == 255 && self.patch == 0
    }
}

/// A patched run as it is laid out.
struct Patched {
    width: usize,
    base: i64,
    values: Vec<u64>,
    list: Vec<Entry>,
}

fn patched(bits: &mut Bits) -> Result<Patched, Fault> {
    let (code, rows) = code_and_rows(bits);
    let width = WIDTHS[code];
    let base_bytes = of_header(bits, 3) + 1;
    let patch_width = WIDTHS[of_header(bits, 5)];
    let gap_width = of_header(bits, 3) + 1;
    let entries = of_header(bits, 5);
    if patch_width + gap_width > 64 {
        return Err(Fault::of(2));
    }
    // "Top bit is the sign, the rest the magnitude."
    let sign_first = |bits: &mut Bits| Some((bits.number(1)?, bits.number(8 * base_bytes - 1)? as i64));
    let (sign, magnitude) = field(bits, 6, sign_first)?;
    let base = if sign == 1 { -magnitude } else { magnitude };
    let values = field(bits, 13, |bits| bits.block(rows, width))?;
    // "Packed at the least table width that holds patch width + gap width."
    let holds = |bits: &&usize| **bits >= patch_width + gap_width;
    let entry_width = *WIDTHS.iter().find(holds).expect("64 bits hold it");
    let split = |entry: u64| Entry { gap: entry >> patch_width, patch: entry % (1 << patch_width) };
    let list = field(bits, 14, |bits| bits.block(entries, entry_width))?;
    Ok(Patched { width, base, values, list: list.into_iter().map(split).collect() })
}

/// What is wrong with a patch list. Refusal 3 for the first, otherwise 7 if there is any.
#[derive(Debug, Clone, Copy, Default, PartialEq, Eq)]
pub struct Faults {
    /// "A non-skip patch of 2^(64-W) or more", wherever its place is.
    pub too_large: bool,
    /// The last entry is a skip.
    pub last_skip: bool,
    /// Two entries that are no skips share a place.
    pub shared: bool,
    /// The place of an entry that is no skip is L or more.
    pub outside: bool,
}

impl Faults {
    fn refused(self) -> Result<(), Fault> {
        if self.too_large {
            return Err(Fault::of(3));
        }
        if self.last_skip || self.shared || self.outside {
            return Err(Fault::of(7));
        }
        Ok(())
    }
}

/// The entries' places ("the whole-number sum of all gaps up to its own"), skips left out, and the
/// list's faults.
fn places(run: &Patched) -> (Vec<(u128, u64)>, Faults) {
    let mut faults = Faults { last_skip: run.list.last().is_some_and(Entry::is_skip), ..Faults::default() };
    let limit = 1u128 << (64 - run.width);
    let mut patches: Vec<(u128, u64)> = Vec::new();
    let mut place: u128 = 0;
    for entry in &run.list {
        place += u128::from(entry.gap);
        if entry.is_skip() {
            continue;
        }
        faults.too_large |= u128::from(entry.patch) >= limit;
        faults.shared |= patches.iter().any(|(earlier, _)| *earlier == place);
        faults.outside |= place >= run.values.len() as u128;
        patches.push((place, entry.patch));
    }
    (patches, faults)
}

/// "Rows are base + (value or patch·2^W), modulo 2^64, with no zigzag under either flag."
fn patched_base(bits: &mut Bits, _signed: bool) -> Result<(usize, Vec<i64>), Fault> {
    let run = patched(bits)?;
    let (patches, faults) = places(&run);
    faults.refused()?;
    let mut values: Vec<u128> = run.values.iter().map(|value| u128::from(*value)).collect();
    for (place, patch) in patches {
        values[place as usize] |= u128::from(patch) << run.width;
    }
    Ok((run.width, values.into_iter().map(|value| run.base.wrapping_add(value as i64)).collect()))
}

/// The faults of the patch list of a patched run at the start of some bytes, where the run is whole
/// and its list's entries have at most 64 bits.
pub fn list_faults(bytes: &[u8]) -> Option<Faults> {
    let mut bits = Bits::new(bytes);
    if bytes.len() < 4 || bits.number(2) != Some(2) {
        return None;
    }
    patched(&mut bits).ok().map(|run| places(&run).1)
}
