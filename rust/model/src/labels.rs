//! Labels from an ORC dictionary (FORMAT.md, "Labels").
use crate::Refusal;

/// A dictionary and a column of names: "one byte block, a column of lengths, a column of numbers, and a
/// boolean column saying which rows have a name".
#[derive(Debug, Clone, Copy)]
pub struct Dictionary<'a> {
    pub block: &'a [u8],
    pub lengths: &'a [i64],
    pub numbers: &'a [i64],
    pub flags: &'a [u8],
}

/// What asking for a row's label answers, with the part that it hands back.
#[derive(Debug, Clone, Copy, PartialEq, Eq)]
pub enum Label<'a> {
    /// A part of the dictionary.
    Name(&'a [u8]),
    /// The caller's own fallback.
    Fallback(&'a [u8]),
    Refused(Refusal),
}

/// The label of a row. "Refusals: 16 no such row; 18 lengths below 0 or not adding up to the block; 19
/// number outside the dictionary or a missing entry; in that order, 18 for every row, named or not."
pub fn label<'a>(row: u64, dictionary: Dictionary<'a>, fallback: &'a [u8]) -> Label<'a> {
    let Dictionary { block, lengths, numbers, flags } = dictionary;
    let refused = |number| Label::Refused(Refusal::whole(number, 0));
    if row >= flags.len() as u64 {
        return refused(16);
    }
    // Whole numbers, not modulo 2^64.
    let total: i128 = lengths.iter().map(|length| i128::from(*length)).sum();
    if lengths.iter().any(|length| *length < 0) || total != block.len() as i128 {
        return refused(18);
    }
    // "A flag byte other than 0 means a name."
    let row = row as usize;
    if flags[row] == 0 {
        return Label::Fallback(fallback);
    }
    // "The numbers column has entries only for rows with a name."
    let named_before = flags[..row].iter().filter(|flag| **flag != 0).count();
    let Some(number) = numbers.get(named_before) else {
        return refused(19);
    };
    if !(0..lengths.len() as i128).contains(&i128::from(*number)) {
        return refused(19);
    }
    // "The part of the dictionary that the lengths before it select."
    let number = *number as usize;
    let begins: i64 = lengths[..number].iter().sum();
    Label::Name(&block[begins as usize..(begins + lengths[number]) as usize])
}
