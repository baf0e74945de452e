//! All labels in one pass.
use crate::Refusal;

/// A dictionary of which the block's length alone is known, and a column of names.
#[derive(Debug, Clone, Copy)]
pub struct Names<'a> {
    pub flags: &'a [u8],
    pub numbers: &'a [i64],
    pub lengths: &'a [i64],
    pub block_length: u64,
}

/// Where a name begins in the block, and its length.
#[derive(Debug, Clone, Copy, PartialEq, Eq)]
pub struct Part {
    pub start: u64,
    pub size: u64,
}

/// What all labels in one pass answer.
#[derive(Debug, Clone, PartialEq, Eq)]
pub enum Labels {
    /// "`offsets[j]` is where name j begins"; and the part of each row, "0 and 0 without a name".
    Given { offsets: Vec<u64>, parts: Vec<Part> },
    /// "The refusal's place is 0; 19 also names the first such row."
    Refused { refusal: Refusal, row: Option<u64> },
}

/// How many places are lent for the offsets, the starts and the sizes.
#[derive(Debug, Clone, Copy)]
pub struct LabelPlaces {
    pub offsets: usize,
    pub starts: usize,
    pub sizes: usize,
}

/// The labels of all rows: 18, then 19, then 8.
pub fn label_column(names: Names, places: LabelPlaces) -> Labels {
    let Names { flags, numbers, lengths, block_length } = names;
    let refused = |number, row| Labels::Refused { refusal: Refusal::whole(number, 0), row };
    // Whole numbers, not modulo 2^64; "also if there is no row".
    let total: i128 = lengths.iter().map(|length| i128::from(*length)).sum();
    if lengths.iter().any(|length| *length < 0) || total != i128::from(block_length) {
        return refused(18, None);
    }
    // No length is below 0 and they add up to a u64, so each sum is one.
    let begins = |name: usize| lengths[..name].iter().map(|length| *length as u64).sum::<u64>();
    let mut parts = Vec::new();
    let mut entries = numbers.iter();
    for (row, flag) in flags.iter().enumerate() {
        // "A flag byte other than 0 means a name."
        if *flag == 0 {
            parts.push(Part { start: 0, size: 0 });
            continue;
        }
        // "19 if some named row has no number or one outside the dictionary."
        let inside = |number: &&i64| (0..lengths.len() as i128).contains(&i128::from(**number));
        let Some(number) = entries.next().filter(inside) else {
            return refused(19, Some(row as u64));
        };
        let name = *number as usize;
        parts.push(Part { start: begins(name), size: lengths[name] as u64 });
    }
    let few = places.offsets < lengths.len() || places.starts < flags.len() || places.sizes < flags.len();
    if few {
        return refused(8, None);
    }
    Labels::Given { offsets: (0..lengths.len()).map(begins).collect(), parts }
}
