//! Flags and bytes in batches, from positions in byte runs.
use crate::{first_run, read_booleans, rest, Booleans, Refusal};

/// "The byte where a byte run begins, the bytes of what the runs stand for to skip from there, and the
/// bits of the next byte to skip."
#[derive(Debug, Clone, Copy, PartialEq, Eq)]
pub struct FlagPosition {
    pub run: u64,
    pub bytes: u64,
    pub bits: u64,
}

/// The same without bits.
#[derive(Debug, Clone, Copy, PartialEq, Eq)]
pub struct BytePosition {
    pub run: u64,
    pub bytes: u64,
}

/// What reading flags answers: "as 0 and 1", with the position after them.
#[derive(Debug, Clone, PartialEq, Eq)]
pub enum Flags {
    Given { values: Vec<bool>, next: FlagPosition },
    Refused(Refusal),
}

/// What reading bytes answers.
#[derive(Debug, Clone, PartialEq, Eq)]
pub enum Bytes {
    Given { values: Vec<u8>, next: BytePosition },
    Refused(Refusal),
}

/// What the byte runs of a number of booleans stand for.
struct Runs {
    /// Where each run begins, and its bytes.
    read: Vec<(u64, Vec<u8>)>,
    /// The byte after the last of them.
    after: u64,
}

impl Runs {
    /// "Refused exactly as `read_booleans` refuses" this many booleans at the byte.
    fn of(input: &[u8], run: u64, booleans: u128) -> Result<Self, Refusal> {
        // No input holds 2^64 booleans, so any number from there on is refused alike.
        let n = usize::try_from(booleans).unwrap_or(usize::MAX);
        let consumed = match read_booleans(input, run as usize, n, usize::MAX) {
            Booleans::Refused(refusal) => return Err(refusal),
            Booleans::Given { consumed, .. } => consumed,
        };
        let mut left = &rest(input, run as usize)[..consumed];
        let (mut read, mut after) = (Vec::new(), run);
        while let Some((bytes, taken)) = first_run(left) {
            read.push((after, bytes));
            after += taken as u64;
            left = &left[taken..];
        }
        Ok(Runs { read, after })
    }

    fn bytes(&self) -> Vec<u8> {
        self.read.iter().flat_map(|(_, bytes)| bytes).copied().collect()
    }

    fn bits(&self) -> Vec<bool> {
        self.bytes().iter().flat_map(|byte| (0..8).rev().map(move |k| byte >> k & 1 == 1)).collect()
    }

    /// Where a byte of what the runs stand for is: its run, and the bytes of that run before it, "below
    /// the number that its run stands for; if the last run needed is used up exactly, the byte after it,
    /// 0".
    fn position_of(&self, byte: usize) -> BytePosition {
        let mut skip = byte;
        for (run, bytes) in &self.read {
            if skip < bytes.len() {
                return BytePosition { run: *run, bytes: skip as u64 };
            }
            skip -= bytes.len();
        }
        BytePosition { run: self.after, bytes: 0 }
    }
}

/// Reads n flags, with that many places for them: "the n booleans after the first 8·bytes + bits (whole
/// numbers, no wrapping) from the run on".
pub fn read_flags(input: &[u8], position: FlagPosition, n: u64, places: usize) -> Flags {
    let skipped = 8 * u128::from(position.bytes) + u128::from(position.bits);
    let booleans = skipped + u128::from(n);
    // "If that sum is 0 nothing is looked at, and the position comes back as it was."
    if booleans == 0 {
        return Flags::Given { values: Vec::new(), next: position };
    }
    let runs = match Runs::of(input, position.run, booleans) {
        Ok(runs) => runs,
        Err(refusal) => return Flags::Refused(refusal),
    };
    if (places as u64) < n {
        return Flags::Refused(Refusal::whole(8, position.run as usize));
    }
    // The runs are there, so a machine holds this number.
    let (skipped, booleans) = (skipped as usize, booleans as usize);
    let BytePosition { run, bytes } = runs.position_of(booleans / 8);
    let next = FlagPosition { run, bytes, bits: (booleans % 8) as u64 };
    Flags::Given { values: runs.bits()[skipped..booleans].to_vec(), next }
}

/// Reads n bytes: "the same with bytes".
pub fn read_bytes(input: &[u8], position: BytePosition, n: u64, places: usize) -> Bytes {
    let sum = u128::from(position.bytes) + u128::from(n);
    if sum == 0 {
        return Bytes::Given { values: Vec::new(), next: position };
    }
    let runs = match Runs::of(input, position.run, 8 * sum) {
        Ok(runs) => runs,
        Err(refusal) => return Bytes::Refused(refusal),
    };
    if (places as u64) < n {
        return Bytes::Refused(Refusal::whole(8, position.run as usize));
    }
    let values = runs.bytes()[position.bytes as usize..sum as usize].to_vec();
    Bytes::Given { values, next: runs.position_of(sum as usize) }
}
