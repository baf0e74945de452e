//! Flags and bytes written: byte runs that a writer may choose from, how few bytes they can take, and those
//! that are chosen.
//!
//! What the proved writers write is held to what it reads as and to its size. Which of the shortest runs they
//! choose, the page says too: the probe's fixed list has those, and the random calls are held to them.
use crate::bits::Put;
use crate::first_run;

/// The limits of a byte run: "3 or more equal bytes as repeats of at most 130", "literals of at most 128".
const LEAST_REPEAT: usize = 3;
const MOST_REPEAT: usize = 130;
const MOST_LITERALS: usize = 128;

/// How many bytes at the start are equal.
fn stretch(bytes: &[u8]) -> usize {
    bytes.iter().take_while(|byte| Some(*byte) == bytes.first()).count()
}

/// A run of copies. "A control byte 0 to 127 means c + 3 copies of the one byte that follows."
fn repeat(byte: u8, copies: usize) -> [u8; 2] {
    [(copies - LEAST_REPEAT) as u8, byte]
}

/// A run of literals. "128 to 255 means that 256 - c literal bytes follow."
fn literals(bytes: &[u8]) -> Vec<u8> {
    [&[(256 - bytes.len()) as u8], bytes].concat()
}

/// The plain choice: "stretches of 3 or more equal bytes as repeats of at most 130, all else literals of
/// at most 128". What is left of a longer stretch is a stretch of its own, or literals.
pub fn plain_byte_runs(bytes: &[u8]) -> Vec<u8> {
    let mut runs = Vec::new();
    let mut at = 0;
    while at < bytes.len() {
        let copies = stretch(&bytes[at..]).min(MOST_REPEAT);
        if copies >= LEAST_REPEAT {
            runs.extend(repeat(bytes[at], copies));
            at += copies;
            continue;
        }
        let begin = at;
        while at < bytes.len() && at - begin < MOST_LITERALS && stretch(&bytes[at..]) < LEAST_REPEAT {
            at += 1;
        }
        runs.extend(literals(&bytes[begin..at]));
    }
    runs
}

/// The runs that are written. "The next run is a function of the bytes that are left."
pub fn chosen_byte_runs(bytes: &[u8]) -> Vec<u8> {
    let (mut runs, mut left) = (Vec::new(), bytes);
    while let Some(first) = left.first() {
        let copies = chosen_copies(stretch(left));
        let taken = if copies >= LEAST_REPEAT {
            runs.extend(repeat(*first, copies));
            copies
        } else {
            let count = chosen_literals(left);
            runs.extend(literals(&left[..count]));
            count
        };
        left = &left[taken..];
    }
    runs
}

/// "A stretch of three or more, counted from the first byte left, is a repeat of as many, at most 130. Of
/// exactly 132 it has 129, so that three are left for another repeat."
fn chosen_copies(equal: usize) -> usize {
    match equal {
        132 => 129,
        _ => equal.min(MOST_REPEAT),
    }
}

/// "Otherwise come literals up to the next stretch of three or more, at most 128. If that stretch has 131, 261,
/// .. bytes .., the literals take its first byte too, if they have room for it."
fn chosen_literals(left: &[u8]) -> usize {
    let up_to = (0..left.len()).find(|at| stretch(&left[*at..]) >= LEAST_REPEAT).unwrap_or(left.len());
    let next = stretch(&left[up_to..]);
    let alone = next > MOST_REPEAT && next % MOST_REPEAT == 1;
    (up_to + usize::from(alone)).min(MOST_LITERALS)
}

/// The fewest bytes of runs that stand for these bytes, over every way to cut them into valid runs.
pub fn least_size(bytes: &[u8]) -> usize {
    // The least size of what is before each byte.
    let mut least = vec![0];
    for end in 1..=bytes.len() {
        let literals = (1..=MOST_LITERALS.min(end)).map(|count| least[end - count] + 1 + count);
        let equal = bytes[..end].iter().rev().take_while(|byte| **byte == bytes[end - 1]).count();
        let repeats = (LEAST_REPEAT..=MOST_REPEAT.min(equal)).map(|count| least[end - count] + 2);
        least.push(literals.chain(repeats).min().expect("one literal is a run"));
    }
    least[bytes.len()]
}

/// What byte runs stand for, up to their end; nothing if the last of them is cut.
pub fn runs_stand_for(runs: &[u8]) -> Option<Vec<u8>> {
    let (mut bytes, mut left) = (Vec::new(), runs);
    while !left.is_empty() {
        let (more, taken) = first_run(left)?;
        bytes.extend(more);
        left = &left[taken..];
    }
    Some(bytes)
}

/// Flags as the bytes that are written for them: eight to a byte, the highest bit first, the bits after
/// the last 0. "A flag byte other than 0 is true."
pub fn packed_flags(flags: &[u8]) -> Vec<u8> {
    let mut put = Put::default();
    flags.iter().for_each(|flag| put.number(u64::from(*flag != 0), 1));
    put.bytes()
}
