//! FORMAT.md, "Labels": labels, in lines for the probe.
use model::Dictionary;

use crate::probe::Requests;
use model::random::Random;

/// What a label is asked of, with columns of its own.
#[derive(Debug, Clone, PartialEq, Eq)]
pub struct Asked {
    pub row: u64,
    pub block: Vec<u8>,
    pub lengths: Vec<i64>,
    pub numbers: Vec<i64>,
    pub flags: Vec<u8>,
    pub fallback: Vec<u8>,
}

impl Asked {
    /// A dictionary whose lengths add up, and a number in it for each row with a name.
    fn good(random: &mut Random) -> Self {
        let lengths: Vec<i64> = (0..random.below(6)).map(|_| random.below(5) as i64).collect();
        let bytes: i64 = lengths.iter().sum();
        let flags: Vec<u8> =
            (0..random.below(16)).map(|_| random.pick(&[0, 0, 0, 1, 1, 2, 128, 255])).collect();
        let named = flags.iter().filter(|flag| **flag != 0).count();
        let numbers = (0..named).map(|_| random.below(lengths.len().max(1)) as i64).collect();
        let block = (0..bytes).map(|_| random.byte()).collect();
        let fallback = (0..random.below(4)).map(|_| random.byte()).collect();
        Asked { row: 0, block, lengths, numbers, flags, fallback }
    }

    /// One thing of it changed.
    fn damage(&mut self, random: &mut Random) {
        match random.below(8) {
            0 => self.block.push(random.byte()),
            1 => drop(self.block.pop()),
            2 => drop(self.numbers.pop()),
            3 => self.numbers.insert(0, random.below(7) as i64),
            // One length less and another more: they add up, but one may be below 0.
            4 if self.lengths.len() > 1 => {
                let by = random.below(6) as i64;
                self.lengths[0] -= by;
                self.lengths[1] += by;
            }
            // The same modulo 2^64.
            5 => self.lengths.extend([i64::MAX, i64::MAX, 2]),
            6 if !self.lengths.is_empty() => {
                let at = random.below(self.lengths.len());
                self.lengths[at] = odd(self.lengths[at], random);
            }
            _ if !self.numbers.is_empty() => {
                let at = random.below(self.numbers.len());
                self.numbers[at] = odd(self.lengths.len() as i64, random);
            }
            _ => self.flags.push(random.byte()),
        }
    }

    pub fn dictionary(&self) -> Dictionary<'_> {
        let Asked { block, lengths, numbers, flags, .. } = self;
        Dictionary { block, lengths, numbers, flags }
    }
}

/// A number about another, or about the ends.
fn odd(number: i64, random: &mut Random) -> i64 {
    random.pick(&[number, number + 1, -1, i64::MIN, i64::MAX, i64::MIN + number])
}

/// Any label: half of them of a good dictionary, and most of a row that is there.
pub fn any(random: &mut Random) -> Asked {
    let mut asked = Asked::good(random);
    if random.once_in(2) {
        asked.damage(random);
    }
    asked.row = match random.below(16) {
        0 => random.any(),
        1 => asked.flags.len() as u64,
        _ => random.below(asked.flags.len().max(1)) as u64,
    };
    asked
}

/// Any label, as a line for the probe.
pub fn probe_line(requests: &mut Requests, random: &mut Random) {
    let asked = any(random);
    requests.label(asked.row, asked.dictionary(), &asked.fallback);
}

/// Each answer and each refusal, the refusals' order, and every row.
pub fn fixed_lines(requests: &mut Requests) {
    let stems = Dictionary {
        block: b"drumsbassvox",
        lengths: &[5, 0, 4, 3],
        numbers: &[2, 0, 1, 3],
        // A flag other than 0 and 1 is a name.
        flags: &[0, 1, 255, 0, 2, 1, 0],
    };
    let every_row = |requests: &mut Requests, dictionary: Dictionary| {
        for row in [0, 1, 2, 3, 4, 5, 6, 7, u64::MAX] {
            requests.label(row, dictionary, b"(none)");
        }
    };
    every_row(requests, stems);
    requests.label(0, stems, b"");
    // 18: too little, too much, no length at all, below 0 though they add up, and the same modulo 2^64;
    // before 19, which every named row would be.
    for lengths in [
        &[5, 0, 4, 2][..],
        &[5, 0, 4, 4],
        &[5, 0, 4],
        &[],
        &[5, -1, 5, 3],
        &[6, 0, 4, 3, -1],
        &[i64::MAX, i64::MAX, 14],
        &[i64::MAX, i64::MAX, 2, 12],
        &[i64::MIN, i64::MIN, 12],
    ] {
        every_row(requests, Dictionary { lengths, numbers: &[-1; 4], ..stems });
    }
    // 19: below 0, past the last name, missing; and the last name, and a number that no row asks for.
    for numbers in [
        &[2, -1, 1, 3][..],
        &[2, 4, 1, 3],
        &[2, i64::MIN, 1, 3],
        &[2, i64::MAX, 1, 3],
        &[2, 0],
        &[],
        &[3, 3, 3, 3],
        &[2, 0, 1, 3, -9],
    ] {
        every_row(requests, Dictionary { numbers, ..stems });
    }
    // An empty dictionary, with rows and without; and one of empty names.
    let empty = Dictionary { block: b"", lengths: &[], numbers: &[0, 0], flags: &[0, 1] };
    for row in 0..3 {
        requests.label(row, empty, b"own");
        requests.label(row, Dictionary { flags: &[], ..empty }, b"own");
        requests.label(row, Dictionary { lengths: &[0, 0], numbers: &[1], ..empty }, b"own");
        requests.label(row, Dictionary { block: b"x", ..empty }, b"own");
    }
    // Lines that are too short or too long, by a byte, for what they count.
    let line = "0f0000000000000000000100010001000200010000000000000002000000000000000001414263";
    for bad in ["0f", &line[..36], &line[..line.len() - 2], &format!("{line}00")] {
        requests.bad(bad);
    }
}
