//! Bits, packed fields, varints, zigzag and the table of widths.

/// "Codes 0 to 23 mean 1 to 24 bits; 24, 25, 26 mean 26, 28, 30; 27 to 31 mean 32, 40, 48, 56, 64."
pub const WIDTHS: [usize; 32] = [
    1, 2, 3, 4, 5, 6, 7, 8, 9, 10, 11, 12, 13, 14, 15, 16, 17, 18, 19, 20, 21, 22, 23, 24, 26, 28, 30, 32,
    40, 48, 56, 64,
];

/// "Even u is u/2, odd u is -(u+1)/2."
pub fn zigzag(u: u64) -> i64 {
    let whole = i128::from(u);
    let row = if whole % 2 == 0 { whole / 2 } else { -(whole + 1) / 2 };
    row as i64
}

/// What the bytes of a varint say, where they do not end too soon.
pub enum Varint {
    Number(u64),
    /// More than 64 bits hold: the tenth byte is above 1.
    TooMuch,
}

/// Bits in the order of the bytes, the highest bit of each byte first.
pub struct Bits<'a> {
    bytes: &'a [u8],
    /// How many bits were taken.
    at: usize,
}

impl<'a> Bits<'a> {
    pub fn new(bytes: &'a [u8]) -> Self {
        Bits { bytes, at: 0 }
    }

    fn bit(&mut self) -> Option<u64> {
        let byte = *self.bytes.get(self.at / 8)?;
        let bit = byte >> (7 - self.at % 8) & 1;
        self.at += 1;
        Some(u64::from(bit))
    }

    /// A number of that many bits, the highest first; nothing where the bytes end before it does.
    pub fn number(&mut self, bits: usize) -> Option<u64> {
        let mut number = 0;
        for _ in 0..bits {
            number = number << 1 | self.bit()?;
        }
        Some(number)
    }

    /// A block of packed fields. "The block is padded to a byte; padding bits are ignored."
    pub fn block(&mut self, fields: usize, width: usize) -> Option<Vec<u64>> {
        let mut block = Vec::with_capacity(fields);
        for _ in 0..fields {
            block.push(self.number(width)?);
        }
        self.at = self.at.next_multiple_of(8);
        Some(block)
    }

    /// "Seven bits a byte, lowest group first, top bit set on all but the last. At most ten bytes." "A
    /// varint whose tenth byte is above 1 is now refused."
    pub fn varint(&mut self) -> Option<Varint> {
        let mut sum = 0;
        for group in 0..9 {
            let more = self.bit()?;
            sum += self.number(7)? << (7 * group);
            if more == 0 {
                return Some(Varint::Number(sum));
            }
        }
        Some(match self.number(8)? {
            tenth @ (0 | 1) => Varint::Number(sum + (tenth << 63)),
            _ => Varint::TooMuch,
        })
    }

    /// How many whole bytes were taken.
    pub fn bytes(&self) -> usize {
        self.at.div_ceil(8)
    }
}

/// Bits written, the highest of each byte first.
#[derive(Default)]
pub struct Put {
    bits: Vec<bool>,
}

impl Put {
    /// That many low bits of a number, the highest first.
    pub fn number(&mut self, number: u64, bits: usize) {
        for k in (0..bits).rev() {
            self.bits.push(number >> k & 1 == 1);
        }
    }

    /// "2 bits kind, 5 bits width code, 9 bits rows - 1."
    pub fn header(&mut self, kind: u64, code: usize, rows: usize) {
        self.number(kind, 2);
        self.number(code as u64, 5);
        self.number(rows as u64 - 1, 9);
    }

    /// Bits that are all alike, up to a whole byte.
    pub fn pad_with(&mut self, bit: bool) {
        self.bits.resize(self.bits.len().next_multiple_of(8), bit);
    }

    /// Zero padding up to a whole byte.
    pub fn pad(&mut self) {
        self.pad_with(false);
    }

    /// The shortest varint.
    pub fn varint(&mut self, mut number: u64) {
        while number >= 128 {
            self.number(1, 1);
            self.number(number % 128, 7);
            number /= 128;
        }
        self.number(number, 8);
    }

    /// The bytes, with zero padding.
    pub fn bytes(self) -> Vec<u8> {
        let byte =
            |eight: &[bool]| (0..8).fold(0, |byte, k| byte << 1 | u8::from(eight.get(k) == Some(&true)));
        self.bits.chunks(8).map(byte).collect()
    }
}
