//! A line of hexadecimal, and the fields of its frame. Nothing is what a bad line gives.

/// The most characters of a line.
pub const MAX_LINE: usize = 65_536;

/// The most places that a line may ask for.
pub const MAX_PLACES: usize = 8_192;

/// The bytes that a line of hexadecimal writes, of either case.
pub fn bytes(line: &[u8]) -> Option<Vec<u8>> {
    if line.len() > MAX_LINE || !line.len().is_multiple_of(2) {
        return None;
    }
    let digit = |letter: u8| char::from(letter).to_digit(16);
    line.chunks_exact(2).map(|two| Some((digit(two[0])? * 16 + digit(two[1])?) as u8)).collect()
}

/// The fields of a frame, taken from the front. Numbers are big-endian.
pub struct Fields<'a>(&'a [u8]);

impl<'a> Fields<'a> {
    pub fn new(frame: &'a [u8]) -> Self {
        Fields(frame)
    }

    fn number(&mut self, bytes: usize) -> Option<u64> {
        let (field, rest) = self.0.split_at_checked(bytes)?;
        self.0 = rest;
        Some(field.iter().fold(0, |number, byte| number << 8 | u64::from(*byte)))
    }

    pub fn byte(&mut self) -> Option<u64> {
        self.number(1)
    }

    /// A number below a limit, in one byte: a flag, a form.
    pub fn below(&mut self, limit: u64) -> Option<u64> {
        self.byte().filter(|number| *number < limit)
    }

    /// A position, an n, a row: eight bytes.
    pub fn word(&mut self) -> Option<u64> {
        self.number(8)
    }

    /// How many places are lent: two bytes.
    pub fn places(&mut self) -> Option<usize> {
        self.number(2).map(|places| places as usize).filter(|places| *places <= MAX_PLACES)
    }

    /// How many there are of something that the line holds: two bytes.
    pub fn count(&mut self) -> Option<usize> {
        self.number(2).map(|count| count as usize)
    }

    /// That many bytes.
    pub fn bytes(&mut self, count: usize) -> Option<&'a [u8]> {
        let (bytes, rest) = self.0.split_at_checked(count)?;
        self.0 = rest;
        Some(bytes)
    }

    /// That many numbers of a column, of eight bytes each.
    pub fn words(&mut self, count: usize) -> Option<Vec<i64>> {
        let bytes = self.bytes(8 * count)?;
        Fields(bytes).rows()
    }

    /// The same, as numbers without a sign.
    pub fn numbers(&mut self, count: usize) -> Option<Vec<u64>> {
        Some(self.words(count)?.into_iter().map(|number| number as u64).collect())
    }

    /// All that is left, as it is.
    pub fn rest(self) -> &'a [u8] {
        self.0
    }

    /// All that is left, as rows.
    pub fn rows(self) -> Option<Vec<i64>> {
        let (rows, rest) = self.0.as_chunks::<8>();
        rest.is_empty().then(|| rows.iter().map(|row| i64::from_be_bytes(*row)).collect())
    }

    /// Nothing is left.
    pub fn end(self) -> Option<()> {
        self.0.is_empty().then_some(())
    }
}

#[cfg(test)]
mod tests {
    use super::*;

    #[test]
    fn hexadecimal() {
        assert_eq!(bytes(b"00aFFa"), Some(vec![0, 0xAF, 0xFA]));
        assert_eq!(bytes(b""), Some(vec![]));
        for bad in [&b"0"[..], b"0g", b" 0", b"+1", b"00\r"] {
            assert_eq!(bytes(bad), None);
        }
        assert_eq!(bytes(&vec![b'0'; MAX_LINE]).map(|bytes| bytes.len()), Some(MAX_LINE / 2));
        assert_eq!(bytes(&vec![b'0'; MAX_LINE + 2]), None);
    }

    #[test]
    fn fields() {
        let frame = [1, 2, 3, 0x20, 0x01];
        let mut fields = Fields::new(&frame);
        assert_eq!((fields.below(2), fields.below(2), fields.byte()), (Some(1), None, Some(3)));
        assert_eq!(fields.places(), None);
        assert_eq!(Fields::new(&[0x20, 0x00]).places(), Some(MAX_PLACES));
        assert_eq!(Fields::new(&[0; 7]).word(), None);
        assert_eq!(Fields::new(&[0xFF; 16]).rows(), Some(vec![-1, -1]));
        assert_eq!(Fields::new(&[0xFF; 15]).rows(), None);
        assert_eq!(Fields::new(&[0xFF; 16]).numbers(2), Some(vec![u64::MAX; 2]));
        let mut fields = Fields::new(&[0xFF; 13]);
        assert_eq!((fields.count(), fields.words(2), fields.words(1)), (Some(65_535), None, Some(vec![-1])));
        assert_eq!((fields.bytes(4), fields.bytes(3)), (None, Some(&[0xFF; 3][..])));
        assert_eq!(fields.end(), Some(()));
    }
}
