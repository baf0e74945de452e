//! Files that are not the bytes of one stream, and look like what they are.
use std::fs::File;
use std::io::{Read, Seek, SeekFrom};

/// What a file looks like.
#[derive(Debug, Clone, Copy, PartialEq, Eq)]
pub enum Looks {
    /// It begins with `ORC`: a whole ORC file.
    OrcFile,
    /// ORC's chunk headers lead from its first byte to its end: a stream that is still compressed.
    Chunks(u64),
    /// Its first bytes may be the header of a chunk of that many bytes, and hardly a run of it can be read.
    Chunk(u64),
}

/// What ORC files begin with.
const MAGIC: &[u8] = b"ORC";

/// The bytes of a chunk's header: a little-endian number, twice the chunk's length, and 1 more if the chunk is
/// not compressed.
const HEADER: usize = 3;

/// ORC's usual size of a chunk before it is compressed. A longer one is taken for chance if nothing else
/// speaks for it.
const USUAL: u64 = 1 << 18;

/// With as many runs read as this, what stands in the first bytes is a run's header.
const FEW_RUNS: u64 = 4;

/// No more chunks are followed: no file has so many by chance.
const ENOUGH: u64 = 10_000;

/// Whether bytes begin as a whole ORC file does.
pub fn is_orc_file(head: &[u8]) -> bool {
    head.starts_with(MAGIC)
}

/// What an input looks like that is refused after that many runs: by its first bytes, by the whole file if it can
/// be opened again, and by its length.
pub fn of(head: &[u8], file: Option<File>, all: u64, runs: u64) -> Option<Looks> {
    if is_orc_file(head) {
        return Some(Looks::OrcFile);
    }
    let chunks = match file {
        Some(mut file) => chunks(all, |at| {
            let mut header = [0; HEADER];
            file.seek(SeekFrom::Start(at)).ok()?;
            file.read_exact(&mut header).ok()?;
            Some(header)
        }),
        None => chunks(all, |at| head_at(head, at)),
    };
    match (chunks, head_at(head, 0).map(length)) {
        (Some(chunks), _) => Some(Looks::Chunks(chunks)),
        (None, Some(first)) if (1..=USUAL).contains(&first) && fits(first, all) && runs < FEW_RUNS => {
            Some(Looks::Chunk(first))
        }
        _ => None,
    }
}

fn head_at(head: &[u8], at: u64) -> Option<[u8; HEADER]> {
    let at = usize::try_from(at).ok()?;
    head.get(at..)?.first_chunk().copied()
}

/// The length of the chunk after a header.
fn length([low, middle, high]: [u8; HEADER]) -> u64 {
    u64::from(u32::from_le_bytes([low, middle, high, 0]) >> 1)
}

/// Whether a first chunk of this length is inside the file.
fn fits(length: u64, all: u64) -> bool {
    HEADER as u64 + length <= all
}

/// How many chunks there are, if each has bytes and the last ends with the file.
fn chunks(all: u64, mut header: impl FnMut(u64) -> Option<[u8; HEADER]>) -> Option<u64> {
    let (mut at, mut count) = (0, 0);
    while at < all && count < ENOUGH {
        let length = length(header(at)?);
        if length == 0 {
            return None;
        }
        at += HEADER as u64 + length;
        count += 1;
    }
    (count > 0 && (at == all || count == ENOUGH)).then_some(count)
}

#[cfg(test)]
mod tests {
    use super::*;

    /// The specification's two examples of headers: 100,000 bytes that are compressed, and five that are not.
    #[test]
    fn headers() {
        assert_eq!(length([0x40, 0x0D, 0x03]), 100_000);
        assert_eq!(length([0x0B, 0x00, 0x00]), 5);
    }

    #[test]
    fn chunks_end_with_the_file() {
        let look = |bytes: &[u8], runs| of(bytes, None, bytes.len() as u64, runs);
        let two = [&[0x0B, 0, 0][..], b"abcde", &[0x06, 0, 0], b"abc"].concat();
        assert_eq!(look(&two, 100), Some(Looks::Chunks(2)));
        // A byte is missing, or too many: the first chunk is inside all the same.
        assert_eq!(look(&two[..two.len() - 1], 0), Some(Looks::Chunk(5)));
        assert_eq!(look(&[&two[..], &[1]].concat(), 3), Some(Looks::Chunk(5)));
        assert_eq!(look(&[&two[..], &[1]].concat(), 4), None);
        assert_eq!(look(&two[..7], 0), None);
        assert_eq!(look(&[0; 12], 0), None);
        assert_eq!(look(b"ORC", 100), Some(Looks::OrcFile));
        assert_eq!(look(&[], 0), None);
    }
}
