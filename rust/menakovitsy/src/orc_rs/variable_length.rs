//! Byte values.
use std::io::{self, Read};

use super::error::{Error, Result};
use crate::{byte_value, ByteOffset, Refused};

/// The most bytes that room is made for before they are there.
const ROOM: usize = 65_536;

/// A reader of byte values, such as the names of a column of strings, one after another.
///
/// ```
/// use menakovitsy::orc_rs::Values;
///
/// let mut names = Values::new(&b"drumsvocals"[..], vec![]);
/// assert_eq!(names.next(5)?, b"drums");
/// assert_eq!(names.next(6)?, b"vocals");
/// assert!(names.next(1).is_err());
/// # Ok::<(), menakovitsy::orc_rs::Error>(())
/// ```
#[must_use]
pub struct Values<R> {
    reader: R,
    scratch: Vec<u8>,
    /// The byte that the next value begins at.
    at: ByteOffset,
    failed: Option<Failed>,
}

/// Why there are no more values.
#[derive(Clone, Copy)]
enum Failed {
    Refused(Refused),
    Io(io::ErrorKind),
}

impl<R: Read> Values<R> {
    /// The values of a reader. `scratch` is the room that each is read into.
    pub fn new(reader: R, scratch: Vec<u8>) -> Self {
        Values { reader, scratch, at: ByteOffset(0), failed: None }
    }

    /// The value of the next `length` bytes. No byte after them is taken.
    ///
    /// # Errors
    ///
    /// There are fewer bytes ([`Refusal::ValueCut`](crate::Refusal::ValueCut)), or the reader failed. Both end
    /// the values: where the next would begin isn't known. Every later call is the same error.
    pub fn next(&mut self, length: usize) -> Result<&[u8]> {
        match self.failed {
            Some(Failed::Refused(refused)) => return Err(refused.into()),
            Some(Failed::Io(kind)) => return Err(kind_again(kind)),
            None => {}
        }
        self.scratch.clear();
        self.scratch.reserve(length.min(ROOM));
        let read = self.reader.by_ref().take(length as u64).read_to_end(&mut self.scratch);
        if let Err(error) = read {
            self.failed = Some(Failed::Io(error.kind()));
            return Err(error.into());
        }
        if let Err(refused) = byte_value(&self.scratch, ByteOffset(0), ByteOffset(length)) {
            let refused = Refused { at: Some(self.at), cut: refused.cut.map(|cut| self.at + cut), ..refused };
            self.failed = Some(Failed::Refused(refused));
            return Err(refused.into());
        }
        self.at += ByteOffset(length);
        Ok(&self.scratch)
    }

    /// The room that the values were read into.
    pub fn into_inner(self) -> Vec<u8> {
        self.scratch
    }
}

#[cold]
fn kind_again(kind: io::ErrorKind) -> Error {
    io::Error::new(kind, "an earlier read of these values failed").into()
}
