//! Why a reader stopped.
use std::error;
use std::fmt;
use std::io;

use crate::Refused;

/// Why a reader of this module stopped: what it read is [refused](Error::refused), or the reader that it was
/// given [failed](Error::io).
///
/// By `?` it becomes an [`io::Error`]: the reader's own, or one of the kind that [`Refused`] says.
// In a box, a row and an error together are two words.
#[derive(Debug)]
pub struct Error(Box<Cause>);

/// A value, or why there is none.
pub type Result<T> = std::result::Result<T, Error>;

#[derive(Debug)]
enum Cause {
    Refused(Refused),
    Io(io::Error),
}

impl Error {
    /// The refusal, if the bytes are cut or damaged. Its places count from the first byte that was read.
    #[must_use]
    pub fn refused(&self) -> Option<Refused> {
        match *self.0 {
            Cause::Refused(refused) => Some(refused),
            Cause::Io(_) => None,
        }
    }

    /// What the reader failed with, if it did.
    #[must_use]
    pub fn io(&self) -> Option<&io::Error> {
        match &*self.0 {
            Cause::Refused(_) => None,
            Cause::Io(error) => Some(error),
        }
    }
}

impl fmt::Display for Error {
    fn fmt(&self, f: &mut fmt::Formatter) -> fmt::Result {
        match &*self.0 {
            Cause::Refused(refused) => refused.fmt(f),
            Cause::Io(error) => error.fmt(f),
        }
    }
}

// The text is that of the cause, and so is the source: nothing is said twice.
impl error::Error for Error {
    fn source(&self) -> Option<&(dyn error::Error + 'static)> {
        match &*self.0 {
            Cause::Refused(refused) => refused.source(),
            Cause::Io(error) => error.source(),
        }
    }
}

impl From<Refused> for Error {
    #[cold]
    fn from(refused: Refused) -> Self {
        Error(Box::new(Cause::Refused(refused)))
    }
}

impl From<io::Error> for Error {
    #[cold]
    fn from(error: io::Error) -> Self {
        Error(Box::new(Cause::Io(error)))
    }
}

impl From<Error> for io::Error {
    fn from(error: Error) -> Self {
        match *error.0 {
            Cause::Refused(refused) => refused.into(),
            Cause::Io(error) => error,
        }
    }
}
