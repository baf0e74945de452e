//! Whether the library that is linked is the one that this crate is written for.
use std::error::Error;
use std::{fmt, io};

use crate::exported::VERSION;
use crate::library_version;

/// The linked library's functions are of another version than this crate's.
#[derive(Debug, Clone, Copy, PartialEq, Eq)]
#[non_exhaustive]
pub struct OtherVersion {
    /// The version that this crate is written for.
    pub wrapper: u64,
    /// The version that is linked.
    pub library: u64,
}

/// Compares the version of the linked library with this crate's. A program asks once, before it
/// reads.
///
/// ```
/// menakovitsy::check_version()?;
/// # Ok::<(), menakovitsy::OtherVersion>(())
/// ```
///
/// # Errors
///
/// Both versions, if they are not the same.
pub fn check_version() -> Result<(), OtherVersion> {
    compared(library_version())
}

fn compared(library: u64) -> Result<(), OtherVersion> {
    if library == VERSION {
        return Ok(());
    }
    Err(OtherVersion { wrapper: VERSION, library })
}

impl fmt::Display for OtherVersion {
    fn fmt(&self, f: &mut fmt::Formatter) -> fmt::Result {
        let OtherVersion { wrapper, library } = self;
        write!(
            f,
            "libmenakovitsy.a is of version {library}, and this wrapper is for version {wrapper} (build both from \
             one revision; where MENAKOVITSY_LIB_DIR is set, it may name an old library)"
        )
    }
}

impl Error for OtherVersion {}

impl From<OtherVersion> for io::Error {
    fn from(other: OtherVersion) -> Self {
        io::Error::new(io::ErrorKind::Unsupported, other)
    }
}

#[cfg(test)]
mod tests {
    use super::*;

    #[test]
    fn another_version_is_told() {
        assert_eq!(check_version(), Ok(()));
        let other = compared(VERSION + 1).unwrap_err();
        assert_eq!((other.wrapper, other.library), (VERSION, VERSION + 1));
        assert_eq!(io::Error::from(other).kind(), io::ErrorKind::Unsupported);
        assert!(other.to_string().starts_with(&format!("libmenakovitsy.a is of version {}, ", VERSION + 1)));
    }
}
