//! What stands in for the decoders' error module: the four cases that they raise, without the
//! places and texts that the whole reader's own type carries.
use std::io;

/// Which of the four cases an error is.
#[derive(Debug, Clone, Copy, PartialEq, Eq, Hash)]
pub enum Case {
    /// The reader under the decoder failed: the bytes ended.
    Io,
    /// A packed width that the plain loop does not take.
    InvalidInput,
    /// A state that the decoder does not expect.
    Unexpected,
    /// The end of the bytes inside a varint, as a value that no byte has.
    EofUnsignedVInt,
}

/// An error of the decoders.
#[derive(Debug)]
pub struct Error(Case);

impl Error {
    pub fn case(&self) -> Case {
        self.0
    }
}

pub type Result<T> = std::result::Result<T, Error>;

/// The context of a failed read.
pub struct IoSnafu;

pub struct InvalidInputSnafu<M> {
    pub msg: M,
}

pub struct UnexpectedSnafu<M> {
    pub msg: M,
}

pub struct EofUnsignedVIntSnafu {}

impl IoSnafu {
    pub(crate) fn wrap(self, _source: io::Error) -> Error {
        Error(Case::Io)
    }
}

impl<M> InvalidInputSnafu<M> {
    pub fn fail<T>(self) -> Result<T> {
        Err(Error(Case::InvalidInput))
    }
}

impl<M> UnexpectedSnafu<M> {
    pub fn fail<T>(self) -> Result<T> {
        Err(Error(Case::Unexpected))
    }
}

impl EofUnsignedVIntSnafu {
    pub fn fail<T>(self) -> Result<T> {
        Err(Error(Case::EofUnsignedVInt))
    }
}
