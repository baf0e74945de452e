//! The readers of WenyXu/orc-rs, by their names, on the proved functions.
//!
//! Code that is written for the decoders of `orc-rs` reads its columns by these after the change of a `use`
//! line: names, paths, arguments and items are the same. What differs is what they do with bytes that are cut,
//! damaged or of a kind that those decoders don't read: docs/MOVING.md of the repository has it for users, and
//! docs/DIFFERENCES.md case by case.
//!
//! | Name | Reads | Items |
//! |---|---|---|
//! | [`RleReaderV2`] | integers | `Result<i64>` |
//! | [`UnsignedRleReaderV2`] | integers that are not signed | `Result<u64>` |
//! | [`BooleanIter`] | flags | `Result<bool>` |
//! | [`Values`] | byte values, by their lengths | `next(length)`: `Result<&[u8]>` |
//!
//! All take an [`io::Read`](std::io::Read), and:
//!
//! - take from it the bytes of the run that is wanted and none after it. So a reader that is lent (`&mut reader`)
//!   or given back ([`BooleanIter::into_inner`]) stands at the first byte after that run. They ask two or three
//!   times a run, so a file wants a [`BufReader`](std::io::BufReader) in between;
//! - end with a refusal, [`Error::refused`], if the bytes are cut or damaged. The rows of the runs before it
//!   come first; a cut column is never taken for a shorter one;
//! - hand on what the reader fails with, [`Error::io`]. A read that was interrupted is tried again;
//! - give an error once, and then nothing more; [`Values`], which is no iterator, gives it again.
//!
//! Left out are `BooleanRleRunIter` and `BooleanRun`, whose literals don't say how many there are, and the four
//! methods that read a run of one kind after its first byte was taken.
pub mod error;
mod feed;
mod least;

mod boolean_rle;
mod rle_v2;
mod variable_length;

pub use boolean_rle::BooleanIter;
pub use error::{Error, Result};
pub use rle_v2::{RleReaderV2, UnsignedRleReaderV2};
pub use variable_length::Values;

/// The same by the paths that they have in `orc-rs`.
pub mod reader {
    /// The decoders of streams.
    pub mod decode {
        /// Flags.
        pub mod boolean_rle {
            pub use crate::orc_rs::BooleanIter;
        }
        /// Integers.
        pub mod rle_v2 {
            pub use crate::orc_rs::{RleReaderV2, UnsignedRleReaderV2};
        }
        /// Byte values.
        pub mod variable_length {
            pub use crate::orc_rs::Values;
        }
    }
}
