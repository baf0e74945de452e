//! What stands in for the items of `snafu` and `zigzag` that the decoders name.
use std::io;

use crate::error::{IoSnafu, Result};

/// `context` on a failed read.
pub trait ResultExt<T> {
    fn context(self, context: IoSnafu) -> Result<T>;
}

impl<T> ResultExt<T> for io::Result<T> {
    fn context(self, context: IoSnafu) -> Result<T> {
        self.map_err(|source| context.wrap(source))
    }
}

/// Gives the error of `$context` unless `$condition` holds.
#[macro_export]
macro_rules! ensure {
    ($condition:expr, $context:expr $(,)?) => {
        if !$condition {
            return $context.fail();
        }
    };
}

/// Zigzag from the unsigned number to the signed one.
pub trait ZigZag {
    fn decode(from: u64) -> Self;
}

impl ZigZag for i64 {
    fn decode(from: u64) -> Self {
        (from >> 1) as i64 ^ -((from & 1) as i64)
    }
}
