//! The Rust decoders (WenyXu/orc-rs at 3a197fa636), unchanged, as an oracle.
//!
//! The eight decoder files are compiled from a checkout outside this repository (see `build.rs`).
//! They name two crates, `snafu` and `zigzag`, and their own `error` module, which draws in a whole
//! file reader; the few items that they use of those stand in [`error`] and `standins`. So what
//! is compared is rows, bytes taken, and whether a call gave an error or panicked. The texts of
//! errors are stand-ins and are not compared.
//!
//! ```
//! let run = oracle::read_run(&[0x0A, 0x01, 0x2C, 0x99], false);
//! assert_eq!(run, oracle::Run::Rows { rows: vec![300; 5], consumed: 3 });
//! assert_eq!(oracle::read_run(&[], false), oracle::Run::End);
//! assert_eq!(oracle::read_run(&[0x70], false), oracle::Run::Panic);
//! ```
#![forbid(unsafe_code)]

// The decoders say `use snafu::..` and `zigzag::..`: here both are this crate.
extern crate self as snafu;
extern crate self as zigzag;

pub mod error;
mod quiet;
mod standins;

pub use error::Case;
pub use quiet::quietly;
pub use standins::{ResultExt, ZigZag};

// `mod reader`, at the crate's root, where the decoders look for each other.
include!(concat!(env!("OUT_DIR"), "/decoders.rs"));

use std::cell::Cell;
use std::io::{self, Read};

use reader::decode::boolean_rle::BooleanIter;
use reader::decode::rle_v2::RleReaderV2;
use reader::decode::variable_length::Values;

/// What one run's decoding came to.
#[derive(Debug, Clone, PartialEq, Eq)]
pub enum Run {
    /// There were no bytes.
    End,
    /// A run: its rows, and how many bytes the decoder took.
    Rows { rows: Vec<i64>, consumed: usize },
    /// The decoder gave an error.
    Error(Case),
    /// The decoder panicked.
    Panic,
}

/// What the iterator over a whole stream came to, call by call.
#[derive(Debug, Clone, PartialEq, Eq)]
pub struct Stream {
    /// What each call gave, errors among the rows: the iterator may be called again after one.
    pub items: Vec<Result<i64, Case>>,
    /// How many bytes were taken in all.
    pub consumed: usize,
    /// Why the calls stopped.
    pub stopped: Stopped,
}

/// Why the calls of an iterator stopped.
#[derive(Debug, Clone, Copy, PartialEq, Eq)]
pub enum Stopped {
    /// It had no more.
    Done,
    /// As many calls as were asked for were made.
    Calls,
    /// It panicked.
    Panic,
}

/// What reading booleans, or a byte value, came to.
#[derive(Debug, Clone, PartialEq, Eq)]
pub enum Outcome<T> {
    /// What came back, and how many bytes were taken.
    Given { values: Vec<T>, consumed: usize },
    /// An error, and what came before it.
    Error { case: Case, before: Vec<T> },
    /// A panic, and what came before it.
    Panic { before: Vec<T> },
}

/// A reader that counts, over bytes that can be closed: closed, it is at its end.
struct Counting<'a> {
    bytes: &'a [u8],
    taken: &'a Cell<usize>,
    closed: &'a Cell<bool>,
}

impl Read for Counting<'_> {
    fn read(&mut self, buffer: &mut [u8]) -> io::Result<usize> {
        if self.closed.get() {
            return Ok(0);
        }
        let rest = &self.bytes[self.taken.get()..];
        let n = rest.len().min(buffer.len());
        buffer[..n].copy_from_slice(&rest[..n]);
        self.taken.set(self.taken.get() + n);
        Ok(n)
    }
}

/// Decodes the run at the start of `bytes`.
///
/// The decoder keeps its rows to itself and hands them out by its iterator, which reads on once
/// they are out: so the reader is closed after the one run, and the iterator ends with its rows.
pub fn read_run(bytes: &[u8], signed: bool) -> Run {
    let (taken, closed) = (Cell::new(0), Cell::new(false));
    quietly(|| {
        let reader = Counting { bytes, taken: &taken, closed: &closed };
        let mut decoder = RleReaderV2::try_new(reader, signed, false);
        match decoder.read_values(false) {
            Ok(false) => return Run::End,
            Err(error) => return Run::Error(error.case()),
            Ok(true) => {}
        }
        closed.set(true);
        let mut rows = Vec::with_capacity(512);
        for row in decoder {
            rows.push(row.expect("a closed reader gives no error"));
        }
        Run::Rows { rows, consumed: taken.get() }
    })
    .unwrap_or(Run::Panic)
}

/// Calls the iterator over a whole stream until it ends, panics, or was called `calls` times.
pub fn read_stream(bytes: &[u8], signed: bool, calls: usize) -> Stream {
    let (taken, closed) = (Cell::new(0), Cell::new(false));
    let mut items = Vec::new();
    let stopped = quietly(|| {
        let reader = Counting { bytes, taken: &taken, closed: &closed };
        let mut decoder = RleReaderV2::try_new(reader, signed, false);
        for _ in 0..calls {
            match decoder.next() {
                Some(item) => items.push(item.map_err(|error| error.case())),
                None => return Stopped::Done,
            }
        }
        Stopped::Calls
    })
    .unwrap_or(Stopped::Panic);
    Stream { items, consumed: taken.get(), stopped }
}

/// Reads `n` booleans from the start of `bytes`.
pub fn read_booleans(bytes: &[u8], n: usize) -> Outcome<bool> {
    let (taken, closed) = (Cell::new(0), Cell::new(false));
    let mut values = Vec::new();
    let ended = quietly(|| {
        let reader = Counting { bytes, taken: &taken, closed: &closed };
        for item in BooleanIter::new(reader, n) {
            match item {
                Ok(value) => values.push(value),
                Err(error) => return Some(error.case()),
            }
        }
        None
    });
    match ended {
        Some(None) => Outcome::Given { values, consumed: taken.get() },
        Some(Some(case)) => Outcome::Error { case, before: values },
        None => Outcome::Panic { before: values },
    }
}

/// Reads a byte value of length `n` from the start of `bytes`.
///
/// The decoder reserves `n` bytes first: a length that the machine has no memory for ends the
/// process, so ask for no such length.
pub fn read_value(bytes: &[u8], n: usize) -> Outcome<u8> {
    let (taken, closed) = (Cell::new(0), Cell::new(false));
    let ended = quietly(|| {
        let reader = Counting { bytes, taken: &taken, closed: &closed };
        let mut decoder = Values::new(reader, Vec::new());
        decoder.next(n).map(<[u8]>::to_vec).map_err(|error| error.case())
    });
    match ended {
        Some(Ok(values)) => Outcome::Given { values, consumed: taken.get() },
        Some(Err(case)) => Outcome::Error { case, before: Vec::new() },
        None => Outcome::Panic { before: Vec::new() },
    }
}

/// A decoder over plain bytes, for the benchmark: every call of `next` gives a row.
pub fn decoder(bytes: &[u8], signed: bool) -> impl Iterator<Item = error::Result<i64>> + '_ {
    RleReaderV2::try_new(bytes, signed, false)
}

/// Decodes a whole stream into `out`, a row a place, and answers how many rows it gave. For the
/// benchmark: an error ends it.
pub fn decode_into(bytes: &[u8], signed: bool, out: &mut [i64]) -> usize {
    let mut rows = 0;
    for (place, row) in out.iter_mut().zip(decoder(bytes, signed)) {
        match row {
            Ok(row) => *place = row,
            Err(_) => break,
        }
        rows += 1;
    }
    rows
}

/// Reads `n` booleans into `out`, each as a byte of 0 or 1, and answers how many it gave. For the
/// benchmark: an error ends it.
pub fn booleans_into(bytes: &[u8], n: usize, out: &mut [u8]) -> usize {
    let mut given = 0;
    for (place, value) in out.iter_mut().zip(BooleanIter::new(bytes, n)) {
        match value {
            Ok(value) => *place = u8::from(value),
            Err(_) => break,
        }
        given += 1;
    }
    given
}
