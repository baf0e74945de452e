//! A reader, taken run by run.
use std::io::{ErrorKind, Read, Result};

use crate::{ByteOffset, Refused};

/// How many bytes there is room for at first.
const FEW: usize = 64;

/// A reader, and the bytes of the run that is next. It takes no byte after that run's last from the reader,
/// which then stands at the next run.
pub(crate) struct Feed<R> {
    reader: R,
    /// Room for a run's bytes, and how many of them are held.
    room: Vec<u8>,
    held: usize,
    /// Whether the reader has no more.
    ended: bool,
    /// The byte that the run begins at, counted from the first that was read.
    at: ByteOffset,
}

impl<R: Read> Feed<R> {
    pub fn new(reader: R) -> Self {
        Feed { reader, room: Vec::new(), held: 0, ended: false, at: ByteOffset(0) }
    }

    pub fn into_inner(self) -> R {
        self.reader
    }

    /// The bytes that are held.
    #[inline]
    pub fn bytes(&self) -> &[u8] {
        self.room.get(..self.held).unwrap_or_default()
    }

    /// Reads the next run: as many bytes as `least` says that it has at least, of those that are held; fewer
    /// only at the reader's end.
    pub fn read(&mut self, least: fn(&[u8]) -> usize) -> Result<()> {
        loop {
            let wanted = least(self.bytes());
            if self.held >= wanted || self.ended {
                return Ok(());
            }
            self.fill(wanted)?;
        }
    }

    /// Reads one byte more: whether there is one.
    pub fn read_more(&mut self) -> Result<bool> {
        let before = self.held;
        self.fill(before + 1)?;
        Ok(self.held > before)
    }

    #[inline]
    fn fill(&mut self, wanted: usize) -> Result<()> {
        if self.room.len() < wanted {
            self.room.resize(wanted.max(FEW), 0);
        }
        while self.held < wanted && !self.ended {
            let room = self.room.get_mut(self.held..wanted).unwrap_or_default();
            match self.reader.read(room) {
                Ok(0) => self.ended = true,
                Ok(more) => self.held = (self.held + more).min(wanted),
                Err(error) if error.kind() == ErrorKind::Interrupted => {}
                Err(error) => return Err(error),
            }
        }
        Ok(())
    }

    /// The first `bytes` of those held are done with, and the next run begins after them.
    #[inline]
    pub fn pass(&mut self, bytes: usize) {
        let passed = bytes.min(self.held);
        if passed < self.held {
            self.room.copy_within(passed..self.held, 0);
        }
        self.held -= passed;
        self.at += ByteOffset(passed);
    }

    /// A refusal of the run that is held, with its places counted from the first byte that was read.
    pub fn placed(&self, refused: Refused) -> Refused {
        let Refused { refusal, at, cut } = refused;
        Refused { refusal, at: at.map(|at| self.at + at), cut: cut.map(|cut| self.at + cut) }
    }
}
