//! Standard output, which whoever reads it may close.
use std::io::{self, BufWriter, StdoutLock, Write};

use crate::ended::Failure;

pub struct Output {
    output: BufWriter<StdoutLock<'static>>,
    /// Nothing more is written.
    closed: bool,
    /// The work has another end than the lines: it goes on if they are not wanted any more.
    goes_on: bool,
}

impl Output {
    pub fn new() -> Self {
        Output { output: BufWriter::new(io::stdout().lock()), closed: false, goes_on: false }
    }

    /// Writes nothing.
    pub fn close(&mut self) {
        self.closed = true;
    }

    /// If it is closed, that is no failure.
    pub fn may_be_closed(&mut self) {
        self.goes_on = true;
    }

    pub fn put(
        &mut self,
        write: impl FnOnce(&mut BufWriter<StdoutLock<'static>>) -> io::Result<()>,
    ) -> Result<(), Failure> {
        if self.closed {
            return Ok(());
        }
        match write(&mut self.output).map_err(Failure::output) {
            Err(Failure::Closed) if self.goes_on => {
                self.closed = true;
                Ok(())
            }
            written => written,
        }
    }

    /// Hands on all that was put.
    pub fn flush(&mut self) -> Result<(), Failure> {
        self.put(|output| output.flush())
    }
}
