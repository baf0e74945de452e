//! A stream's runs, one after another, from a file of any size: only a window of it is held.
use std::fs::File;
use std::io::{self, ErrorKind, Read};

use menakovitsy::{read_run, ByteOffset, Index, Refused, RowNumber, MAX_RUN_BYTES};

use crate::advice::Trouble;
use crate::byte_runs;
use crate::ended::Failure;
use crate::input::Input;
use crate::looks;
use crate::stream::{RunKind, Stream};

/// How many bytes are held at a time.
const WINDOW: usize = 1 << 20;

/// What there is to say of a run beside its rows.
#[derive(Debug, Clone, Copy, PartialEq, Eq)]
pub struct RunInfo {
    /// The byte of the file that it begins at.
    pub at: u64,
    /// The number of its first row.
    pub first: u64,
    pub kind: RunKind,
    /// The width of its values.
    pub bits: u64,
    pub rows: u64,
    pub bytes: u64,
}

/// A run of a file. Its bytes and rows are borrowed from the walk.
#[derive(Debug, Clone, Copy)]
pub struct RunAt<'r> {
    pub info: RunInfo,
    /// Its bytes, as they stand in the file.
    pub raw: &'r [u8],
    pub rows: &'r [i64],
}

/// Runs, counted with their rows and bytes.
#[derive(Debug, Clone, Copy, Default, PartialEq, Eq)]
pub struct Counts {
    pub runs: u64,
    pub rows: u64,
    pub bytes: u64,
}

impl Counts {
    pub fn add(&mut self, more: Counts) {
        self.runs += more.runs;
        self.rows += more.rows;
        self.bytes += more.bytes;
    }

    pub fn without(self, less: Counts) -> Counts {
        Counts { runs: self.runs - less.runs, rows: self.rows - less.rows, bytes: self.bytes - less.bytes }
    }
}

/// What a walk came to: the runs that were read or passed over, and where it broke off.
#[derive(Debug, Clone, Copy, Default)]
pub struct Walked {
    /// All runs before the end or the refusal.
    pub all: Counts,
    /// Those of them before the run that holds the first row that was asked for: they were not read.
    pub passed: Counts,
    /// The refusal of the run after them, its bytes counted from the file's first.
    pub refused: Option<Refused>,
}

/// A walk over the runs of an input, from the one that holds row `from` on.
pub struct Walk {
    input: Input,
    stream: Stream,
    from: u64,
    window: Vec<u8>,
    /// How many bytes of the window are the input's, and where the next run begins among them.
    held: usize,
    at: usize,
    /// The first bytes of the input, as the first window had them.
    head: Vec<u8>,
    no_more: bool,
    over: bool,
    rows: Vec<i64>,
    walked: Walked,
}

/// A run that was measured and read.
pub struct Measured {
    pub kind: RunKind,
    pub bits: u64,
    pub rows: usize,
    pub bytes: usize,
}

impl Walk {
    pub fn new(input: Input, stream: Stream, from: u64) -> Self {
        Walk {
            input,
            stream,
            from,
            window: vec![0; WINDOW],
            held: 0,
            at: 0,
            head: Vec::new(),
            no_more: false,
            over: false,
            rows: vec![0; byte_runs::MOST_FLAGS.max(menakovitsy::MAX_ROWS)],
            walked: Walked::default(),
        }
    }

    /// The input's name, for a person.
    pub fn name(&self) -> &str {
        &self.input.name
    }

    /// How far it came.
    pub fn walked(&self) -> Walked {
        self.walked
    }

    /// The next run. Nothing at the end, and nothing if the next run is refused.
    pub fn next_run(&mut self) -> Result<Option<RunAt<'_>>, Failure> {
        if self.over {
            return Ok(None);
        }
        self.hold()?;
        let Some(Measured { kind, bits, rows, bytes }) = self.read()? else {
            self.over = true;
            return Ok(None);
        };
        let begin = self.at;
        let Counts { rows: first, bytes: at, .. } = self.walked.all;
        self.at += bytes;
        let counts = Counts { runs: 1, rows: rows as u64, bytes: bytes as u64 };
        self.walked.all.add(counts);
        let info = RunInfo { at, first, kind, bits, rows: counts.rows, bytes: counts.bytes };
        Ok(Some(RunAt { info, raw: &self.window[begin..self.at], rows: &self.rows[..rows] }))
    }

    /// Reads the run that the window goes on with.
    fn read(&mut self) -> Result<Option<Measured>, Failure> {
        let (held, at) = (&self.window[..self.held], ByteOffset(self.at));
        let read = match self.stream {
            Stream::Integers(sign) => read_run(held, at, sign, &mut self.rows).map(|run| {
                run.map(|run| {
                    let kind = RunKind::of(run.kind);
                    (kind, run.width, run.rows.0, run.bytes.0)
                })
            }),
            stream => byte_runs::read(held, at, stream, &mut self.rows)
                .map(|run| run.map(|run| (Some(run.kind), run.bits, run.rows, run.bytes))),
        };
        match read {
            Ok(Some((Some(kind), bits, rows, bytes))) if rows > 0 && bytes > 0 => {
                Ok(Some(Measured { kind, bits, rows, bytes }))
            }
            Ok(Some(_)) => Err(Failure::Told(
                "the linked library answers what this command does not know: link the library of its own revision"
                    .into(),
            )),
            Ok(None) => Ok(None),
            Err(refused) => {
                self.walked.refused = Some(in_file(refused, self.walked.all.bytes - self.at as u64));
                Ok(None)
            }
        }
    }

    /// Sees to it that the window holds the next run whole, or the input's end.
    fn hold(&mut self) -> Result<(), Failure> {
        let most = if let Stream::Integers(_) = self.stream { MAX_RUN_BYTES } else { byte_runs::MOST_BYTES };
        while !self.no_more && self.held - self.at < most {
            self.window.copy_within(self.at..self.held, 0);
            self.held -= self.at;
            self.at = 0;
            self.no_more = fill(&mut self.input.reader, &mut self.window, &mut self.held)
                .map_err(Failure::unreadable(&self.input.name))?;
            if self.head.is_empty() {
                self.head = self.window[..self.held].to_vec();
            }
            self.pass();
        }
        Ok(())
    }

    /// Passes over the runs of the window before the one that holds the first row that is asked for.
    fn pass(&mut self) {
        let rows = self.from.saturating_sub(self.walked.all.rows);
        if rows > 0 {
            let window = &self.window[..self.held];
            let passed = match self.stream {
                Stream::Integers(_) => passed(window, rows),
                stream => byte_runs::passed(window, stream, rows),
            };
            self.at += passed.bytes as usize;
            self.walked.all.add(passed);
            self.walked.passed.add(passed);
        }
    }

    /// Whether the input begins as a whole ORC file does.
    pub fn is_orc_file(&self) -> bool {
        looks::is_orc_file(&self.head)
    }

    /// What is wrong with the input, if it was refused.
    pub fn trouble(&mut self) -> Result<Option<Trouble>, Failure> {
        let Some(refused) = self.walked.refused else { return Ok(None) };
        let (stream, before, length) = (self.stream, self.walked.all, self.whole_length()?);
        let again = self.input.path.as_ref().and_then(|path| File::open(path).ok());
        let looks = looks::of(&self.head, again, length, before.runs);
        Ok(Some(Trouble { refused, stream, before, length, looks }))
    }

    /// How many bytes a refused input has. A file says it; any other is read to its end.
    fn whole_length(&mut self) -> Result<u64, Failure> {
        let seen = self.walked.all.bytes + (self.held - self.at) as u64;
        match self.input.length {
            Some(length) => Ok(length.max(seen)),
            None => {
                let more = io::copy(&mut self.input.reader, &mut io::sink());
                // Once is enough.
                let all = seen + more.map_err(Failure::unreadable(&self.input.name))?;
                self.input.length = Some(all);
                Ok(all)
            }
        }
    }
}

/// The runs of a window before the one that holds a row, by the window's index; all, if none does.
fn passed(window: &[u8], row: u64) -> Counts {
    // If a run is refused, or goes on after the window, those before it have an index.
    let (whole, index) = match Index::build(window) {
        Ok(index) => (window, Ok(index)),
        Err(refused) => {
            let before = refused.at.and_then(|at| window.get(..at.0)).unwrap_or_default();
            (before, Index::build(before))
        }
    };
    let Ok(index) = index else { return Counts::default() };
    let [firsts, ..] = index.columns();
    match index.look_up(whole, RowNumber(row as usize)) {
        Ok(entry) => Counts {
            runs: firsts.partition_point(|first| *first < entry.first.0 as u64) as u64,
            rows: entry.first.0 as u64,
            bytes: entry.at.0 as u64,
        },
        Err(_) => {
            Counts { runs: firsts.len() as u64, rows: index.row_count().0 as u64, bytes: whole.len() as u64 }
        }
    }
}

/// A refusal in the window, as one in the file.
fn in_file(mut refused: Refused, before: u64) -> Refused {
    let before = ByteOffset(before as usize);
    refused.at = refused.at.map(|byte| before + byte);
    refused.cut = refused.cut.map(|byte| before + byte);
    refused
}

/// Reads until the window is full; yes if the input has ended.
fn fill(input: &mut impl Read, window: &mut [u8], held: &mut usize) -> io::Result<bool> {
    while *held < window.len() {
        match input.read(&mut window[*held..]) {
            Ok(0) => return Ok(true),
            Ok(more) => *held += more,
            Err(error) if error.kind() == ErrorKind::Interrupted => {}
            Err(error) => return Err(error),
        }
    }
    Ok(false)
}
