//! The proved functions, linked: held to the model's answers, every place included.
pub mod batches;
pub mod byte_writer;
mod columns;
pub mod rescue;

use menakovitsy::{
    read_run, read_run_bytes, write_patched, ByteOffset, Column, Refusal, Refused, Sign, MAX_ROWS,
    MAX_WRITTEN,
};
use model::{Answer, Info, Kind, Stream, Written};

/// What lent bytes and rows hold before a call.
const BEFORE: u8 = 0xEE;
const ROW_BEFORE: i64 = 7777;

/// The lent bytes: 512 places and a trailing part that is none.
const LENT: usize = 8 * 512 + 5;

fn sign(signed: bool) -> Sign {
    if signed {
        Sign::Signed
    } else {
        Sign::Unsigned
    }
}

/// The place of a refusal in the model's words: 0 if it is of no byte of an input.
fn place(refused: &Refused) -> usize {
    refused.at.unwrap_or_default().0
}

/// A run of the library's in the model's words.
fn info(run: menakovitsy::Run) -> Option<Info> {
    let kind = match run.kind {
        menakovitsy::Kind::ShortRepeat => Kind::ShortRepeat,
        menakovitsy::Kind::Direct => Kind::Direct,
        menakovitsy::Kind::PatchedBase => Kind::PatchedBase,
        menakovitsy::Kind::Delta => Kind::Delta,
        _ => return None,
    };
    Some(Info { kind, width: run.width as usize, rows: run.rows.0, bytes: run.bytes.0 })
}

/// The library with the bytes that it is lent.
pub struct Ours {
    out: Vec<u8>,
    calls: u64,
}

impl Ours {
    pub fn start() -> Self {
        Ours { out: vec![BEFORE; LENT], calls: 0 }
    }

    /// Holds the library to the model on one input: how many answers were right, or what was wrong.
    pub fn check(&mut self, bytes: &[u8], signed: bool, paper: &Answer) -> Result<u64, String> {
        self.calls += 1;
        self.call(bytes, signed, paper, LENT)?;
        if !self.calls.is_multiple_of(4) {
            return Ok(1);
        }
        Self::named(bytes, signed, paper)?;
        // Any other refusal comes before the want of places.
        let Answer::Run(run) = paper else {
            self.call(bytes, signed, paper, 0)?;
            return Ok(3);
        };
        // Just enough places, and one too few with all but one byte of another.
        let refusal = model::Refusal::whole(8, 0);
        self.call(bytes, signed, paper, 8 * run.rows.len())?;
        self.call(bytes, signed, &Answer::Refused(refusal), 8 * run.rows.len() - 1)?;
        Ok(4)
    }

    /// Holds what the answer says of the run, or of its refusal, to the model.
    fn named(bytes: &[u8], signed: bool, paper: &Answer) -> Result<(), String> {
        let answer = read_run(bytes, ByteOffset(0), sign(signed), &mut [0; MAX_ROWS]);
        let right = match (&answer, paper) {
            (Ok(None), Answer::End) => true,
            (Ok(Some(run)), Answer::Run(paper)) => info(*run) == Some(paper.info()),
            (Err(told), Answer::Refused(paper)) => {
                let cut = told.cut.map(|byte| byte.0);
                (told.refusal.number(), place(told), cut) == (paper.number.into(), paper.place, paper.cut)
            }
            _ => false,
        };
        if right {
            return Ok(());
        }
        Err(format!("{answer:?}"))
    }

    fn call(&mut self, bytes: &[u8], signed: bool, paper: &Answer, lent: usize) -> Result<(), String> {
        let answer = read_run_bytes(bytes, sign(signed), &mut self.out[..lent]);
        let (right, rows) = match (&answer, paper) {
            (Ok(None), Answer::End) => (true, &[][..]),
            (Err(refusal), Answer::Refused(paper)) => {
                (*refusal == Refusal::of_number(paper.number.into()), &[][..])
            }
            (Ok(Some(run)), Answer::Run(paper)) => {
                (run.rows.0 == paper.rows.len() && run.bytes.0 == paper.consumed, &paper.rows[..])
            }
            _ => (false, &[][..]),
        };
        let (given, kept) = self.out.split_at(8 * rows.len());
        let rows_right = given.chunks_exact(8).zip(rows).all(|(eight, row)| eight == row.to_le_bytes());
        let kept_right = *kept == [BEFORE; LENT][..kept.len()];
        if right && rows_right && kept_right {
            self.out[..8 * rows.len()].fill(BEFORE);
            return Ok(());
        }
        self.out.fill(BEFORE);
        let touched = if kept_right { "" } else { ", and a place that must keep its content changed" };
        Err(format!("{answer:?}{touched}; {lent} bytes lent"))
    }

    /// Holds the patched writer to the model, with just enough places, and one too few.
    pub fn check_patched(rows: &[i64], base: i64, width: u8, paper: &Written) -> Result<u64, String> {
        let Written::Run { bytes, .. } = paper else {
            return Self::patched(rows, base, width, paper, MAX_WRITTEN).map(|()| 1);
        };
        Self::patched(rows, base, width, paper, bytes.len())?;
        let refused = Written::Refused(model::Refusal::whole(8, 0));
        Self::patched(rows, base, width, &refused, bytes.len() - 1).map(|()| 2)
    }

    fn patched(rows: &[i64], base: i64, width: u8, paper: &Written, lent: usize) -> Result<(), String> {
        let mut out = vec![BEFORE; lent];
        let answer = write_patched(rows, base, width, &mut out);
        let right = match (&answer, paper) {
            (Ok(run), Written::Run { bytes, .. }) => info(*run) == paper.info() && out == *bytes,
            (Err(told), Written::Refused(paper)) => {
                (told.refusal.number(), place(told), told.cut) == (paper.number.into(), paper.place, None)
                    && out.iter().all(|byte| *byte == BEFORE)
            }
            _ => false,
        };
        if right {
            return Ok(());
        }
        Err(format!("{answer:?}, {out:02x?}; {lent} bytes lent"))
    }

    /// Holds the wrapper's column to the model's stream: read at once, by runs, by rows, and into a
    /// list of its own. How many answers were right, or what was wrong.
    pub fn check_column(bytes: &[u8], signed: bool, paper: &Stream) -> Result<u64, String> {
        let column = Column::new(bytes, sign(signed));
        let (expected, consumed, last, refused) = match paper {
            Stream::Whole { rows, consumed, last } => (rows, *consumed, *last, None),
            Stream::Refused { refusal, rows, consumed, last } => (rows, *consumed, *last, Some(*refusal)),
        };
        let right = |given: &[i64], answer: Result<(), menakovitsy::StreamRefused>, how: &str| {
            let told = answer.err().map(|told| {
                let counts = (told.before.rows.0, told.before.bytes.0) == (expected.len(), consumed)
                    && told.before.last.and_then(info) == last;
                let cut = told.refused.cut.map(|byte| byte.0);
                (told.refused.refusal.number(), place(&told.refused), cut, counts)
            });
            let paper = refused.map(|refusal| (refusal.number.into(), refusal.place, refusal.cut, true));
            if given == expected && told == paper {
                return Ok(());
            }
            Err(format!("{how}: rows {given:?}, {answer:?}"))
        };

        // With a run's places more, none is refused for want of them.
        let mut rows = vec![ROW_BEFORE; expected.len() + MAX_ROWS];
        let answer = column.read_into(&mut rows);
        if let Ok(stream) = answer {
            let counts = (stream.rows.0, stream.bytes.0, stream.last.and_then(info));
            if counts != (expected.len(), consumed, last) {
                return Err(format!("read_into: {answer:?}"));
            }
        }
        if rows[expected.len()..].iter().any(|place| *place != ROW_BEFORE) {
            return Err("read_into: a place behind the rows changed".into());
        }
        right(&rows[..expected.len()], answer.map(drop), "read_into")?;

        rows.clear();
        let mut runs = column.runs();
        let mut answer = Ok(());
        while let Some(run) = runs.next_run() {
            match run {
                Ok(run) => rows.extend(run.rows),
                Err(told) => answer = Err(told),
            }
        }
        right(&rows, answer, "runs")?;
        let given = runs.given();
        if runs.position() != ByteOffset(consumed) || given.last.and_then(info) != last {
            return Err(format!("runs: {given:?}"));
        }

        rows.clear();
        let mut answer = Ok(());
        for row in column {
            match row {
                Ok(row) => rows.push(row),
                Err(told) => answer = Err(told),
            }
        }
        right(&rows, answer, "rows")?;

        rows.clear();
        let answer = column.read_to_end(&mut rows).map(drop);
        right(&rows, answer, "read_to_end")?;
        Ok(4)
    }
}
