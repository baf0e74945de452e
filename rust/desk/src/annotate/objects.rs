//! The same as JSON lines.
use std::io::{self, Write};

use menakovitsy::Refusal;

use super::End;
use crate::advice::{self, Trouble};
use crate::json::Object;
use crate::stream::Stream;
use crate::walk::{Counts, RunAt, RunInfo};

pub fn run(output: &mut impl Write, run: &RunAt, stream: Stream) -> io::Result<()> {
    let RunInfo { at, first, kind, bits, rows, bytes } = run.info;
    let object = Object::new("run").number("byte", at).number("row", first).text("kind", kind.name());
    let object = object.number("bits", bits).number("rows", rows).number("bytes", bytes);
    let object = match (run.rows.iter().min(), run.rows.iter().max()) {
        _ if stream == Stream::Flags => object.number("true", super::trues(run.rows)),
        (Some(smallest), Some(largest)) => object.row("smallest", *smallest).row("largest", *largest),
        _ => object,
    };
    output.write_all(object.line().as_bytes())
}

/// The counts by kind and width, what was passed over, and that the file is whole, or why it is not.
pub fn end(output: &mut impl Write, end: &End) -> io::Result<()> {
    let mut text = String::new();
    for (kind, bits, counts) in end.summary.counts() {
        let object = Object::new("count").text("kind", kind.name()).number("bits", bits);
        text += &counted(object, counts).line();
    }
    let (all, passed) = (end.walked.all, end.walked.passed);
    if passed.runs > 0 {
        text += &counted(Object::new("passed").number("before_row", end.from), passed).line();
    }
    let last = match &end.trouble {
        Some(trouble) => refused(trouble),
        None if end.from > 0 && end.from >= all.rows => no_such_row(end.from, all),
        None => counted(Object::new("whole"), all),
    };
    let noted = end.trouble.is_none() && end.is_orc_file;
    let last = if noted { last.text("note", advice::ORC_FILE) } else { last };
    output.write_all((text + &last.line()).as_bytes())
}

fn counted(object: Object, Counts { runs, rows, bytes }: Counts) -> Object {
    object.number("runs", runs).number("rows", rows).number("bytes", bytes)
}

/// A stream that is refused.
pub fn refused(trouble: &Trouble) -> Object {
    let Trouble { refused, before, length, .. } = trouble;
    let object = Object::new("refused").number("refusal", refused.refusal.number());
    let object = object.number("byte", before.bytes).number("row", before.rows);
    let object = object.optional("cut_byte", refused.cut.map(|byte| byte.0 as u64));
    let object = object.text("meaning", &refused.meaning()).text("advice", &trouble.advice());
    counted(object, *before).number("length", *length)
}

/// A row that is asked for and is not there.
pub fn no_such_row(row: u64, all: Counts) -> Object {
    let refusal = Refusal::NoSuchRow;
    let object = Object::new("refused").number("refusal", refusal.number()).number("row", row);
    counted(object.text("meaning", refusal.meaning()).text("advice", refusal.advice()), all)
}
