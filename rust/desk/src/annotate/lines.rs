//! The text: a line for each run, the summary, and what became of the file.
use std::io::{self, Write};

use menakovitsy::Refusal;

use super::End;
use crate::advice::{self, wrapped, Trouble};
use crate::numbers::many;
use crate::stream::Stream;
use crate::walk::{Counts, RunAt, Walked};

/// Where an advice begins.
const INDENT: usize = 14;

pub fn head(output: &mut impl Write) -> io::Result<()> {
    writeln!(
        output,
        "{:>10} {:>10}  {:<12} {:>4} {:>5} {:>5}  values",
        "byte", "row", "kind", "bits", "rows", "bytes"
    )
}

pub fn run(output: &mut impl Write, run: &RunAt, stream: Stream) -> io::Result<()> {
    let crate::walk::RunInfo { at, first, kind, bits, rows, bytes } = run.info;
    write!(output, "{at:>10} {first:>10}  {kind:<12} {bits:>4} {rows:>5} {bytes:>5}  ")?;
    if stream == Stream::Flags {
        return writeln!(output, "{} true", super::trues(run.rows));
    }
    match (run.rows.iter().min(), run.rows.iter().max()) {
        (Some(smallest), Some(largest)) if smallest != largest => writeln!(output, "{smallest} to {largest}"),
        (Some(only), _) => writeln!(output, "{only}"),
        _ => writeln!(output),
    }
}

/// The summary, and then that the file is whole, or where and why it breaks off.
pub fn end(output: &mut impl Write, end: &End) -> io::Result<()> {
    let Walked { all, passed, .. } = end.walked;
    if all.runs > passed.runs {
        writeln!(output, "\n{:<12} {:>4} {:>10} {:>12} {:>12}", "kind", "bits", "runs", "rows", "bytes")?;
        for (kind, bits, Counts { runs, rows, bytes }) in end.summary.counts() {
            writeln!(output, "{kind:<12} {bits:>4} {runs:>10} {rows:>12} {bytes:>12}")?;
        }
        let Counts { runs, rows, bytes } = all.without(passed);
        writeln!(output, "{:<12} {:>4} {runs:>10} {rows:>12} {bytes:>12}\n", "all", "")?;
    }
    if passed.runs > 0 {
        writeln!(output, "passed over, before row {}: {}\n", end.from, counts(passed))?;
    }
    match &end.trouble {
        None if end.from > 0 && end.from >= all.rows => no_such_row(output, all),
        None if all.runs == 0 => writeln!(output, "whole: the file is empty"),
        None => writeln!(output, "whole: {}", counts(all)),
        Some(trouble) => broke_off(output, end, trouble),
    }?;
    if end.trouble.is_none() && end.is_orc_file {
        writeln!(output, "  note:       {}", wrapped(advice::ORC_FILE, INDENT))?;
    }
    Ok(())
}

/// How many rows there are, and what they take up.
pub fn counts(Counts { runs, rows, bytes }: Counts) -> String {
    format!("{} in {}, {}", many(rows, "row"), many(runs, "run"), many(bytes, "byte"))
}

fn no_such_row(output: &mut impl Write, all: Counts) -> io::Result<()> {
    let refusal = Refusal::NoSuchRow;
    writeln!(output, "refusal {}: {}", refusal.number(), refusal.meaning())?;
    match all.rows.checked_sub(1) {
        None => writeln!(output, "  what to do: the file is empty: there is no row to start at"),
        Some(last) => {
            writeln!(output, "  the file is whole: {}", counts(all))?;
            writeln!(output, "  what to do: start at a row from 0 to {last}")
        }
    }
}

fn broke_off(output: &mut impl Write, end: &End, trouble: &Trouble) -> io::Result<()> {
    let Walked { all, passed, .. } = end.walked;
    let refused = trouble.refused;
    writeln!(output, "breaks off at byte {}, where row {} would begin", all.bytes, all.rows)?;
    writeln!(output, "  refusal {}: {}", refused.refusal.number(), refused.meaning())?;
    let read = if passed.runs == 0 { "read" } else { "read or passed over" };
    writeln!(output, "  before it:  {}, all {read}", counts(all))?;
    if end.from > 0 && end.from >= all.rows {
        writeln!(output, "  row {}: not among them", end.from)?;
    }
    writeln!(output, "  from it on: {} of {} bytes, not read", end.length - all.bytes, end.length)?;
    writeln!(output, "  what to do: {}", wrapped(&trouble.advice(), INDENT))
}
