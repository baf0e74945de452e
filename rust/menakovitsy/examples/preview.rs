//! Starts a preview at any chunk of a column, without reading the rows before it.
//!
//! ```text
//! cargo run --offline -p menakovitsy --example preview
//! ```
use menakovitsy::{Form, Index, Refused, RowNumber, Sign, MAX_WRITTEN};

/// The samples that the chunks begin at, from chunk n on.
fn preview(column: &[u8], n: usize) -> Result<Vec<i64>, Refused> {
    let index = Index::build(column)?;
    index.rows_from(column, RowNumber(n), Sign::Unsigned)
}

/// A column of 2,000 chunks of half a second each, 500 chunks a run.
fn column() -> Result<Vec<u8>, Refused> {
    let begins: Vec<i64> = (0..2_000).map(|chunk| 22_050 * chunk).collect();
    let mut column = Vec::new();
    for rows in begins.chunks(500) {
        let mut run = vec![0; MAX_WRITTEN];
        let written = menakovitsy::write_run(rows, Sign::Unsigned, Form::FixedDelta, 0, &mut run)?;
        column.extend(run.into_iter().take(written.bytes.0));
    }
    Ok(column)
}

/// What it says: the example's test compares it.
pub fn report() -> Result<String, Refused> {
    let column = column()?;
    let index = Index::build(&column)?;
    let entry = index.look_up(&column, RowNumber(1_234))?;
    let begins = preview(&column, 1_234)?;
    let first = begins.first().copied().unwrap_or_default();
    let none = preview(&column, 2_000).map_or_else(|refused| refused.to_string(), |_| String::new());
    Ok(format!(
        "{} bytes, {} runs, {} chunks\n\
         chunk 1234 is in the run at byte {}, whose first is chunk {}\n\
         the preview begins at sample {first}: {} chunks are left\n\
         chunk 2000: {none}\n",
        column.len(),
        index.columns()[0].len(),
        index.row_count(),
        entry.at,
        entry.first,
        begins.len()
    ))
}

#[allow(dead_code)] // the test takes this file in and calls `report`
fn main() -> Result<(), Refused> {
    print!("{}", report()?);
    Ok(())
}
