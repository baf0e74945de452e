//! Columns written: planning, and planning and writing together, over the named columns that the planner is
//! measured on.
use std::fmt::Write as _;
use std::hint::black_box;

use menakovitsy::{column_room, plan, write_column, Column, Sign};
use planning::columns::{columns, Named};

use crate::measure::take_turns;

/// The rows of each column.
const ROWS: i64 = 20_000;

/// The least rows a second that request 10 asks for, in millions.
const BAR: f64 = 10.0;

/// A column, and nanoseconds a row: of planning, and of planning and writing.
pub struct Written {
    name: &'static str,
    plan: f64,
    write: f64,
}

pub fn measure(samples: usize) -> Vec<Written> {
    let timed = |Named { name, signed, rows }: Named| {
        let sign = if signed { Sign::Signed } else { Sign::Unsigned };
        let mut out = vec![0; column_room(rows.len())];
        let written = write_column(&rows, sign, &mut out).expect("there is room");
        let back = Column::new(&out[..written.bytes.0], sign).to_vec();
        assert_eq!(back.as_deref(), Ok(&rows[..]), "{name}: other rows");
        let mut plan = || drop(black_box(plan(black_box(&rows), sign)));
        let mut write = || {
            let written = write_column(black_box(&rows), sign, black_box(&mut out));
            debug_assert!(written.is_ok());
        };
        let times = take_turns(rows.len(), 1, samples, &mut [&mut plan, &mut write]);
        Written { name, plan: times[0], write: times[1] }
    };
    columns(ROWS).into_iter().map(timed).collect()
}

/// Millions of rows a second.
fn pace(nanoseconds: f64) -> f64 {
    1_000.0 / nanoseconds
}

pub fn markdown(columns: &[Written]) -> String {
    let mut text = format!(
        "\n## Columns written: `orc_plan` and `orc_write_column`, through `write_column` of the wrapper\n\n\
         The named columns of docs/PLANNER.md, {ROWS} rows each; what is written was read back as the rows. \
         The bar of request 10 is {BAR:.0} million rows a second for planning and writing together.\n\n\
         | Column | Planning, ns a row | Planning and writing, ns a row | Million rows a second |\n\
         |---|---:|---:|---:|\n"
    );
    for Written { name, plan, write } in columns {
        writeln!(text, "| {name} | {plan:.1} | {write:.1} | {:.1} |", pace(*write))
            .expect("a string takes it");
    }
    let count = columns.len() as f64;
    let [plan, write] = [
        columns.iter().map(|column| column.plan).sum::<f64>() / count,
        columns.iter().map(|column| column.write).sum::<f64>() / count,
    ];
    writeln!(text, "| all, one behind the other | {plan:.1} | {write:.1} | {:.1} |", pace(write))
        .expect("a string takes it");
    let below = columns.iter().filter(|column| pace(column.write) < BAR).count();
    let least = columns.iter().map(|column| pace(column.write)).fold(f64::INFINITY, f64::min);
    writeln!(
        text,
        "\nThe least is {least:.1} million; {below} of {} columns are below the bar.",
        columns.len()
    )
    .expect("a string takes it");
    text
}
