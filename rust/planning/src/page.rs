//! docs/PLANNER.md: the bytes of all named columns, by the planner and by what it is measured against.
use std::fmt::Write as _;
use std::thread;

use model::{check_proposal, optimum, Lists, Segment};

use crate::apache::apache;
use crate::columns::{columns, Named};
use crate::runs::{narrowest_direct, widest_direct};

/// The rows of each column, and the first of them that the optimum is found for.
const ROWS: i64 = 5_000;
const FEW: usize = 60;

/// The proposals are the linked library's.
#[cfg(feature = "ours")]
const PLANNER: &str = "The planner is the library's, `orc_plan`.";

/// What the planner that the page shows proposes.
#[cfg(feature = "ours")]
pub fn planned(rows: &[i64], signed: bool) -> Vec<Segment> {
    let sign = if signed { menakovitsy::Sign::Signed } else { menakovitsy::Sign::Unsigned };
    model::proposal_of(menakovitsy::plan(rows, sign).columns()).expect("columns of one length")
}

/// They are those of the planner in Rust: the library is not linked.
#[cfg(not(feature = "ours"))]
const PLANNER: &str =
    "The planner is the one in `rust/planning`, an oracle of the tests: the library's is not linked.";

/// What the planner that the page shows proposes.
#[cfg(not(feature = "ours"))]
pub fn planned(rows: &[i64], signed: bool) -> Vec<Segment> {
    crate::planner::proposed(rows, signed)
}

/// A column's bytes.
pub struct Figures {
    pub name: &'static str,
    pub signed: bool,
    /// All rows: the planner, direct runs of 64 bits, narrowest direct runs, the Apache model.
    pub all: [usize; 4],
    /// The first rows: the planner, the Apache model, the least of all proposals, and the least of those
    /// without an empty patch list.
    pub few: [usize; 4],
}

/// The figures of all columns, in their order: a thread for each, since the optimum takes long.
pub fn figures() -> Vec<Figures> {
    thread::scope(|scope| {
        let started: Vec<_> =
            columns(ROWS).into_iter().map(|column| scope.spawn(move || of_column(column))).collect();
        started.into_iter().map(|figures| figures.join().expect("a column's figures")).collect()
    })
}

fn of_column(Named { name, signed, rows }: Named) -> Figures {
    let size = |rows: &[i64], plan: &[Segment]| {
        check_proposal(rows, signed, plan, usize::MAX).expect("it is accepted").len()
    };
    let (rows, few) = (&rows[..], &rows[..FEW]);
    let all = [
        size(rows, &planned(rows, signed)),
        size(rows, &widest_direct(rows)),
        size(rows, &narrowest_direct(rows, signed)),
        size(rows, &apache(rows, signed)),
    ];
    let few = [
        size(few, &planned(few, signed)),
        size(few, &apache(few, signed)),
        optimum(few, signed, Lists::Any).0,
        optimum(few, signed, Lists::NotEmpty).0,
    ];
    Figures { name, signed, all, few }
}

/// The sums over all columns.
pub fn sums(figures: &[Figures]) -> ([usize; 4], [usize; 4]) {
    let sum = |of: &dyn Fn(&Figures) -> usize| figures.iter().map(of).sum();
    let all = std::array::from_fn(|k| sum(&|column| column.all[k]));
    (all, std::array::from_fn(|k| sum(&|column| column.few[k])))
}

fn line(text: &mut String, name: &str, flag: &str, numbers: [usize; 4]) {
    let cells = numbers.map(|number| number.to_string()).join(" | ");
    writeln!(text, "| {name} | {flag} | {cells} |").expect("a string takes it");
}

fn flag(column: &Figures) -> &'static str {
    if column.signed {
        "signed"
    } else {
        "unsigned"
    }
}

/// The page.
pub fn text(figures: &[Figures]) -> String {
    let (all, few) = sums(figures);
    let mut text = format!(
        "# What the planner makes of {} columns\n\n\
         The rules are in [FORMAT.md](FORMAT.md), \"Column writer\" and \"Planner\". {PLANNER} `cargo run --release --offline -p planning` in `rust/` writes this \
         page; a test of that crate says when it is stale. The columns are those of \
         `rust/planning/src/columns.rs`, the same on every machine. Each proposal is one \
         that the model of the check accepts, and the bytes are those that the model of the writer makes.\n\n\
         - **Direct 64**: direct runs of 64 bits, 512 rows each, which are written where a proposal is not \
         accepted.\n\
         - **Narrowest direct**: direct runs of 512 rows, each at the narrowest kept width.\n\
         - **Apache model**: the Apache ORC writer's own choices, by its public algorithm, at kept widths \
         (`rust/planning/src/apache.rs`).\n\n\
         ## Bytes of {ROWS} rows\n\n\
         | Column | Flag | Planner | Direct 64 | Narrowest direct | Apache model |\n\
         |---|---|---:|---:|---:|---:|\n",
        figures.len()
    );
    for column in figures {
        line(&mut text, column.name, flag(column), column.all);
    }
    line(&mut text, "**Sum**", "", all);
    let above = figures.iter().filter(|column| column.all[0] > column.all[3]).count();
    write!(
        text,
        "\nThe planner is above the Apache model on {above} of {} columns, and at {:.3} of it on the sum.\n\n\
         ## Bytes of the first {FEW} rows, against the optimum\n\n\
         The optimum is the least over all cuts, forms, widths and bases (`rust/model/src/optimum.rs`). In the \
         last column it is that without patched runs that have an empty list, which other readers do not read \
         (docs/DIFFERENCES.md, `empty-list`) and the planner does not propose.\n\n\
         | Column | Flag | Planner | Apache model | Optimum | Without empty lists |\n\
         |---|---|---:|---:|---:|---:|\n",
        figures.len(),
        all[0] as f64 / all[3] as f64,
    )
    .expect("a string takes it");
    for column in figures {
        line(&mut text, column.name, flag(column), column.few);
    }
    line(&mut text, "**Sum**", "", few);
    let over = |which: usize| few[which] as f64 / few[2] as f64;
    writeln!(
        text,
        "\nOn the sum the planner takes {:.3} times the optimum, and the Apache model {:.3} times.",
        over(0),
        over(1)
    )
    .expect("a string takes it");
    text
}
