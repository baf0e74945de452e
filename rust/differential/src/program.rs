//! The programs: what the rules have `runs` write, by the model, and where they are found. What `totals`
//! writes is the model's report.
use std::env;
use std::path::PathBuf;

/// What the rules have `runs` write for its input.
pub use model::answer_lines as text;

/// The program `runs` that `RUNS` names, or the repository's own.
pub fn find() -> Result<PathBuf, String> {
    found("runs", "RUNS")
}

/// The program `totals` that `TOTALS` names, or the repository's own.
pub fn find_totals() -> Result<PathBuf, String> {
    found("totals", "TOTALS")
}

fn found(name: &str, variable: &str) -> Result<PathBuf, String> {
    let crates = concat!(env!("CARGO_MANIFEST_DIR"), "/../../crates");
    let own = [crates, name, "out", name].iter().collect();
    let program = env::var_os(variable).map_or(own, PathBuf::from);
    if program.is_file() {
        return Ok(program);
    }
    Err(format!(
        "the program {} is missing: `rt ci` leaves it there, and so does `rt run </dev/null` in \
         crates/{name}; or set {variable} to its path",
        program.display()
    ))
}
