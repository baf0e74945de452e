//! The table, in markdown.
use std::fmt::Write as _;

use crate::booleans::{FlagTimes, Flags};
use crate::cases::{Case, Group};
use crate::measure::Times;
use crate::parts::PartTimes;

/// A number of a row, if it was timed.
type Number = fn(&Row) -> Option<f64>;

/// A case with its times.
pub struct Row {
    pub case: Case,
    pub times: Times,
}

pub fn cell(number: Option<f64>) -> String {
    number.map_or_else(|| "-".into(), |number| format!("{number:.2}"))
}

/// One over the other, where both were timed.
pub fn ratio(over: Option<f64>, under: Option<f64>) -> Option<f64> {
    Some(over? / under?)
}

/// The geometric mean of those that there are.
pub fn mean(numbers: impl Iterator<Item = Option<f64>>) -> Option<f64> {
    let logarithms: Vec<f64> = numbers.flatten().map(f64::ln).collect();
    let count = logarithms.len() as f64;
    (!logarithms.is_empty()).then(|| (logarithms.iter().sum::<f64>() / count).exp())
}

/// How many times as fast as the Rust ours is.
pub fn faster(row: &Row) -> Option<f64> {
    ratio(row.times.rust, row.times.ours)
}

/// How many times as long as a copy ours takes.
pub fn over_copy(row: &Row) -> Option<f64> {
    ratio(row.times.ours, Some(row.times.copy))
}

/// The same of the stream reader.
fn stream_faster(row: &Row) -> Option<f64> {
    ratio(row.times.rust, row.times.stream)
}

fn stream_over_copy(row: &Row) -> Option<f64> {
    ratio(row.times.stream, Some(row.times.copy))
}

/// The rows of one name, unsigned and signed.
pub type Pair<'a, T> = (String, [Option<&'a T>; 2]);

/// Pairs what is timed unsigned with what is timed signed, by its name.
pub fn paired<'a, T>(
    rows: impl IntoIterator<Item = &'a T>,
    named: fn(&T) -> (&str, bool),
) -> Vec<Pair<'a, T>> {
    let mut pairs: Vec<Pair<'a, T>> = Vec::new();
    for row in rows {
        let (name, signed) = named(row);
        let at = pairs.iter().position(|(other, _)| other == name).unwrap_or(pairs.len());
        if at == pairs.len() {
            pairs.push((name.into(), [None, None]));
        }
        pairs[at].1[usize::from(signed)] = Some(row);
    }
    pairs
}

/// The number of both rows of a pair.
pub fn both<T>(pair: &Pair<T>, number: impl Fn(&T) -> Option<f64>) -> [Option<f64>; 2] {
    pair.1.map(|row| row.and_then(&number))
}

/// A line of a table: its name, and its numbers.
pub fn line(text: &mut String, name: &str, numbers: &[Option<f64>]) {
    let cells: Vec<String> = numbers.iter().copied().map(cell).collect();
    writeln!(text, "| {name} | {} |", cells.join(" | ")).expect("a string takes it");
}

/// The head of a table whose columns, but for the first, are numbers.
pub fn head(text: &mut String, title: &str, columns: &str) {
    let numbers = "---:|".repeat(columns.matches('|').count());
    write!(text, "\n## {title}\n\n| {} |\n|---|{numbers}\n", columns.replace('|', " | "))
        .expect("a string takes it");
}

/// The name without what its section says of all.
pub fn short(name: &str) -> &str {
    name.strip_prefix("direct, width ").unwrap_or(name)
}

/// Whether a table that goes by the stream reader's times shows a case: of direct runs the byte widths that most
/// columns have, and two others. Its means are over all cases.
#[cfg(feature = "ours")]
pub fn shown(name: &str) -> bool {
    short(name).parse().map_or(true, |bits: usize| [1, 8, 16, 17, 24, 32, 64].contains(&bits))
}

/// Billions of bytes a second, those read and those written, of both rows of a pair.
fn pace(pair: &Pair<Row>, time: impl Fn(&Row) -> Option<f64>, read: fn(&Case) -> usize) -> [String; 2] {
    let pace = |row: &Row| {
        let rows = row.case.rows.len();
        Some((read(&row.case) + 8 * rows) as f64 / (time(row)? * rows as f64))
    };
    both(pair, pace).map(|pace| pace.map_or_else(|| "-".into(), |pace| format!("{pace:.0}")))
}

fn named(row: &Row) -> (&str, bool) {
    (&row.case.name, row.case.signed)
}

/// The times of long buffers, and how they stand to a copy.
fn long(text: &mut String, title: &str, rows: &[&Row]) {
    let columns = "Runs|Copy|Rust|signed|A call a run|signed|Stream|signed|Stream / copy|signed|GB/s, copy|GB/s, stream|signed";
    head(text, title, columns);
    for pair in paired(rows.iter().copied(), named) {
        let copy = both(&pair, |row| Some(row.times.copy)).into_iter().flatten().reduce(f64::min);
        let [copied, _] = pace(&pair, |_| copy, |case| 8 * case.rows.len());
        let [read, signed] = pace(&pair, |row| row.times.stream, |case| case.bytes.len());
        let times: [Number; 4] =
            [|row| row.times.rust, |row| row.times.ours, |row| row.times.stream, stream_over_copy];
        let times = times.map(|time| both(&pair, time)).concat();
        let times = [&[copy], &times[..]].concat().into_iter().map(cell).collect::<Vec<_>>().join(" | ");
        writeln!(text, "| {} | {times} | {copied} | {read} | {signed} |", short(&pair.0))
            .expect("a string takes it");
    }
}

/// One short run a call.
fn single(text: &mut String, title: &str, rows: &[&Row]) {
    head(text, title, "Runs|Copy|Rust|signed|Ours|signed");
    for pair in paired(rows.iter().copied(), named) {
        let copy = both(&pair, |row| Some(row.times.copy)).into_iter().flatten().reduce(f64::min);
        let times: [Number; 2] = [|row| row.times.rust, |row| row.times.ours];
        let times = times.map(|time| both(&pair, time)).concat();
        line(text, &pair.0, &[&[copy], &times[..]].concat());
    }
}

/// What the times of integer runs come to.
fn means(text: &mut String, groups: &[(&str, &Vec<&Row>)]) {
    head(
        text,
        "Integer runs: geometric means",
        "|Rust / a call a run|Rust / stream|A call a run / copy|Stream / copy",
    );
    let numbers: [Number; 4] = [faster, stream_faster, over_copy, stream_over_copy];
    for (name, rows) in groups {
        let means = numbers.map(|number| mean(rows.iter().map(|row| number(row))));
        line(text, &format!("geometric mean of {name}"), &means);
    }
}

/// Booleans, nanoseconds a boolean.
fn booleans(text: &mut String, flags: &[(Flags, FlagTimes)]) {
    head(text, "Booleans: nanoseconds a boolean", "Byte runs|Ours|Rust|Copy|Rust / ours|Ours / copy");
    let faster = |times: &FlagTimes| ratio(times.rust, times.ours);
    let over_copy = |times: &FlagTimes| ratio(times.ours, Some(times.copy));
    for (case, times) in flags {
        let numbers = [times.ours, times.rust, Some(times.copy), faster(times), over_copy(times)];
        line(text, &case.name, &numbers);
    }
    let faster = cell(mean(flags.iter().map(|(_, times)| faster(times))));
    let over = cell(mean(flags.iter().map(|(_, times)| over_copy(times))));
    writeln!(text, "| geometric mean | | | | {faster} | {over} |").expect("a string takes it");
}

/// Columns in parts.
fn parts(text: &mut String, columns: &[(Case, PartTimes)]) {
    let titles = "Runs|Stream|Parts of 64 KB|Parts of 100 bytes|64 KB / stream|100 bytes / stream";
    head(text, "Columns in parts: nanoseconds a row", titles);
    let over = |times: &PartTimes, size: usize| ratio(times.parts[size], times.stream);
    for (case, times) in columns {
        let numbers = [times.stream, times.parts[0], times.parts[1], over(times, 0), over(times, 1)];
        line(text, &case.name, &numbers);
    }
    let [large, small] = [0, 1].map(|size| cell(mean(columns.iter().map(|(_, times)| over(times, size)))));
    writeln!(text, "| geometric mean | | | | {large} | {small} |").expect("a string takes it");
}

/// All tables.
pub fn markdown(rows: &[Row], flags: &[(Flags, FlagTimes)], columns: &[(Case, PartTimes)]) -> String {
    let mut text = String::new();
    let of = |keep: fn(Group) -> bool| rows.iter().filter(|row| keep(row.case.group)).collect::<Vec<_>>();
    let [direct, other, short] = [
        of(|group| matches!(group, Group::Direct(_))),
        of(|group| group == Group::Long),
        of(|group| group == Group::Single),
    ];
    let all = rows.iter().collect();
    let groups = [
        ("direct runs", &direct),
        ("other runs in long buffers", &other),
        ("short runs by themselves", &short),
        ("all", &all),
    ];
    means(&mut text, &groups);
    long(&mut text, "Direct runs of 512 rows, by width in bits", &direct);
    long(&mut text, "Other runs in long buffers", &other);
    single(&mut text, "One short run by itself", &short);
    booleans(&mut text, flags);
    parts(&mut text, columns);
    text
}
