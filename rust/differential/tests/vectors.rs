//! The test vectors: the program answers every line, and where the Rust answers otherwise the difference is
//! listed. docs/VECTORS.md has the counts.
use std::collections::BTreeMap;
use std::io::Write;
use std::process::{Command, Stdio};
use std::thread::scope;

use differential::listed::{of_run, of_stream, Sort};
use differential::program;
use model::vectors::{Family, Frame, FAMILIES};

const PAGE: &str = include_str!("../../../docs/VECTORS.md");

/// What the program writes for this input.
fn written(input: &[u8]) -> Vec<u8> {
    let program = program::find().unwrap_or_else(|missing| panic!("{missing}"));
    let child = Command::new(program).stdin(Stdio::piped()).stdout(Stdio::piped()).spawn();
    let mut child = child.expect("the program can be started");
    let mut pipe = child.stdin.take().expect("a pipe");
    let output = scope(|scope| {
        // A program that ends early closes its end: its missing lines say so.
        scope.spawn(move || drop(pipe.write_all(input)));
        child.wait_with_output().expect("the program ends")
    });
    assert!(output.status.success(), "{}", output.status);
    output.stdout
}

#[test]
fn the_program_answers_every_line() {
    for family in &FAMILIES {
        let lines: Vec<String> = family.frames().map(|frame| frame.line()).collect();
        let answers = String::from_utf8(written((lines.join("\n") + "\n").as_bytes())).expect("text");
        assert_eq!(answers.lines().count(), lines.len(), "{}", family.name);
        for (line, answer) in lines.iter().zip(answers.lines()) {
            let expected = model::answer_line(line.as_bytes());
            assert!(answer == expected, "{}: {line} must be {expected}, and is {answer}", family.name);
        }
    }
}

/// How many of the frames the Rust answers otherwise, by the names of the differences.
fn otherwise(family: &Family, sort: impl Fn(&Frame) -> Option<Sort>) -> BTreeMap<&'static str, usize> {
    let mut counts = BTreeMap::new();
    for frame in family.frames() {
        match sort(&frame) {
            Some(Sort::Listed(difference)) => *counts.entry(difference.entry().name).or_default() += 1,
            Some(_) => {}
            None => panic!("{}: no name for the Rust's answer to {}", family.name, frame.line()),
        }
    }
    counts
}

fn as_run(frame: &Frame) -> Option<Sort> {
    of_run(&frame.bytes, &frame.answer(), &oracle::read_run(&frame.bytes, frame.signed))
}

fn as_stream(frame: &Frame) -> Option<Sort> {
    of_stream(&frame.bytes, frame.signed, &oracle::read_stream(&frame.bytes, frame.signed, 2_000))
}

/// A number with a comma between thousands.
fn number(number: usize) -> String {
    let digits = number.to_string();
    let parts: Vec<&str> =
        digits.as_bytes().rchunks(3).rev().map(|part| std::str::from_utf8(part).unwrap()).collect();
    parts.join(",")
}

fn row(name: &str, lines: usize, counts: &BTreeMap<&str, usize>) -> String {
    let names: Vec<String> =
        counts.iter().map(|(name, lines)| format!("`{name}` {}", number(*lines))).collect();
    let names = if names.is_empty() { "none".into() } else { names.join(", ") };
    format!("| {name} | {} | {} | {names} |\n", number(lines), number(counts.values().sum()))
}

/// Every line that the Rust answers otherwise has a name, and the page has as many of each as there are.
#[test]
fn the_page_counts_what_the_rust_answers_otherwise() {
    let mut table = String::new();
    for family in &FAMILIES {
        let lines = family.frames().count();
        table += &row(&format!("`{}`", family.name), lines, &otherwise(family, as_run));
        if family.name == "cuts" {
            table += &row("`cuts`, by the iterator over streams", lines, &otherwise(family, as_stream));
        }
    }
    assert!(PAGE.contains(&table), "docs/VECTORS.md must have these rows:\n{table}");
}

/// The page has how many lines each part of a family has.
#[test]
fn the_page_counts_the_lines() {
    for family in &FAMILIES {
        let parts = family.parts.iter();
        let rows: String =
            parts.map(|part| format!("| {} | {} |\n", part.what, number((part.frames)().count()))).collect();
        assert!(PAGE.contains(&rows), "docs/VECTORS.md must have these rows:\n{rows}");
    }
}
