//! The probe program: every public function, a line in and a line out, held to the model.
//!
//! Each batch of lines is one child process, so that it does not matter when the program writes.
use std::borrow::Cow;
use std::fmt::Write as _;
use std::io::{self, Write as _};
use std::path::PathBuf;
use std::process::{Command, Stdio};
use std::{env, thread};

use model::{Answer, Booleans, Dictionary, Form, Info, Kind, Label, Ones, Refusal, Stream, Value, Written};

use crate::said::{said, Expected};
use crate::tally::{Hex, Tally};

/// How many lines one child process is given.
const BATCH: usize = 20_000;

/// Lines for the program, each with what the rules answer by the model.
#[derive(Default)]
pub struct Requests {
    lines: Vec<(String, Expected)>,
}

/// The program, and the lines that wait for it.
pub struct Probe {
    program: PathBuf,
    pub requests: Requests,
}

impl Requests {
    pub fn run(&mut self, input: &[u8], at: u64, signed: bool, places: u16) {
        let expected = match model::read_run(input, at as usize, signed, places.into()) {
            Answer::End => "end".into(),
            Answer::Refused(refusal) => refused(refusal),
            Answer::Run(run) => with_rows(format!("run {}", words(run.info(), " ")), &run.rows),
        };
        self.ask(format!("01{:02x}{at:016x}{places:04x}{}", u8::from(signed), Hex(input)), expected);
    }

    pub fn stream(&mut self, input: &[u8], at: u64, signed: bool, places: u16) {
        let expected = match model::read_stream(input, at as usize, signed, places.into()) {
            Stream::Whole { rows, consumed, last: run } => {
                with_rows(format!("whole {} {consumed} {}", rows.len(), last(run)), &rows)
            }
            Stream::Refused { refusal, rows, consumed, last: run } => {
                let counts = format!("{} {} {consumed} {}", refused(refusal), rows.len(), last(run));
                with_rows(counts, &rows)
            }
        };
        self.ask(format!("02{:02x}{at:016x}{places:04x}{}", u8::from(signed), Hex(input)), expected);
    }

    pub fn booleans(&mut self, input: &[u8], at: u64, n: u64, places: u16) {
        let expected = match model::read_booleans(input, at as usize, n as usize, places.into()) {
            Booleans::Refused(refusal) => refused(refusal),
            Booleans::Given { values, consumed } => {
                let bits: String = values.iter().map(|value| if *value { '1' } else { '0' }).collect();
                format!("booleans 1 {n} {consumed} {bits}")
            }
        };
        self.ask(format!("03{n:016x}{at:016x}{places:04x}{}", Hex(input)), expected);
    }

    pub fn value(&mut self, input: &[u8], at: u64, n: u64) {
        let expected = match model::read_value(input, at as usize, n as usize) {
            Value::Refused(refusal) => refused(refusal),
            Value::Given(part) => format!("value 8 {n} {n} {}", Hex(&part)).to_lowercase(),
        };
        self.ask(format!("04{n:016x}{at:016x}{}", Hex(input)), expected);
    }

    pub fn write(&mut self, rows: &[i64], signed: bool, form: Form, width: u8, places: u16) {
        let expected = written(&model::write_run(rows, signed, form, width, places.into()));
        let form = match form {
            Form::ShortRepeat => 0,
            Form::Direct => 1,
            Form::FixedDelta => 2,
            Form::PackedDelta => 3,
        };
        let line = format!("05{:02x}{form:02x}{width:02x}{places:04x}", u8::from(signed));
        self.ask(with_numbers(line, rows), expected);
    }

    /// A patched run, under either flag: it has no zigzag.
    pub fn write_patched(&mut self, rows: &[i64], base: i64, width: u8, places: u16, signed: bool) {
        let expected = written(&model::write_patched(rows, base, width.into(), places.into()));
        let line = format!("05{:02x}04{width:02x}{places:04x}{base:016x}", u8::from(signed));
        self.ask(with_numbers(line, rows), expected);
    }

    pub fn narrowest(&mut self, number: u64) {
        self.ask(format!("06{number:016x}"), format!("code {}", model::narrowest_code(number)));
    }

    pub fn label(&mut self, row: u64, dictionary: Dictionary, fallback: &[u8]) {
        let expected = match model::label(row, dictionary, fallback) {
            Label::Refused(refusal) => refused(refusal),
            Label::Name(part) => format!("name {}", Hex(part)).to_lowercase(),
            Label::Fallback(part) => format!("fallback {}", Hex(part)).to_lowercase(),
        };
        let Dictionary { block, lengths, numbers, flags } = dictionary;
        let mut line = format!("0f{row:016x}");
        for count in [lengths.len(), numbers.len(), flags.len(), block.len(), fallback.len()] {
            write!(line, "{count:04x}").expect("a string takes it");
        }
        for number in lengths.iter().chain(numbers) {
            write!(line, "{number:016x}").expect("a string takes it");
        }
        self.ask(format!("{line}{}{}{}", Hex(flags), Hex(block), Hex(fallback)), expected);
    }

    pub fn parts(&mut self, parts: &[&[u8]], signed: bool, places: u16) {
        let read = model::read_parts(parts, signed, places.into());
        let mut expected = String::from("parts");
        for (start, run) in &read.runs {
            expected = with_rows(format!("{expected} run {start} {}", words(run.info(), "/")), &run.rows);
        }
        let last = read.refusal.map_or_else(|| "whole".into(), refused);
        expected += &format!(" {last} taken {}", read.taken);
        let mut line = format!("07{:02x}{places:04x}{:04x}", u8::from(signed), parts.len());
        for part in parts {
            write!(line, "{:04x}", part.len()).expect("a string takes it");
        }
        self.ask(format!("{line}{}", Hex(&parts.concat())), expected);
    }

    pub fn count(&mut self, packed: &[u8], n: u64) {
        let expected = match model::count_true(packed, n) {
            Ones::Refused(refusal) => refused(refusal),
            Ones::True(count) => format!("true {count}"),
        };
        self.ask(format!("10{n:016x}{}", Hex(packed)), expected);
    }

    /// A line that the probe says is bad.
    pub fn bad(&mut self, line: &str) {
        self.ask(line.into(), "bad line".into());
    }

    /// A line, and the line that answers it.
    pub(crate) fn ask(&mut self, line: String, expected: String) {
        self.lines.push((line, Expected::Text(expected)));
    }

    /// A line from 11 to 19, or a bad one: the model reads the line itself.
    pub fn said(&mut self, line: String) {
        let expected = said(&line);
        self.lines.push((line, expected));
    }

    /// Every line, and its answer; of written runs that with the runs which the page says are chosen.
    pub fn lines(&self) -> impl Iterator<Item = (&str, Cow<'_, str>)> {
        self.lines.iter().map(|(line, expected)| (line.as_str(), expected.text()))
    }
}

impl Probe {
    /// The program that `PROBE` names, or the one beside this program.
    pub fn find() -> Result<Self, String> {
        let program = match env::var_os("PROBE") {
            Some(named) => PathBuf::from(named),
            None => env::current_exe().map_err(|error| error.to_string())?.with_file_name("probe"),
        };
        if program.is_file() {
            return Ok(Probe { program, requests: Requests::default() });
        }
        Err(format!(
            "the probe program {} is missing: build it with `cargo build --release --offline -p probe`, or set \
             PROBE to its path",
            program.display()
        ))
    }

    /// Runs the program on the lines that wait, if they are a batch.
    pub fn batch(&mut self, tally: &mut Tally) {
        if self.requests.lines.len() >= BATCH {
            self.flush(tally);
        }
    }

    /// Runs the program on all lines that wait.
    pub fn flush(&mut self, tally: &mut Tally) {
        let lines = std::mem::take(&mut self.requests.lines);
        if lines.is_empty() {
            return;
        }
        let answers = match self.answers(&lines) {
            Ok(answers) => answers,
            Err(error) => {
                return tally.unlisted(&format!("{} cannot be run: {error}", self.program.display()))
            }
        };
        let mut answers = answers.lines();
        for (line, expected) in &lines {
            let answer = answers.next();
            if answer.is_some_and(|answer| expected.takes(answer)) {
                tally.probe();
            } else {
                let answer = answer.unwrap_or("no line");
                tally.unlisted(&format!("probe {line}\n  the rules: {expected}\n  probe: {answer}"));
            }
        }
        if let Some(line) = answers.next() {
            tally.unlisted(&format!("the probe wrote a line more than it was given: {line}"));
        }
    }

    fn answers(&self, lines: &[(String, Expected)]) -> io::Result<String> {
        let mut child = Command::new(&self.program).stdin(Stdio::piped()).stdout(Stdio::piped()).spawn()?;
        let mut stdin = child.stdin.take().expect("stdin is piped");
        let text: String = lines.iter().flat_map(|(line, _)| [line, "\n"]).collect();
        let output = thread::scope(|scope| {
            // A program that ends early closes its end: its missing lines say so.
            scope.spawn(move || stdin.write_all(text.as_bytes()));
            child.wait_with_output()
        })?;
        Ok(String::from_utf8_lossy(&output.stdout).into_owned())
    }
}

pub(crate) fn refused(Refusal { number, place, cut }: Refusal) -> String {
    match cut {
        None => format!("refused {number} {place}"),
        Some(byte) => format!("refused {number} {place} cut {byte}"),
    }
}

fn kind(kind: Kind) -> &'static str {
    match kind {
        Kind::ShortRepeat => "short",
        Kind::Direct => "direct",
        Kind::PatchedBase => "patched",
        Kind::Delta => "delta",
        Kind::Booleans => "booleans",
        Kind::ByteValue => "value",
    }
}

/// A run's kind, width, rows and bytes.
fn words(Info { kind: of, width, rows, bytes }: Info, between: &str) -> String {
    [kind(of).into(), width.to_string(), rows.to_string(), bytes.to_string()].join(between)
}

/// The last run of a stream, or none.
fn last(run: Option<Info>) -> String {
    run.map_or_else(|| "none".into(), |run| words(run, "/"))
}

/// What the writers answer.
fn written(written: &Written) -> String {
    match (written, written.info()) {
        (Written::Run { bytes, .. }, Some(info)) => {
            format!("written {} {}", words(info, " "), Hex(bytes)).to_lowercase()
        }
        (Written::Refused(refusal), _) => refused(*refusal),
        (Written::Run { .. }, None) => unreachable!("a written run is named"),
    }
}

/// A line with rows after it, eight bytes each.
pub(crate) fn with_numbers(mut line: String, rows: &[i64]) -> String {
    for row in rows {
        write!(line, "{row:016x}").expect("a string takes it");
    }
    line
}

pub(crate) fn with_rows(mut line: String, rows: &[i64]) -> String {
    for row in rows {
        write!(line, " {row}").expect("a string takes it");
    }
    line
}
