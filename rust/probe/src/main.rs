//! `probe`: lines of hexadecimal on standard input, a line of text for each on standard output.
//!
//! Each line asks for one call of an exported function, as the loader links it: its first byte says
//! which (see [`kinds`]). Every buffer of a call stands between marked places, the words of the answer
//! too. A line ends in ` touched` if a place has changed that must not, before, after or within the
//! buffer, and in ` odd` if the words contradict each other.
use std::io::{self, BufRead, BufWriter, Write};
use std::process::ExitCode;

mod answer;
mod calls;
mod kinds;
mod lent;
mod line;

fn main() -> ExitCode {
    match serve(&mut io::stdin().lock(), &mut BufWriter::new(io::stdout().lock())) {
        Ok(()) => ExitCode::SUCCESS,
        // Whoever reads the answers has read enough.
        Err(error) if error.kind() == io::ErrorKind::BrokenPipe => ExitCode::SUCCESS,
        Err(error) => {
            eprintln!("error: {error}");
            ExitCode::FAILURE
        }
    }
}

fn serve(input: &mut impl BufRead, output: &mut impl Write) -> io::Result<()> {
    let mut line = Vec::new();
    while next_line(input, &mut line)? {
        let answer = line::bytes(&line).and_then(|frame| kinds::answer(&frame));
        writeln!(output, "{}", answer.as_deref().unwrap_or("bad line"))?;
    }
    output.flush()
}

/// The next line, without its newline; no at the end. A newline at the end opens no further line.
fn next_line(input: &mut impl BufRead, line: &mut Vec<u8>) -> io::Result<bool> {
    line.clear();
    let mut any = false;
    loop {
        let block = input.fill_buf()?;
        if block.is_empty() {
            return Ok(any);
        }
        any = true;
        let end = block.iter().position(|byte| *byte == b'\n');
        let part = &block[..end.unwrap_or(block.len())];
        // A line that is too long is bad however it goes on: no more is kept than shows that.
        let room = line::MAX_LINE + 1 - line.len();
        line.extend_from_slice(&part[..part.len().min(room)]);
        let used = part.len() + usize::from(end.is_some());
        input.consume(used);
        if end.is_some() {
            return Ok(true);
        }
    }
}
