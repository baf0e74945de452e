//! The lines of the programs, and what `runs` answers them (FORMAT.md, "The programs").
use crate::{read_run, Answer};

/// "At most 8,800 characters."
const MOST: usize = 8_800;

/// The lines of a text. "A final newline opens no further line."
pub(crate) fn lines(text: &[u8]) -> Vec<&[u8]> {
    let mut lines: Vec<&[u8]> = text.split(|byte| *byte == b'\n').collect();
    if lines.last().is_some_and(|last| last.is_empty()) {
        lines.pop();
    }
    lines
}

/// The frame of a line: its flag and bytes. "A line that is empty, of odd length, too long, not
/// hexadecimal or with another flag is bad."
pub fn frame_of(line: &[u8]) -> Option<(bool, Vec<u8>)> {
    if line.is_empty() || !line.len().is_multiple_of(2) || line.len() > MOST {
        return None;
    }
    let digits: Option<Vec<u32>> = line.iter().map(|digit| char::from(*digit).to_digit(16)).collect();
    let bytes: Vec<u8> = digits?.chunks(2).map(|two| (two[0] * 16 + two[1]) as u8).collect();
    match bytes.split_first()? {
        (0, rest) => Some((false, rest.to_vec())),
        (1, rest) => Some((true, rest.to_vec())),
        _ => None,
    }
}

/// What `runs` answers a line, without the newline.
pub fn answer_line(line: &[u8]) -> String {
    let Some((signed, bytes)) = frame_of(line) else { return "bad line".into() };
    match read_run(&bytes, 0, signed, 512) {
        Answer::End => "end".into(),
        Answer::Refused(refusal) => format!("refused {}", refusal.number),
        Answer::Run(run) => {
            let mut answer = format!("run {} {}", run.rows.len(), run.consumed);
            for row in run.rows {
                answer.push(' ');
                answer.push_str(&row.to_string());
            }
            answer
        }
    }
}

/// What `runs` writes for its whole input.
pub fn answer_lines(text: &[u8]) -> Vec<u8> {
    lines(text).into_iter().flat_map(|line| (answer_line(line) + "\n").into_bytes()).collect()
}
