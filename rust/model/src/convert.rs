//! The converter (FORMAT.md, "Converter").
use crate::writer::next_kept_code;
use crate::{read_run, write_run, Answer, Form, Kind, Refusal, Run, Written};

/// What the converter answers.
#[derive(Debug, Clone, PartialEq, Eq)]
pub enum Converted {
    /// How many runs it altered, and the stream that it wrote.
    Written {
        altered: usize,
        bytes: Vec<u8>,
    },
    Refused(Refusal),
}

/// "Replaces each direct or packed delta run of an odd width by the writer's run of the same rows at
/// the next kept width and copies every other run." "The stream's own and then 8, nothing written."
pub fn convert(input: &[u8], signed: bool, lent: usize) -> Converted {
    let (mut altered, mut bytes, mut at) = (0, Vec::new(), 0);
    loop {
        match read_run(input, at, signed, usize::MAX) {
            Answer::End if bytes.len() > lent => return Converted::Refused(Refusal::whole(8, 0)),
            Answer::End => return Converted::Written { altered, bytes },
            Answer::Refused(refusal) => return Converted::Refused(refusal),
            Answer::Run(run) => {
                let copied = &input[at..at + run.consumed];
                let replaced = replacement(&run, signed);
                altered += usize::from(replaced.is_some());
                bytes.extend(replaced.unwrap_or_else(|| copied.to_vec()));
                at += run.consumed;
            }
        }
    }
}

/// What stands for a run of an odd width; nothing for a run that is copied.
fn replacement(run: &Run, signed: bool) -> Option<Vec<u8>> {
    let form = match run.kind {
        Kind::Direct => Form::Direct,
        Kind::Delta if run.width != 0 => Form::PackedDelta,
        _ => return None,
    };
    let (code, width) = next_kept_code(run.width);
    if width == run.width {
        return None;
    }
    match write_run(&run.rows, signed, form, code as u8, usize::MAX) {
        Written::Run { bytes, .. } => Some(bytes),
        Written::Refused(refusal) => unreachable!("a wider width holds the rows: {refusal:?}"),
    }
}
