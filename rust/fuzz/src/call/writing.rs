//! Calls of the two run writers, and what the model answers them.
use differential::frames;
use differential::stages::patched_runs::any_patched_rows;
use model::random::Random;
use model::{Form, Refusal, Written};

use super::{Call, Outcome, MOST};

pub fn any(flag: u64, random: &mut Random) -> Call {
    let (rows, form, width) = frames::any_rows(random);
    let form = match form {
        _ if random.once_in(32) => random.any(),
        Form::ShortRepeat => 0,
        Form::Direct => 1,
        Form::FixedDelta => 2,
        Form::PackedDelta => 3,
    };
    let width = if random.once_in(32) { random.any() >> random.below(64) } else { u64::from(width) };
    Call::Write { rows, flag, form, width, places: random.pick(&[0, 2, 9, 40, MOST]) }
}

pub fn any_patched(random: &mut Random) -> Call {
    let (rows, base, width) = match random.below(32) {
        0 => (vec![7; random.pick(&[0, 513])], 5, 64),
        _ => any_patched_rows(random),
    };
    let width = if random.once_in(32) { random.any() >> random.below(64) } else { width as u64 };
    Call::Patched { rows, base, width, places: random.pick(&[0, 5, 9, 40, MOST]) }
}

/// A form that is none is refused with 10, whatever the rows; a width above 255 is none of any form's.
pub fn written(rows: &[i64], signed: bool, form: u64, width: u64, places: usize) -> Outcome {
    let form = match form {
        0 => Form::ShortRepeat,
        1 => Form::Direct,
        2 => Form::FixedDelta,
        3 => Form::PackedDelta,
        _ => return Outcome::refused(Refusal::whole(10, 0)),
    };
    of_written(&model::write_run(rows, signed, form, u8::try_from(width).unwrap_or(255), places))
}

pub fn patched(rows: &[i64], base: i64, width: u64, places: usize) -> Outcome {
    let width = usize::try_from(width).unwrap_or(usize::MAX);
    of_written(&model::write_patched(rows, base, width, places))
}

fn of_written(answer: &Written) -> Outcome {
    match (answer, answer.info()) {
        (Written::Run { bytes, .. }, Some(info)) => Outcome { bytes: bytes.clone(), ..Outcome::read(info) },
        (Written::Refused(refusal), _) => Outcome::refused(*refusal),
        (Written::Run { .. }, None) => unreachable!("what is written is named"),
    }
}
