//! The timing: the least of several samples, the candidates taking turns.
use std::hint::black_box;
use std::time::{Duration, Instant};

use crate::cases::{Case, Group};

/// How long a sample lasts at least: short, so that on a busy machine some are whole.
const SAMPLE: Duration = Duration::from_micros(400);

/// Nanoseconds a row.
#[derive(Debug, Clone, Copy)]
pub struct Times {
    /// A call of `orc_read_run` for each run.
    pub ours: Option<f64>,
    /// One call of `orc_read_stream` for the whole buffer. Long buffers only.
    pub stream: Option<f64>,
    pub rust: Option<f64>,
    pub copy: f64,
}

/// Times one case. Each candidate's rows are compared before its time counts.
pub fn measure(case: &Case, samples: usize) -> Times {
    let mut rows = vec![0; case.rows.len()];
    let mut bytes = vec![0; 8 * case.rows.len()];
    let expected: Vec<u8> = case.rows.iter().flat_map(|row| row.to_le_bytes()).collect();
    let check = |given: bool| assert!(given, "{}: other rows", case.name);

    if case.in_rust {
        oracle::decode_into(&case.bytes, case.signed, &mut rows);
        check(rows == case.rows);
    }
    #[cfg(feature = "ours")]
    let (mut lent, mut places) = (vec![0u8; expected.len()], vec![0i64; case.rows.len()]);
    #[cfg(feature = "ours")]
    {
        crate::ours::runs_into(case, &mut lent);
        check(lent == expected);
        crate::ours::stream_into(case, &mut places);
        check(places == case.rows);
    }

    let mut rust = || {
        oracle::decode_into(black_box(&case.bytes), case.signed, black_box(&mut rows));
    };
    let mut copy = || {
        black_box(&mut bytes[..]).copy_from_slice(black_box(&expected));
    };
    let long = case.group != Group::Single;
    let mut candidates: Vec<&mut dyn FnMut()> = vec![&mut copy];
    if case.in_rust {
        candidates.push(&mut rust);
    }
    #[cfg(feature = "ours")]
    let mut ours = || crate::ours::runs_into(black_box(case), black_box(&mut lent));
    #[cfg(feature = "ours")]
    let mut stream = || crate::ours::stream_into(black_box(case), black_box(&mut places));
    #[cfg(feature = "ours")]
    candidates.push(&mut ours);
    #[cfg(feature = "ours")]
    if long {
        candidates.push(&mut stream);
    }

    let first = if long { 1 } else { 1024 };
    let mut times = take_turns(case.rows.len(), first, samples, &mut candidates).into_iter();
    let copy = times.next().expect("the copy is timed");
    let rust = if case.in_rust { times.next() } else { None };
    let ours = times.next();
    let stream = times.next();
    Times { ours, stream, rust, copy }
}

/// The least time of each candidate, in nanoseconds a row. A sample's calls double from `first` on
/// until they are long enough.
pub fn take_turns(rows: usize, first: u32, samples: usize, candidates: &mut [&mut dyn FnMut()]) -> Vec<f64> {
    let calls: Vec<u32> = candidates.iter_mut().map(|candidate| calls(first, candidate)).collect();
    let mut least = vec![f64::INFINITY; candidates.len()];
    for _ in 0..samples {
        for ((candidate, calls), least) in candidates.iter_mut().zip(&calls).zip(&mut least) {
            let begun = Instant::now();
            for _ in 0..*calls {
                candidate();
            }
            let each = begun.elapsed().as_secs_f64() * 1e9 / f64::from(*calls);
            *least = least.min(each / rows as f64);
        }
    }
    least
}

/// How many calls make a sample.
fn calls(first: u32, candidate: &mut dyn FnMut()) -> u32 {
    let mut calls = first;
    loop {
        let begun = Instant::now();
        for _ in 0..calls {
            candidate();
        }
        if begun.elapsed() >= SAMPLE {
            return calls;
        }
        calls *= 2;
    }
}
