//! `fuzz [--calls N] [--seed N] [--from N]`
use std::env;
use std::process::ExitCode;
use std::time::Instant;

use fuzz::fence::{Fenced, Side};
use fuzz::{watch, Session};

const USAGE: &str = "usage: fuzz [--calls N] [--seed N] [--from N]
  --calls N  how many calls (default 10,000,000)
  --seed N   another seed for what is random (default 1)
  --from N   the number of the first call (default 0)
       fuzz --touch before | behind
  touches the byte beside a lent slice, to show that the fences hold
Status: 0 every answer was the model's, 1 one was not, 2 bad usage, 3 a call touched a fence.";

struct Options {
    calls: u64,
    seed: u64,
    from: u64,
}

fn options(words: &[String]) -> Option<Options> {
    let mut options = Options { calls: 10_000_000, seed: 1, from: 0 };
    for two in words.chunks(2) {
        let [name, number] = two else { return None };
        let number = number.parse().ok()?;
        match name.as_str() {
            "--calls" => options.calls = number,
            "--seed" => options.seed = number,
            "--from" => options.from = number,
            _ => return None,
        }
    }
    Some(options)
}

/// Reads the byte beside a lent slice: the process ends there.
fn touch(side: Side) -> u8 {
    let mut lent = Fenced::<u8>::new(3);
    lent.places(3, side);
    let beside = if side == Side::Before { -1 } else { 3 };
    watch::begin(0, 0);
    // SAFETY: none. This is the touch that the fence is for.
    unsafe { lent.pointer().offset(beside).read_volatile() }
}

fn main() -> ExitCode {
    watch::start();
    let words: Vec<String> = env::args().skip(1).collect();
    match words.iter().map(String::as_str).collect::<Vec<_>>()[..] {
        ["--touch", "before"] => return ExitCode::from(touch(Side::Before) | 1),
        ["--touch", "behind"] => return ExitCode::from(touch(Side::Behind) | 1),
        _ => {}
    }
    let Some(Options { calls, seed, from }) = options(&words) else {
        eprintln!("{USAGE}");
        return ExitCode::from(2);
    };
    let begun = Instant::now();
    let mut session = Session::default();
    for number in from..from.saturating_add(calls) {
        if let Err(wrong) = session.call(seed, number) {
            eprintln!("{wrong}");
            return ExitCode::FAILURE;
        }
    }
    for ((function, number), count) in &session.tally {
        match number {
            0 => println!("{function:<20} {count:>12}"),
            &u64::MAX => println!("{function:<20} {count:>12} too few words"),
            number => println!("{function:<20} {count:>12} refused {number}"),
        }
    }
    println!(
        "{calls} calls, seed {seed}, {:.0} s: every answer is the model's",
        begun.elapsed().as_secs_f64()
    );
    ExitCode::SUCCESS
}
