//! `differential [--quick | --full] [--model-only] [--seed N]`
use std::env;
use std::process::ExitCode;

use differential::probe::Probe;
use differential::stages::{Session, Size};
use differential::tally::Tally;
use model::random::Random;

const USAGE: &str = "usage: differential [--quick | --full] [--model-only] [--seed N]
  --quick       bounded: under two minutes on one core (the default)
  --full        at least 50 million answers
  --model-only  the Rust decoders against the model of the rules only: nothing of ours is run
  --seed N      another seed for what is random (default 1)
The probe program is the one beside this program (`cargo build --release --offline -p probe`), or what
PROBE names.
Status: 0 every difference is a listed one and each listed one was met, 1 not so, 2 it could not run.";

struct Options {
    size: Size,
    model_only: bool,
    seed: u64,
}

fn options() -> Option<Options> {
    let mut options = Options { size: Size::Quick, model_only: false, seed: 1 };
    let mut words = env::args().skip(1);
    while let Some(word) = words.next() {
        match word.as_str() {
            "--quick" => options.size = Size::Quick,
            "--full" => options.size = Size::Full,
            "--model-only" => options.model_only = true,
            "--seed" => options.seed = words.next()?.parse().ok()?,
            _ => return None,
        }
    }
    Some(options)
}

fn session(options: &Options) -> Result<Session, String> {
    if !options.model_only && !cfg!(feature = "ours") {
        return Err("this build has no library of ours in it: build it with the feature `ours`, \
                    or run it with --model-only"
            .into());
    }
    Ok(Session {
        tally: Tally::start(),
        random: Random::new(options.seed),
        size: options.size,
        #[cfg(feature = "ours")]
        ours: (!options.model_only).then(differential::ours::Ours::start),
        probe: if options.model_only { None } else { Some(Probe::find()?) },
    })
}

fn main() -> ExitCode {
    let Some(options) = options() else {
        eprintln!("{USAGE}");
        return ExitCode::from(2);
    };
    match session(&options) {
        Err(error) => {
            eprintln!("error: {error}");
            ExitCode::from(2)
        }
        Ok(mut session) => {
            println!("seed {}", options.seed);
            session.all();
            if session.tally.report() {
                ExitCode::SUCCESS
            } else {
                ExitCode::FAILURE
            }
        }
    }
}
