//! Counts of every sort of outcome, the smallest input of each listed difference, and progress.
use std::collections::BTreeMap;
use std::fmt::{self, Display};
use std::time::{Duration, Instant};

use crate::listed::{Call, Sort, LIST};

/// How many unlisted differences are printed.
const PRINTED: u64 = 20;

#[derive(Clone, PartialEq, Eq, PartialOrd, Ord)]
struct Example {
    length: usize,
    bytes: Vec<u8>,
    call: Call,
}

struct Count {
    answers: u64,
    smallest: Option<Example>,
}

/// The counts of a run of the program.
pub struct Tally {
    counts: BTreeMap<Sort, Count>,
    ours: u64,
    probe: u64,
    unlisted: u64,
    ticks: u64,
    stage: &'static str,
    started: Instant,
    said: Instant,
}

/// Bytes in hexadecimal.
pub struct Hex<'a>(pub &'a [u8]);

impl Display for Hex<'_> {
    fn fmt(&self, f: &mut fmt::Formatter) -> fmt::Result {
        self.0.iter().try_for_each(|byte| write!(f, "{byte:02X}"))
    }
}

impl Display for Call {
    fn fmt(&self, f: &mut fmt::Formatter) -> fmt::Result {
        let flag = |signed: &bool| if *signed { "signed" } else { "unsigned" };
        match self {
            Call::Run { signed } => write!(f, "run, {}", flag(signed)),
            Call::Stream { signed } => write!(f, "stream, {}", flag(signed)),
            Call::Booleans { n } => write!(f, "{n} booleans"),
            Call::Value { n } => write!(f, "byte value of {n}"),
            Call::ReadBack { signed } => write!(f, "written run, {}", flag(signed)),
        }
    }
}

impl Display for Sort {
    fn fmt(&self, f: &mut fmt::Formatter) -> fmt::Result {
        match self {
            Sort::End => f.pad("both end"),
            Sort::Same => f.pad("the same rows and bytes"),
            Sort::Refused(number) => f.pad(&format!("the rules refuse with {number}, the Rust errs")),
            Sort::Listed(difference) => f.pad(&format!("listed: {}", difference.entry().name)),
        }
    }
}

impl Tally {
    pub fn start() -> Self {
        let now = Instant::now();
        Tally {
            counts: BTreeMap::new(),
            ours: 0,
            probe: 0,
            unlisted: 0,
            ticks: 0,
            stage: "",
            started: now,
            said: now,
        }
    }

    /// Names what is being compared now.
    pub fn stage(&mut self, name: &'static str) {
        self.stage = name;
        self.progress();
    }

    /// The model's answer and the Rust's: the sort of the pair, or none for an unlisted difference.
    pub fn record(
        &mut self,
        sort: Option<Sort>,
        bytes: &[u8],
        call: Call,
        answers: impl FnOnce() -> [String; 2],
    ) {
        let Some(sort) = sort else {
            let [paper, rust] = answers();
            return self.differs(bytes, call, &paper, "Rust", &rust);
        };
        let count = self.counts.entry(sort).or_insert(Count { answers: 0, smallest: None });
        count.answers += 1;
        if let Sort::Listed(_) = sort {
            let smaller =
                |seen: &Example| (bytes.len(), bytes, call) < (seen.length, &seen.bytes[..], seen.call);
            if count.smallest.as_ref().is_none_or(smaller) {
                count.smallest = Some(Example { length: bytes.len(), bytes: bytes.to_vec(), call });
            }
        }
        self.tick();
    }

    /// An answer of the linked library that is the rules'.
    pub fn ours(&mut self, answers: u64) {
        self.ours += answers;
    }

    /// An answer of the probe that is the rules'.
    pub fn probe(&mut self) {
        self.probe += 1;
        self.tick();
    }

    /// Two answers to a call that differ, and not in a listed way.
    pub fn differs(&mut self, bytes: &[u8], call: Call, paper: &str, who: &str, answer: &str) {
        self.unlisted(&format!("{} ({call})\n  the rules: {paper}\n  {who}: {answer}", Hex(bytes)));
    }

    /// A difference that is not listed.
    pub fn unlisted(&mut self, text: &str) {
        self.unlisted += 1;
        if self.unlisted <= PRINTED {
            println!("unlisted: {text}");
        }
    }

    fn answers(&self) -> u64 {
        self.counts.values().map(|count| count.answers).sum::<u64>() + self.ours + self.probe
    }

    fn tick(&mut self) {
        // The clock is looked at now and then only.
        self.ticks += 1;
        if self.ticks.is_multiple_of(1024) && self.said.elapsed() > Duration::from_secs(1) {
            self.progress();
        }
    }

    fn progress(&mut self) {
        self.said = Instant::now();
        let seconds = self.started.elapsed().as_secs_f64();
        eprintln!(
            "{seconds:7.1} s  {:>12} answers  {} unlisted  {}",
            self.answers(),
            self.unlisted,
            self.stage
        );
    }

    /// Prints the counts, and answers whether all is well: nothing unlisted, and every listed difference
    /// met (one that is no longer met is not a difference, and the list is wrong).
    pub fn report(&self) -> bool {
        println!("{:<48} {:>12}  smallest input", "outcome", "answers");
        for (sort, count) in &self.counts {
            match &count.smallest {
                None => println!("{sort:<48} {:>12}", count.answers),
                Some(Example { bytes, call, .. }) => {
                    println!("{sort:<48} {:>12}  {} ({call})", count.answers, Hex(bytes));
                }
            }
        }
        for (name, answers) in [("the library = the rules", self.ours), ("the probe = the rules", self.probe)]
        {
            if answers > 0 {
                println!("{name:<48} {answers:>12}");
            }
        }
        let mut all_met = true;
        for entry in &LIST {
            let count = self.counts.get(&Sort::Listed(entry.difference));
            match count.and_then(|count| count.smallest.as_ref()) {
                None => {
                    println!("not met: {}", entry.name);
                    all_met = false;
                }
                Some(seen) if (seen.length, &seen.bytes) < (entry.bytes().len(), &entry.bytes()) => {
                    println!("smaller than the input listed for {}: {}", entry.name, Hex(&seen.bytes));
                }
                Some(_) => {}
            }
        }
        println!("{:<48} {:>12}", "unlisted differences", self.unlisted);
        println!(
            "{:<48} {:>12}  in {:.1} s",
            "answers",
            self.answers(),
            self.started.elapsed().as_secs_f64()
        );
        self.unlisted == 0 && all_met
    }
}
