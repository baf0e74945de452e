//! How far long work has come: on standard error if that is a terminal, and nowhere else.
use std::io::{self, IsTerminal, Write};
use std::time::{Duration, Instant};

/// An input of more bytes is a long one.
const LONG: u64 = 100_000_000;

/// Work on any input is long after this.
const SLOW: Duration = Duration::from_secs(2);

/// Between two lines, and how many bytes pass between two looks at the clock.
const BETWEEN: Duration = Duration::from_millis(200);
const STEP: u64 = 1 << 20;

/// Says how far the work has come, if it is long and somebody looks on.
pub struct Progress {
    watched: bool,
    what: &'static str,
    /// How many bytes there are, if that is known.
    total: Option<u64>,
    began: Instant,
    said: Option<Duration>,
    next_look: u64,
}

impl Progress {
    /// For work that writes nothing on standard output until it is done.
    pub fn new(total: Option<u64>, what: &'static str) -> Self {
        Self::watched(io::stderr().is_terminal(), total, what)
    }

    /// For work that writes lines as it goes: if they go to a terminal, they are what shows how far it is.
    pub fn beside_lines(total: Option<u64>, what: &'static str) -> Self {
        Self::watched(io::stderr().is_terminal() && !io::stdout().is_terminal(), total, what)
    }

    fn watched(watched: bool, total: Option<u64>, what: &'static str) -> Self {
        Progress { watched, what, total, began: Instant::now(), said: None, next_look: STEP }
    }

    /// This many bytes are done.
    pub fn at(&mut self, bytes: u64) {
        if self.watched && bytes >= self.next_look {
            self.next_look = bytes + STEP;
            if self.is_due(bytes, self.began.elapsed()) {
                self.show(&line(self.what, bytes, self.total));
            }
        }
    }

    /// A step that says nothing until it is done, over this many bytes.
    pub fn step(&mut self, what: &str, bytes: u64) {
        if self.watched && bytes > LONG {
            self.said = Some(self.began.elapsed());
            self.show(&format!("{what}: {} MB", mega(bytes)));
        }
    }

    fn is_due(&mut self, bytes: u64, now: Duration) -> bool {
        let long = self.total.unwrap_or(bytes) > LONG || now >= SLOW;
        let due = long && self.said.is_none_or(|said| now >= said + BETWEEN);
        if due {
            self.said = Some(now);
        }
        due
    }

    fn show(&self, line: &str) {
        // A line that cannot be said is none that matters.
        let _ = write!(io::stderr(), "\r\x1b[K{line}");
    }

    /// Takes the line away again.
    pub fn end(&self) {
        if self.said.is_some() {
            self.show("");
        }
    }
}

fn mega(bytes: u64) -> u64 {
    bytes / 1_000_000
}

fn line(what: &str, bytes: u64, total: Option<u64>) -> String {
    match total {
        Some(total) if total >= bytes && total > 0 => {
            let percent = u128::from(bytes) * 100 / u128::from(total);
            format!("{what}: {} of {} MB ({percent} %)", mega(bytes), mega(total))
        }
        _ => format!("{what}: {} MB", mega(bytes)),
    }
}

#[cfg(test)]
mod tests {
    use super::*;

    /// When it is said, in milliseconds, of work that does a MB in ten of them.
    fn said(total: Option<u64>) -> Vec<u64> {
        let mut progress = Progress::watched(true, total, "walk");
        let due = |ms: &u64| progress.is_due(ms * 100_000, Duration::from_millis(*ms));
        (0..3000).step_by(100).filter(due).collect()
    }

    #[test]
    fn it_is_said_of_long_ones_and_not_too_often() {
        let every = |from: u64| (from..3000).step_by(200).collect::<Vec<_>>();
        assert_eq!(said(Some(LONG + 1)), every(0));
        // A slow one; and one of unknown length from 100 MB on.
        assert_eq!(said(Some(LONG)), every(2000));
        assert_eq!(said(None), every(1100));
    }

    #[test]
    fn lines() {
        assert_eq!(line("walk", 50_000_000, Some(200_000_000)), "walk: 50 of 200 MB (25 %)");
        assert_eq!(line("walk", 50_000_000, None), "walk: 50 MB");
        assert_eq!(line("walk", 50_000_000, Some(0)), "walk: 50 MB");
    }
}
