//! A model of the Apache ORC writer's own choices, by its public algorithm (version 2 of the run length
//! encoding, Java and C++): which rows it gathers into a run, and which form the run gets. At kept
//! widths, as its aligned packing has them; a patched run's values too, since our writer makes no other.
use crate::bits::{kept, needs, number};
use crate::runs::{as_direct, Run};
use model::Segment;

const MIN_REPEAT: usize = 3;
const MAX_SHORT: usize = 10;
const MAX_SCOPE: usize = 512;

/// What the writer holds while rows come in.
struct Writer<'a> {
    rows: &'a [i64],
    signed: bool,
    /// The rows gathered and not yet written: from one row up to another.
    start: usize,
    end: usize,
    fixed: usize,
    variable: usize,
    previous_step: i64,
    segments: Vec<Segment>,
}

/// The runs that the Apache writer makes of a column.
pub fn apache(rows: &[i64], signed: bool) -> Vec<Segment> {
    let segments = Vec::new();
    let mut writer =
        Writer { rows, signed, start: 0, end: 0, fixed: 0, variable: 0, previous_step: 0, segments };
    for _ in rows {
        writer.take();
    }
    writer.flush();
    writer.segments
}

impl Writer<'_> {
    /// One row more.
    fn take(&mut self) {
        let (at, gathered) = (self.end, self.end - self.start);
        if gathered == 0 {
            return self.begin();
        }
        let step = self.rows[at].wrapping_sub(self.rows[at - 1]);
        if gathered == 1 {
            self.previous_step = step;
            self.end += 1;
            (self.fixed, self.variable) = if step == 0 { (2, 0) } else { (0, 2) };
        } else if self.previous_step == 0 && step == 0 {
            self.repeat();
        } else {
            self.vary(step);
        }
    }

    fn begin(&mut self) {
        self.end += 1;
        (self.fixed, self.variable) = (1, 1);
    }

    /// A row that is equal to the two before it.
    fn repeat(&mut self) {
        self.end += 1;
        if self.variable > 0 {
            self.fixed = 2;
        }
        self.fixed += 1;
        if self.fixed >= MIN_REPEAT && self.variable > 0 {
            // What came before the equal rows is a run; they begin the next.
            self.write(self.end - MIN_REPEAT, None);
            self.fixed = MIN_REPEAT;
        }
        if self.fixed == MAX_SCOPE {
            self.write(self.end, None);
        }
    }

    fn vary(&mut self, step: i64) {
        if self.fixed >= MIN_REPEAT {
            self.write(self.end, Some(self.repeated()));
            return self.begin();
        }
        if self.fixed > 0 && step != 0 {
            (self.variable, self.fixed) = (self.fixed, 0);
        }
        self.previous_step = step;
        self.end += 1;
        self.variable += 1;
        if self.variable == MAX_SCOPE {
            self.write(self.end, None);
        }
    }

    fn flush(&mut self) {
        if self.end == self.start {
            return;
        }
        let equal = self.variable == 0 && self.fixed >= MIN_REPEAT;
        self.write(self.end, equal.then(|| self.repeated()));
    }

    fn repeated(&self) -> Run {
        let bytes = needs(number(self.rows[self.start], self.signed)).div_ceil(8);
        if self.fixed <= MAX_SHORT {
            Run { form: 0, width: bytes, base: 0 }
        } else {
            Run::FIXED
        }
    }

    /// Writes the rows gathered, up to one.
    fn write(&mut self, end: usize, run: Option<Run>) {
        if end > self.start {
            let rows = &self.rows[self.start..end];
            let run = run.unwrap_or_else(|| determine(rows, self.signed));
            self.segments.push(run.segment(self.start, rows.len()));
        }
        self.start = end;
        (self.fixed, self.variable) = (0, 0);
    }
}

/// The form of gathered rows.
fn determine(rows: &[i64], signed: bool) -> Run {
    let direct = as_direct(rows, signed);
    if rows.len() <= MIN_REPEAT {
        return direct;
    }
    let (min, max) = (rows.iter().min().expect("rows"), rows.iter().max().expect("rows"));
    if max.checked_sub(*min).is_none() {
        return direct;
    }
    let steps: Vec<i64> = rows.windows(2).map(|two| two[1] - two[0]).collect();
    if steps.iter().all(|step| *step == steps[0]) {
        return Run::FIXED;
    }
    if steps[0] != 0 && (steps.iter().all(|step| *step >= 0) || steps.iter().all(|step| *step <= 0)) {
        let widest = steps[1..].iter().map(|step| needs(step.unsigned_abs())).max().unwrap_or(1);
        return Run { form: 3, width: kept(widest.max(2)).1, base: 0 };
    }
    patched(rows, signed, *min).unwrap_or(direct)
}

/// A patched run, where the widest tenth of the rows is more than one bit wider than the others.
fn patched(rows: &[i64], signed: bool, min: i64) -> Option<Run> {
    let numbers: Vec<u64> = rows.iter().map(|row| number(*row, signed)).collect();
    if percentile(&numbers, 1.0) - percentile(&numbers, 0.9) <= 1 {
        return None;
    }
    let reduced: Vec<u64> = rows.iter().map(|row| row.wrapping_sub(min) as u64).collect();
    let (most, all) = (percentile(&reduced, 0.95), percentile(&reduced, 1.0));
    // "If patch bit requirement is 64": values of 8 bits, so that gap and patch fit an entry.
    let width = kept(if all - most > 56 { 8 } else { most }).0;
    // Its newer versions write a base that passes 56 bits as direct; the width must leave a patch.
    let small = min.unsigned_abs() < 1 << 56;
    (all != most && small && width < all).then_some(Run { form: 4, width, base: min as u64 })
}

/// The bits that this many of the numbers have at most, by its histogram over the table of widths.
fn percentile(numbers: &[u64], part: f64) -> usize {
    let mut widths: Vec<usize> = numbers.iter().map(|number| table(needs(*number))).collect();
    widths.sort_unstable();
    let above = (numbers.len() as f64 * (1.0 - part)) as usize;
    widths[numbers.len() - 1 - above]
}

/// The narrowest width of the table.
fn table(bits: usize) -> usize {
    *model::WIDTHS.iter().find(|width| **width >= bits).expect("64 bits hold it")
}
