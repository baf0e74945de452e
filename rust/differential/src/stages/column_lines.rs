//! FORMAT.md, "Column writer": the fixed lines of the probe. Their answers are the model's; of the planner, whose
//! proposal has no one right value, there are only those where it proposes nothing.
use model::Segment;

use super::columns::{direct_bytes, Asked};
use crate::probe::Requests;

/// The most bytes that a line can lend.
const ROOM: usize = 65_535;

/// Five rows 300; 1, 2, 3; 10, 12, 14, 16, 18; 101, 102, 183, 104; 100, 97, 96, 92.
const ROWS: [i64; 21] =
    [300, 300, 300, 300, 300, 1, 2, 3, 10, 12, 14, 16, 18, 101, 102, 183, 104, 100, 97, 96, 92];

fn segment(first: u64, rows: u64, form: u64, width: u64, base: i64) -> Segment {
    Segment { first, rows, form, width, base: base as u64 }
}

/// A run of each form for them.
fn each_form() -> Vec<Segment> {
    vec![
        segment(0, 5, 0, 2, 0),
        segment(5, 3, 1, 3, 0),
        segment(8, 5, 2, 0, 0),
        segment(13, 4, 4, 4, 100),
        segment(17, 4, 3, 3, 0),
    ]
}

pub fn fixed_lines(requests: &mut Requests) {
    rooms(requests);
    not_accepted(requests);
    every_number(requests);
    long(requests);
    few_rows(requests);
    nothing_proposed(requests);
    bad_lines(requests);
}

/// Room about the proposal's 24 bytes and about the direct run's 170; a proposal above the direct run.
fn rooms(requests: &mut Requests) {
    let each_row: Vec<Segment> = (0..21).map(|row| segment(row, 1, 1, 31, 0)).collect();
    for places in [0, 1, 23, 24, 25, 169, 170, 171, 209, 210, 211, ROOM] {
        for flag in [0, 1] {
            requests.column(&Asked::new(&ROWS, flag, &each_form(), places));
            requests.column(&Asked::new(&ROWS, flag, &each_row, places));
            requests.column(&Asked::new(&ROWS, flag, &[], places));
        }
    }
    // A base where no form looks at it.
    let mut based = each_form();
    based.iter_mut().for_each(|segment| segment.base |= u64::from(segment.form != 4) * u64::MAX);
    requests.column(&Asked::new(&ROWS, 0, &based, ROOM));
}

/// Gaps, overlaps, runs in another order, past the end, of no rows, and what the writers refuse.
fn not_accepted(requests: &mut Requests) {
    let mut not = |change: &dyn Fn(&mut Vec<Segment>)| {
        let mut changed = each_form();
        change(&mut changed);
        for places in [ROOM, 169] {
            requests.column(&Asked::new(&ROWS, 0, &changed, places));
        }
    };
    not(&|plan| plan[2] = segment(9, 4, 2, 0, 0));
    not(&|plan| plan[2] = segment(7, 6, 1, 31, 0));
    not(&|plan| plan[2] = segment(8, 4, 2, 0, 0));
    not(&|plan| plan[1] = segment(5, 4, 1, 3, 0));
    not(&|plan| plan.truncate(4));
    not(&|plan| plan.retain(|segment| segment.first > 0));
    not(&|plan| plan.swap(0, 1));
    not(&|plan| plan.insert(2, plan[1]));
    for rows in [3, 5, 513, 1 << 32, u64::MAX - 16, u64::MAX] {
        not(&|plan| plan[4].rows = rows);
    }
    for first in [0, 16, 18, 1 << 32 | 17, u64::MAX] {
        not(&|plan| plan[4].first = first);
    }
    for form in 0..5 {
        not(&|plan| plan.insert(0, segment(0, 0, form, 1, 0)));
        not(&|plan| plan.insert(3, segment(13, 0, form, 1, 0)));
        not(&|plan| plan.push(segment(21, 0, form, 1, 0)));
        not(&|plan| plan.push(segment(21, 1, form, 1, 0)));
    }
    for base in [99, 101, 110, 0, -100, i64::MIN, i64::MAX] {
        not(&|plan| plan[3].base = base as u64);
    }
}

/// The rows of each segment, as a column of their own, in every form at every width.
fn every_number(requests: &mut Requests) {
    for run in each_form() {
        let rows = &ROWS[run.first as usize..(run.first + run.rows) as usize];
        for form in 0..5 {
            for width in (0..=34).chain([40, 48, 56, 63, 64, 65, 128, 255]) {
                let plan = [Segment { first: 0, form, width, ..run }];
                requests.column(&Asked::new(rows, width % 2, &plan, ROOM));
            }
        }
    }
}

/// Direct runs of 512 rows and the rest last; runs of 512 rows, and of 513, which no writer accepts.
fn long(requests: &mut Requests) {
    let rows: Vec<i64> = (0..1030).map(|row| row * row - 500).collect();
    for (count, places) in [(512, 4098), (513, 4108), (1030, 8246), (1030, 8245)] {
        assert_eq!(direct_bytes(count), places + places % 2);
        requests.column(&Asked::new(&rows[..count], 1, &[], places));
    }
    for count in [512, 513] {
        requests.column(&Asked::new(&rows[..count], 0, &[segment(0, count as u64, 3, 31, 0)], ROOM));
    }
    let plan = [segment(0, 512, 1, 31, 0), segment(512, 512, 3, 15, 0), segment(1024, 6, 1, 23, 0)];
    requests.column(&Asked::new(&rows, 1, &plan, ROOM));
}

/// No rows, by the empty proposal and by others; one row, by each form.
fn few_rows(requests: &mut Requests) {
    for flag in [0, 1] {
        for places in [0, 9] {
            requests.column(&Asked::new(&[], flag, &[], places));
            requests.column(&Asked::new(&[], flag, &[segment(0, 0, 1, 3, 0)], places));
            requests.column(&Asked::new(&[], flag, &[segment(0, 1, 1, 3, 0)], places));
        }
        for row in [0, 7, -1, i64::MIN] {
            for (form, width) in [(0, 8), (1, 0), (1, 31), (2, 0), (3, 31), (4, 8)] {
                requests.column(&Asked::new(&[row], flag, &[segment(0, 1, form, width, 0)], 10));
            }
        }
    }
}

fn nothing_proposed(requests: &mut Requests) {
    for flag in [0, 1] {
        for lent in [0, 1, 5, 8192] {
            requests.plan_none(&[], flag, lent);
        }
        for rows in [&[7][..], &ROWS, &[i64::MIN; 600]] {
            requests.plan_none(rows, flag, 0);
        }
    }
}

/// Too short for what is counted, another flag, a form above 4, a row of seven bytes, 8,193 segments lent.
fn bad_lines(requests: &mut Requests) {
    let one = "0c0000ff0001000000000000000000000000000000010103";
    for bad in ["0c", "0c00", "0c0000ff", "0c0000ff00", "0c0200ff0000", "0c0000ff0001", one] {
        requests.bad(bad);
    }
    requests.bad(&format!("{one}00000000000000"));
    requests.bad(&format!("{one}000000000000000000000000000007"));
    for form in [5, 6, 255] {
        requests.column(&Asked::new(&[7], 0, &[segment(0, 1, form, 3, 0)], ROOM));
    }
    for bad in ["0d", "0d00", "0d020000", "0d002001", "0d000005000000000000000007", "0d00000500000000000007"]
    {
        requests.bad(bad);
    }
}
