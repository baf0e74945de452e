//! One walk over a window of rows: the cheapest way to cut what was seen so far, row by row. A state is
//! a run that is open, of one form and width; each row goes on with it or opens it anew after the
//! cheapest way up to there. A state is one number, so that the cheaper of two is the smaller: the bits
//! up to here, then where the run begins, then its form.
use crate::bits::{class, needs, number, varint, KEPT};
use crate::frames::{head, Frame, FAR};
use crate::menu::{Menu, FOLLOWED};

/// Rows of a window: the most that a run has.
pub const WINDOW: usize = 512;

/// That many rows in a row outside a frame have left it; fewer stick out.
const STREAK: usize = 5;

/// Forms in a state; a patched run of class k is 4 + k.
pub const SHORT: u64 = 0;
pub const DIRECT: u64 = 1;
pub const FIXED: u64 = 2;
pub const PACKED: u64 = 3;
pub const PATCHED: u64 = 4;

/// One bit in a state.
const BIT: u64 = 1 << 14;
const CLOSED: u64 = FAR * BIT;

#[inline]
fn state(bits: u64, from: usize, form: u64) -> u64 {
    bits * BIT + from as u64 * 16 + form
}

/// For each row of the window, the cheapest way up to it: its last run as a state, in whole bytes.
pub struct Way([u64; WINDOW + 1]);

/// The open runs, and what they need of the rows before.
struct States {
    menu: Menu,
    direct: [u64; 11],
    packed: [u64; 11],
    /// Whether the packed deltas that are open fall.
    falls: bool,
    fixed: u64,
    step: i64,
    equal: usize,
    frames: [Frame; FOLLOWED],
}

impl Way {
    /// Before any row.
    pub const START: Way = Way([0; WINDOW + 1]);

    /// Walks over at most 512 rows.
    pub fn walk(&mut self, rows: &[i64], signed: bool) {
        let mut states = States::new(Menu::of(rows, signed));
        self.0[0] = 0;
        for at in 0..rows.len() {
            let row = rows[at];
            let bits = needs(number(row, signed));
            let before = self.bits(at);
            let mut least = states.direct(at, before, class(bits));
            if at > 0 {
                let head = 16 + 8 * varint(number(rows[at - 1], signed)) as u64;
                least = least.min(states.delta(at, self.bits(at - 1) + head, row.wrapping_sub(rows[at - 1])));
                states.equal = if states.step == 0 { states.equal + 1 } else { 0 };
            }
            if states.equal >= 2 {
                // Three to ten equal rows.
                let from = at - states.equal.min(9);
                least = least.min(state(self.bits(from) + 8 + bits.next_multiple_of(8) as u64, from, SHORT));
            }
            least = states.patched(at, row, before, least);
            self.0[at + 1] = (least / BIT).next_multiple_of(8) * BIT + least % BIT;
        }
    }

    /// The bits of the way up to a row.
    #[inline]
    fn bits(&self, at: usize) -> u64 {
        self.0[at] / BIT
    }

    /// Turns the way round: from now on each run stands where it begins. Answers where the last begins.
    pub fn turn(&mut self, rows: usize) -> usize {
        let (mut end, mut last) = (rows, self.0[rows]);
        while end > 0 {
            let (from, form) = ((last % BIT / 16) as usize, last % 16);
            last = self.0[from];
            self.0[from] = end as u64 * 16 + form;
            end = from;
        }
        // The last run's end was `rows`: it is the one place that was not written over.
        (self.0[rows] % BIT / 16) as usize
    }

    /// The end and the form of the run that begins at a row, once the way is turned.
    pub fn run(&self, from: usize) -> (usize, u64) {
        ((self.0[from] / 16) as usize, self.0[from] % 16)
    }
}

impl States {
    fn new(menu: Menu) -> States {
        States {
            menu,
            direct: [CLOSED; 11],
            packed: [CLOSED; 11],
            falls: false,
            fixed: CLOSED,
            step: 0,
            equal: 0,
            frames: [Frame::NONE; FOLLOWED],
        }
    }

    #[inline]
    fn direct(&mut self, at: usize, before: u64, class: usize) -> u64 {
        let fresh = state(before + 16, at, DIRECT);
        let first = self.menu.direct_of[class];
        let mut least = CLOSED;
        for k in 0..self.menu.directs {
            let on = self.direct[k].min(fresh) + self.menu.direct[k] * BIT;
            self.direct[k] = if k < first { CLOSED } else { on };
            least = least.min(self.direct[k]);
        }
        least
    }

    /// Deltas: a run begins at the row before, so that this step is its first; `before` is all up to
    /// there with header and first row.
    #[inline]
    fn delta(&mut self, at: usize, before: u64, step: i64) -> u64 {
        let bits = before + 8 * varint(number(step, true)) as u64;
        let fixed = if step == self.step && at > 1 { self.fixed } else { CLOSED };
        self.fixed = fixed.min(state(bits, at - 1, FIXED));
        self.step = step;
        // A step of 0 goes on with either direction, and begins a run that rises.
        let turns = step != 0 && (step < 0) != self.falls;
        self.falls ^= turns;
        let fresh = if step == 0 && self.falls { CLOSED } else { state(bits, at - 1, PACKED) };
        let class = class(needs(step.unsigned_abs()));
        let first = if turns { self.menu.packeds } else { self.menu.packed_of[class] };
        let mut least = self.fixed;
        for k in 0..self.menu.packeds {
            let on = if k < first { CLOSED } else { self.packed[k] + self.menu.packed[k] * BIT };
            self.packed[k] = on.min(fresh);
            least = least.min(self.packed[k]);
        }
        least
    }

    #[inline]
    fn patched(&mut self, at: usize, row: i64, before: u64, least: u64) -> u64 {
        let before = before + head(row);
        let mut least = least;
        for k in 0..self.menu.frames {
            let class = self.menu.frame[k];
            let width = KEPT[class].0;
            let frame = &mut self.frames[k];
            frame.take(width, at, row);
            let (fresh, mut cost) = (before + (width as u64).next_multiple_of(8) + 16, frame.cost());
            // A new run where it is cheaper, and where the rows have left the frame for another form.
            if fresh < cost || (frame.streak >= STREAK && least / BIT < cost) {
                *frame = Frame::open(width, at, row, before);
                cost = fresh;
            }
            least = least.min(state(cost, frame.start, PATCHED + class as u64));
        }
        least
    }
}
