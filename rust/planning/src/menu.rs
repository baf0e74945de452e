//! Which widths the rows of a window ask for: the walk's states are these and no others, so that its cost
//! is small where the rows are alike.
use crate::bits::{class, needs, number, KEPT};

/// The widths W that patched runs are tried at, as classes: up to 40 bits, and not 2, which is near 1
/// and 4.
const FRAMES: usize = 8;

/// The most frames that are followed at once.
pub const FOLLOWED: usize = 2;

pub struct Menu {
    /// The widths of direct runs, the narrowest first, how many, and for each class the first that
    /// has it.
    pub direct: [u64; 11],
    pub directs: usize,
    pub direct_of: [usize; 11],
    /// The same for the steps of packed deltas.
    pub packed: [u64; 11],
    pub packeds: usize,
    pub packed_of: [usize; 11],
    /// The widths of frames, as classes.
    pub frame: [usize; FOLLOWED],
    pub frames: usize,
}

impl Menu {
    pub fn of(rows: &[i64], signed: bool) -> Menu {
        let (mut numbers, mut steps, mut uneven) = ([0; 11], [0; 11], 0);
        let (mut before, mut step_before) = (rows[0], 0);
        for row in rows {
            numbers[class(needs(number(*row, signed)))] += 1;
            // Equal steps are a fixed delta's, and say nothing of the others.
            let step = row.wrapping_sub(before);
            let counts = usize::from(step != step_before);
            steps[class(needs(step.unsigned_abs()))] += counts;
            uneven += counts;
            (before, step_before) = (*row, step);
        }
        let mut menu = Menu {
            direct: [0; 11],
            directs: 0,
            direct_of: [0; 11],
            packed: [0; 11],
            packeds: 0,
            packed_of: [0; 11],
            frame: [0; FOLLOWED],
            frames: 0,
        };
        menu.choose_direct(&numbers, rows.len());
        menu.choose_packed(&steps, uneven);
        menu.choose_frames(&steps, uneven);
        menu
    }

    /// A class that one row in 64 has; and the widest, which some row needs.
    fn choose_direct(&mut self, numbers: &[usize; 11], rows: usize) {
        let mut seen = 0;
        for k in 0..11 {
            self.direct_of[k] = self.directs;
            seen += numbers[k];
            if numbers[k] > 0 && (64 * numbers[k] >= rows || seen == rows) {
                self.direct[self.directs] = KEPT[k].0 as u64;
                self.directs += 1;
            }
        }
    }

    /// A class that one step in 64 has, from two bits on. A step that is wider than all of these ends a
    /// run, and may be the first of the next. At 64 bits a direct run is as good.
    fn choose_packed(&mut self, steps: &[usize; 11], uneven: usize) {
        for k in 0..10 {
            self.packed_of[k] = self.packeds;
            let steps = steps[k] + if k == 1 { steps[0] } else { 0 };
            if k > 0 && steps > 0 && 64 * steps >= uneven {
                self.packed[self.packeds] = KEPT[k].0 as u64;
                self.packeds += 1;
            }
        }
        self.packed_of[10] = self.packeds;
    }

    /// The narrowest frames that hold every fourth step: a frame of W bits has no wider step between
    /// two of its rows. A frame as wide as the widest direct run gains nothing.
    fn choose_frames(&mut self, steps: &[usize; 11], uneven: usize) {
        let mut held = 0;
        for k in 0..FRAMES {
            held += steps[k];
            let narrower = k != 1 && (KEPT[k].0 as u64) < self.direct[self.directs - 1];
            if narrower && held > 0 && 4 * held >= uneven && self.frames < FOLLOWED {
                self.frame[self.frames] = k;
                self.frames += 1;
            }
        }
    }
}
