//! FORMAT.md, "Column writer": columns by proposals, right ones and damaged ones; through the library, in lines
//! for the probe, and read back by the Rust.
use std::fmt::Write as _;

use model::{Column, Segment, KEPT};
use planning::columns::{stretches, Dice};
use planning::planner::proposed;

use super::Session;
use crate::frames;
use crate::probe::{refused, with_numbers, Requests};
use crate::tally::Hex;
use model::random::Random;

/// A column, a proposal for it in five columns (first rows, rows, forms, widths, bases), and the bytes that
/// are lent.
#[derive(Debug, Clone, PartialEq, Eq)]
pub struct Asked {
    pub rows: Vec<i64>,
    pub flag: u64,
    pub columns: [Vec<u64>; 5],
    pub places: usize,
}

impl Asked {
    pub fn new(rows: &[i64], flag: u64, proposal: &[Segment], places: usize) -> Self {
        let column = |of: fn(&Segment) -> u64| proposal.iter().map(of).collect();
        let columns = [
            column(|segment| segment.first),
            column(|segment| segment.rows),
            column(|segment| segment.form),
            column(|segment| segment.width),
            column(|segment| segment.base),
        ];
        Asked { rows: rows.to_vec(), flag, columns, places }
    }

    /// The columns, lent.
    pub fn lent(&self) -> [&[u64]; 5] {
        self.columns.each_ref().map(Vec::as_slice)
    }

    /// The bytes of the proposal, where it is accepted for so much room.
    pub fn accepted(&self, room: usize) -> Option<Vec<u8>> {
        let proposal = model::proposal_of(self.lent())?;
        model::check_proposal(&self.rows, self.flag != 0, &proposal, room)
    }

    /// What the model writes.
    pub fn answer(&self) -> Column {
        match model::proposal_of(self.lent()) {
            Some(proposal) => model::write_column(&self.rows, self.flag != 0, &proposal, self.places),
            None => model::write_direct(&self.rows, self.flag != 0, self.places),
        }
    }
}

/// The bytes of direct runs of 64 bits.
pub fn direct_bytes(rows: usize) -> usize {
    8 * rows + 2 * rows.div_ceil(512)
}

/// Direct runs of 64 bits as a proposal: what the planner falls back on.
pub fn direct_segments(rows: usize) -> Vec<Segment> {
    let run = |first: usize| Segment {
        first: first as u64,
        rows: (rows - first).min(512) as u64,
        form: 1,
        width: 31,
        base: 0,
    };
    (0..rows).step_by(512).map(run).collect()
}

/// What the planner proposes with that many places in the shortest column, if `best` is what it proposes with
/// enough: that, or the direct runs, or nothing.
pub fn planned_in(places: usize, rows: usize, best: &[Segment]) -> Vec<Segment> {
    if places >= best.len() {
        best.to_vec()
    } else if places >= rows.div_ceil(512) {
        direct_segments(rows)
    } else {
        Vec::new()
    }
}

/// Rows in a few runs, each with a form and a width that it was made for.
fn made_for(random: &mut Random) -> (Vec<i64>, Vec<Segment>) {
    let (mut rows, mut proposal) = (Vec::new(), Vec::new());
    for _ in 0..random.below(5) {
        let (some, form, width) = frames::any_rows(random);
        let (form, width) = match random.once_in(4) {
            true => (4, random.pick(&KEPT) as u64),
            false => (form as u64, width.into()),
        };
        let base = some.iter().min().copied().unwrap_or(0) as u64;
        proposal.push(Segment { first: rows.len() as u64, rows: some.len() as u64, form, width, base });
        rows.extend(some);
    }
    (rows, proposal)
}

/// Any rows cut anywhere, each run in a form that its rows have, at the narrowest width.
fn cut_anywhere(rows: &[i64], signed: bool, random: &mut Random) -> Vec<Segment> {
    let (mut proposal, mut at) = (Vec::new(), 0);
    while at < rows.len() {
        let most = random.pick(&[3, 10, 40, 512]).min(rows.len() - at);
        let some = &rows[at..at + random.from(1, most)];
        let mut fits = vec![(1, model::direct_size(some, signed).0, 0)];
        fits.extend(model::short_repeat_size(some, signed).map(|(bytes, _)| (0, bytes, 0)));
        fits.extend(model::fixed_delta_size(some, signed).map(|_| (2, 0, 0)));
        fits.extend(model::packed_delta_size(some, signed).map(|(code, _)| (3, code, 0)));
        let base = some[random.below(some.len())];
        let width = random.pick(&KEPT);
        fits.extend(model::patched_size(some, base, width).map(|_| (4, width, base as u64)));
        let (form, width, base) = random.pick(&fits);
        let (first, count) = (at as u64, some.len() as u64);
        proposal.push(Segment { first, rows: count, form, width: width as u64, base });
        at += some.len();
    }
    proposal
}

/// One thing of a proposal changed, of every sort.
fn damage(asked: &mut Asked, random: &mut Random) {
    let columns = &mut asked.columns;
    let len = columns.iter().map(Vec::len).min().unwrap_or(0);
    let (which, place) = (random.below(5), random.below(len.max(1)));
    let all = |columns: &mut [Vec<u64>; 5], change: &dyn Fn(&mut Vec<u64>)| {
        columns.iter_mut().for_each(change);
    };
    match random.below(16) {
        // A number that is another: by one, by a flipped bit, any.
        0 if len > 0 => columns[which][place] = columns[which][place].wrapping_add(1),
        1 if len > 0 => columns[which][place] = columns[which][place].wrapping_sub(1),
        2 if len > 0 => columns[which][place] ^= 1 << random.below(64),
        3 if len > 0 => columns[which][place] = random.any() >> random.below(64),
        // A run missing, one twice, two in the other order, one too many.
        4 if len > 0 => all(columns, &|column| {
            column.remove(place);
        }),
        5 if len > 0 => all(columns, &|column| column.insert(place, column[place])),
        6 if place > 0 => all(columns, &|column| column.swap(place - 1, place)),
        7 => (0..5).for_each(|which| columns[which].push(random.below(20) as u64)),
        // An overlap or a gap of a row: the run begins a row earlier or later, and ends where it did.
        8 if len > 0 => {
            columns[0][place] = columns[0][place].wrapping_sub(1);
            columns[1][place] = columns[1][place].wrapping_add(1);
        }
        9 if len > 0 => {
            columns[0][place] = columns[0][place].wrapping_add(1);
            columns[1][place] = columns[1][place].wrapping_sub(1);
        }
        // A segment of no rows; another form; forms and widths that are none, congruent to one that is.
        10 if len > 0 => {
            let first = columns[0][place];
            let empty = [first, 0, random.below(5) as u64, random.below(9) as u64, 0];
            columns.iter_mut().zip(empty).for_each(|(column, number)| column.insert(place, number));
        }
        11 if len > 0 => columns[2][place] = random.below(7) as u64,
        12 if len > 0 => columns[3][place] ^= random.pick(&[256, 1 << 16, 1 << 32, 1 << 63]),
        13 if len > 0 => columns[2][place] ^= random.pick(&[8, 256, 1 << 32, 1 << 63]),
        // Columns of unequal length.
        14 if len > 0 => columns[which].truncate(place),
        _ => columns[which].push(random.below(20) as u64),
    }
}

/// Any column: by cuts anywhere, by runs that the rows were made for, and by proposals of the oracle in `planning`.
pub fn any(random: &mut Random) -> Asked {
    if !random.once_in(4) {
        return by_cuts(random);
    }
    let (rows, flag) = (any_rows(random), random.below(2) as u64);
    finished(Asked::new(&rows, flag, &proposed(&rows, flag != 0), 0), random)
}

/// The same, but by no planner's proposals.
pub fn by_cuts(random: &mut Random) -> Asked {
    let flag = random.below(2) as u64;
    let (rows, proposal) = match random.once_in(2) {
        true => made_for(random),
        false => {
            let rows = any_rows(random);
            let proposal = cut_anywhere(&rows, flag != 0, random);
            (rows, proposal)
        }
    };
    finished(Asked::new(&rows, flag, &proposal, 0), random)
}

fn any_rows(random: &mut Random) -> Vec<i64> {
    let most = if random.once_in(32) { 700 } else { 40 };
    stretches(&mut Dice::new(random.any()), most)
}

/// Half of them damaged, with room about what they need and about what direct runs need.
fn finished(mut asked: Asked, random: &mut Random) -> Asked {
    while random.once_in(2) {
        damage(&mut asked, random);
    }
    let direct = direct_bytes(asked.rows.len());
    let needs = asked.accepted(usize::MAX).map_or(direct, |bytes| bytes.len());
    let about = [needs, needs, needs, needs + 1, needs.saturating_sub(1), direct, direct + 40];
    asked.places = match random.below(10) {
        7 | 8 => direct.saturating_sub(1),
        9 => 0,
        k => about[k],
    };
    asked
}

impl Session {
    pub(super) fn columns(&mut self) {
        self.tally.stage("columns by proposals");
        for _ in 0..self.size.pick(2_000, 20_000, 600_000) {
            let asked = any(&mut self.random);
            #[cfg(feature = "ours")]
            if self.ours.is_some() {
                match crate::ours::Ours::check_proposed(&asked) {
                    Ok(answers) => self.tally.ours(answers),
                    Err(wrong) => self.tally.unlisted(&format!("{asked:?}\n  {wrong}")),
                }
            }
            if let Column::Planned(bytes) | Column::Direct(bytes) = asked.answer() {
                self.read_back(&bytes, asked.flag != 0, &asked.rows);
            }
        }
    }
}

impl Requests {
    /// A line has one count of segments, a byte for a form and one for a width.
    pub fn column(&mut self, asked: &Asked) {
        let Asked { rows, flag, columns: [firsts, counts, forms, widths, bases], places } = asked;
        let expected = match asked.answer() {
            _ if forms.iter().any(|form| *form > 4) => "bad line".into(),
            Column::Planned(bytes) => {
                format!("column planned {} {}", bytes.len(), Hex(&bytes)).to_lowercase()
            }
            Column::Direct(bytes) => format!("column direct {} {}", bytes.len(), Hex(&bytes)).to_lowercase(),
            Column::Refused(refusal) => refused(refusal),
        };
        let mut line = format!("0c{flag:02x}{places:04x}{:04x}", firsts.len());
        for k in 0..firsts.len() {
            write!(line, "{:016x}{:016x}{:02x}", firsts[k], counts[k], forms[k]).expect("a string takes it");
            write!(line, "{:02x}{:016x}", widths[k], bases[k]).expect("a string takes it");
        }
        self.ask(with_numbers(line, rows), expected);
    }

    /// Where nothing is proposed, whatever the planner is: no rows, or no segments lent.
    pub fn plan_none(&mut self, rows: &[i64], flag: u64, lent: u16) {
        assert!(rows.is_empty() || lent == 0, "what is proposed has no one right value");
        self.ask(with_numbers(format!("0d{flag:02x}{lent:04x}"), rows), "plan 0".into());
    }
}

/// Any column, as a line for the probe.
pub fn probe_line(requests: &mut Requests, random: &mut Random) {
    let asked = any(random);
    line_of(requests, asked);
}

/// The same for the fixed list: by no planner's proposal.
pub fn listed_line(requests: &mut Requests, random: &mut Random) {
    let asked = by_cuts(random);
    line_of(requests, asked);
}

/// As far as a line can say it.
fn line_of(requests: &mut Requests, mut asked: Asked) {
    let len = asked.columns.iter().map(Vec::len).min().unwrap_or(0);
    asked.columns.iter_mut().for_each(|column| column.truncate(len));
    asked.columns[2].iter_mut().for_each(|form| *form %= 256);
    asked.columns[3].iter_mut().for_each(|width| *width %= 256);
    asked.places = asked.places.min(65_535);
    requests.column(&asked);
}
