//! FORMAT.md, "Salvage": salvage, in lines for the probe.
use std::fmt::Write as _;

use model::{Groups, Salvaged, Stream};

use crate::frames;
use crate::probe::{refused, Requests};
use crate::tally::Hex;
use model::random::Random;

/// How many bytes the probe lends for the report.
pub const REPORT: usize = 65_536;

/// What is salvaged, and the bytes that are lent for the new stream.
#[derive(Debug, Clone, PartialEq, Eq)]
pub struct Asked {
    pub input: Vec<u8>,
    pub starts: Vec<u64>,
    pub counts: Vec<u64>,
    pub fill: i64,
    pub flag: u64,
    pub places: usize,
}

impl Asked {
    /// What the model answers, with that many bytes lent for the report.
    pub fn answer(&self, report: usize) -> Salvaged {
        let Asked { input, starts, counts, fill, flag, places } = self;
        model::salvage(input, *flag != 0, Groups { starts, rows: counts }, *fill, [*places, report])
    }
}

/// How many rows a stream has that is whole.
fn rows_of(bytes: &[u8]) -> Option<u64> {
    match model::read_stream(bytes, 0, false, usize::MAX) {
        Stream::Whole { rows, .. } => Some(rows.len() as u64),
        Stream::Refused { .. } => None,
    }
}

/// A few streams one after another, each a group: mostly with its own rows.
fn table(random: &mut Random) -> Asked {
    let mut asked = Asked {
        input: Vec::new(),
        starts: Vec::new(),
        counts: Vec::new(),
        fill: random.any() as i64 >> random.below(64),
        flag: random.below(2) as u64,
        places: 0,
    };
    for _ in 0..random.below(5) {
        let group = frames::any_stream(random);
        asked.starts.push(asked.input.len() as u64);
        let other = match random.below(32) {
            0 => random.any() >> random.below(64),
            1..=3 => 512 * random.below(4) as u64 + random.below(3) as u64,
            _ => random.below(40) as u64,
        };
        asked.counts.push(rows_of(&group).filter(|_| !random.once_in(8)).unwrap_or(other));
        asked.input.extend(group);
    }
    asked
}

/// Starts that are wrong, or the table's in another way.
fn damage_groups(asked: &mut Asked, random: &mut Random) {
    let (len, place) = (asked.starts.len(), random.below(asked.starts.len().max(1)));
    let end = asked.input.len() as u64;
    match random.below(9) {
        0 if len > 0 => asked.starts[place] = random.any() >> random.below(64),
        1 if len > 0 => asked.starts[place] += 1,
        2 => asked.starts.reverse(),
        3 if len > 0 => asked.starts[0] = 1,
        // Past the end, at it, and a start twice.
        4 | 5 => {
            asked.starts.push(end + random.below(2) as u64);
            asked.counts.push(random.below(3) as u64);
        }
        6 if len > 0 => {
            asked.starts.insert(place, asked.starts[place]);
            asked.counts.insert(place, random.below(3) as u64);
        }
        // Two groups as one; none.
        7 if place > 0 => {
            asked.starts.remove(place);
            let rows = asked.counts.remove(place);
            asked.counts[place - 1] = asked.counts[place - 1].wrapping_add(rows);
        }
        _ => {
            asked.starts.clear();
            asked.counts.clear();
        }
    }
}

/// Any salvage: of tables that are whole, damaged and cut, with groups that are right and wrong.
pub fn any(random: &mut Random) -> Asked {
    let mut asked = table(random);
    // An empty stream starts a group where another does: its start is not there twice.
    if !random.once_in(8) {
        let mut last = None;
        let kept: Vec<bool> = asked.starts.iter().map(|start| last.replace(*start) != Some(*start)).collect();
        let mut keep = kept.iter();
        asked.starts.retain(|_| *keep.next().expect("one each"));
        let mut keep = kept.iter();
        asked.counts.retain(|_| *keep.next().expect("one each"));
    }
    if random.once_in(3) && !asked.input.is_empty() {
        let at = random.below(asked.input.len());
        asked.input[at] = random.byte();
    }
    if random.once_in(4) {
        damage_groups(&mut asked, random);
    }
    // Fills of more bytes than these take the model long, and are refused.
    asked.places = 1_000;
    if let Salvaged::Written { bytes, .. } = asked.answer(REPORT) {
        let needs = bytes.len();
        asked.places = random.pick(&[needs, needs, needs + 1, needs + 30, needs.saturating_sub(1), 0]);
    }
    asked
}

impl Requests {
    pub fn salvage(&mut self, asked: &Asked) {
        let expected = match asked.answer(REPORT) {
            Salvaged::Refused(refusal) => refused(refusal),
            Salvaged::Written { report, bytes } => {
                let report = report.replace('\n', " ");
                format!("salvaged {report}bytes {} {}", bytes.len(), Hex(&bytes)).to_lowercase()
            }
        };
        let Asked { input, starts, counts, fill, flag, places } = asked;
        let mut line = format!("0b{flag:02x}{fill:016x}{places:04x}{:04x}", starts.len());
        for (start, rows) in starts.iter().zip(counts) {
            write!(line, "{start:016x}{rows:016x}").expect("a string takes it");
        }
        self.ask(format!("{line}{}", Hex(input)), expected);
    }
}

/// Any salvage, as a line for the probe.
pub fn probe_line(requests: &mut Requests, random: &mut Random) {
    requests.salvage(&any(random));
}

/// A table of three groups: five rows 300; 1, 2, 3; then 10, 12, 14, 16, 18.
fn three() -> Asked {
    Asked {
        input: vec![0x0A, 0x01, 0x2C, 0x46, 0x02, 0x12, 0x30, 0xC0, 0x04, 0x0A, 0x04],
        starts: vec![0, 3, 7],
        counts: vec![5, 3, 5],
        fill: -7,
        flag: 0,
        places: 65_535,
    }
}

/// Every byte of tables damaged in turn, by every so many values: of the three groups, and of others that
/// are whole.
pub fn damaged_tables(requests: &mut Requests, tables: usize, step: usize, random: &mut Random) {
    let mut samples = vec![three()];
    while samples.len() < tables {
        let table = table(random);
        if !table.input.is_empty() && table.input.len() < 400 && rows_of(&table.input).is_some() {
            samples.push(Asked { places: 65_535, ..table });
        }
    }
    for sample in samples {
        for at in 0..sample.input.len() {
            for by in (1..=255u8).step_by(step) {
                let mut damaged = sample.clone();
                damaged.input[at] ^= by;
                requests.salvage(&damaged);
            }
        }
    }
}

/// Kept and replaced, fills of every length about 512, groups of no rows and of no bytes, and the refusals in
/// their order.
pub fn fixed_lines(requests: &mut Requests) {
    let three = three();
    let mut ask = |asked: Asked| requests.salvage(&asked);
    let with = |starts: &[u64], counts: &[u64]| Asked {
        starts: starts.to_vec(),
        counts: counts.to_vec(),
        ..three.clone()
    };
    for flag in [0, 1] {
        ask(Asked { flag, ..three.clone() });
        for counts in [[5, 3, 4], [4, 3, 5], [5, 4, 5], [0, 3, 5], [5, 3, 0], [0, 0, 0], [1025, 512, 1]] {
            ask(Asked { flag, ..with(&[0, 3, 7], &counts) });
        }
    }
    ask(with(&[0], &[13]));
    ask(with(&[0, 7], &[8, 5]));
    ask(with(&[0, 6], &[8, 5]));
    ask(with(&[0, 11], &[13, 0]));
    ask(with(&[0, 11], &[13, 2]));
    // Fills, and fill rows of every length of varint.
    for rows in [0, 1, 2, 511, 512, 513, 1023, 1024, 1025, 8000] {
        ask(Asked { input: vec![0xFF], ..with(&[0], &[rows]) });
    }
    for shift in (0..64).step_by(7).chain([63]) {
        for fill in [1 << shift, -1 << shift, i64::MAX >> shift] {
            for flag in [0, 1] {
                ask(Asked { input: vec![0xFF], fill, flag, ..with(&[0], &[513]) });
            }
        }
    }
    // 17: not from 0, equal, falling, past the end, an empty list; before 8, which each of them would be.
    for (starts, counts) in [
        (&[1, 3, 7][..], &[u64::MAX, 3, 5][..]),
        (&[0, 0, 7], &[u64::MAX, 3, 5]),
        (&[0, 3, 3], &[u64::MAX, 3, 5]),
        (&[0, 7, 3], &[u64::MAX, 3, 5]),
        (&[0, 3, 12], &[u64::MAX, 3, 5]),
        (&[0, 3, u64::MAX], &[u64::MAX, 3, 5]),
        (&[], &[]),
    ] {
        ask(Asked { places: 0, ..with(starts, counts) });
        ask(with(starts, counts));
    }
    // An empty stream: no groups, one of no rows, one of some, two.
    for (starts, counts) in [(&[][..], &[][..]), (&[0], &[0]), (&[0], &[3]), (&[0, 0], &[0, 0]), (&[1], &[0])]
    {
        ask(Asked { input: vec![], ..with(starts, counts) });
    }
    // 8: a byte too few, and rows that no room holds.
    for places in [0, 10, 11, 12] {
        ask(Asked { places, ..three.clone() });
    }
    for rows in [u64::MAX, u64::MAX - 511, 1 << 63, 1 << 40, 2_400_000] {
        ask(Asked { input: vec![0xFF], ..with(&[0], &[rows]) });
        ask(with(&[0, 3, 7], &[5, rows, rows]));
    }
    // Lines that are too short for what they count, and a flag that is none.
    let line = "0b00000000000000000700ff0001";
    for bad in
        ["0b", &line[..24], line, &format!("{line}{}", "00".repeat(15)), "0b02000000000000000700ff0000"]
    {
        requests.bad(bad);
    }
}
