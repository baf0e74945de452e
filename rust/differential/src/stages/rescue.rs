//! Rows rescued by positions, in lines for the probe: 19.
use model::{Answer, Positions, Rescued};

#[cfg(feature = "ours")]
use super::Session;
use crate::frames;
#[cfg(feature = "ours")]
use crate::listed::Call;
use crate::probe::Requests;
use crate::tally::Hex;
use model::random::Random;

/// What is rescued: the columns of runs, skips and counts, and the places lent for rows and verdicts.
#[derive(Debug, Clone, PartialEq, Eq)]
pub struct Asked {
    pub input: Vec<u8>,
    pub flag: u64,
    pub fill: i64,
    pub columns: [Vec<u64>; 3],
    pub places: [usize; 2],
}

impl Asked {
    /// What the model answers.
    pub fn answer(&self) -> Rescued {
        let [runs, skips, counts] = self.columns.each_ref().map(Vec::as_slice);
        let groups = Positions { runs, skips, counts };
        model::rescue(&self.input, self.flag != 0, groups, self.fill, self.places)
    }

    /// As a line of the probe.
    pub fn line(&self) -> String {
        let Asked { input, flag, fill, columns, places } = self;
        let counts: String = columns.iter().map(|column| format!("{:04x}", column.len())).collect();
        let numbers: String = columns.iter().flatten().map(|number| format!("{number:016x}")).collect();
        format!("19{flag:02x}{fill:016x}{:04x}{:04x}{counts}{numbers}{}", places[0], places[1], Hex(input))
    }
}

/// The runs of a stream as far as it is read: where each begins, and its rows.
fn runs(input: &[u8]) -> Vec<(u64, u64)> {
    let (mut runs, mut at) = (Vec::new(), 0);
    while let Answer::Run(run) = model::read_run(input, at, false, usize::MAX) {
        runs.push((at as u64, run.rows.len() as u64));
        at += run.consumed;
    }
    runs
}

/// A whole stream cut into groups at any rows, with just enough places: every group is kept. The positions
/// are plain, or pass runs.
pub fn table(random: &mut Random) -> Asked {
    let mut input = Vec::new();
    for _ in 0..random.below(6) {
        let run = frames::any_run(random);
        if let Answer::Run(read) = model::read_run(&run, 0, false, 60) {
            input.extend(&run[..read.consumed]);
        }
    }
    let runs = runs(&input);
    let total: u64 = runs.iter().map(|run| run.1).sum();
    let mut firsts: Vec<u64> =
        (0..random.below(6)).map(|_| random.below(total as usize + 1) as u64).collect();
    firsts.push(0);
    firsts.sort_unstable();
    let mut columns: [Vec<u64>; 3] = Default::default();
    for (k, first) in firsts.iter().enumerate() {
        let end = firsts.get(k + 1).copied().unwrap_or(total);
        // The run of the row, or one before it; never a run before the last group's.
        let (mut before, mut from) = (0, (0, 0));
        let least = columns[0].last().copied().unwrap_or(0);
        for (at, rows) in &runs {
            if *first < before || (*at > least && random.once_in(3)) {
                break;
            }
            from = (*at, first - before);
            before += rows;
            if *first < before {
                break;
            }
        }
        columns
            .iter_mut()
            .zip([from.0, from.1, end - first])
            .for_each(|(column, number)| column.push(number));
    }
    let fill = random.any() as i64 >> random.below(64);
    let places = [total as usize, firsts.len()];
    Asked { input, flag: random.below(2) as u64, fill, columns, places }
}

/// One number of the columns changed, or their lengths.
fn damage(asked: &mut Asked, random: &mut Random) {
    let columns = &mut asked.columns;
    let (which, place) = (random.below(3), random.below(columns[0].len()));
    match random.below(8) {
        0 => columns[which][place] = columns[which][place].wrapping_add(1),
        1 => columns[which][place] = columns[which][place].wrapping_sub(1),
        2 => columns[which][place] = random.any() >> random.below(64),
        3 => columns[which].truncate(place),
        4 => columns[which].push(random.below(20) as u64),
        // A group less: the one before it ends elsewhere. A group of no rows more; none.
        5 => columns.iter_mut().for_each(|column| {
            column.remove(place);
        }),
        6 => {
            columns[2].insert(place, 0);
            (0..2).for_each(|which| columns[which].insert(place, columns[which][place]));
        }
        _ => columns.iter_mut().for_each(Vec::clear),
    }
}

/// Any rescue: of tables that are whole, damaged and cut, with positions that are right and wrong.
pub fn any(random: &mut Random) -> Asked {
    let mut asked = table(random);
    if random.once_in(2) && !asked.input.is_empty() {
        let at = random.below(asked.input.len());
        asked.input[at] ^= 1 << random.below(8);
    }
    if random.once_in(8) {
        asked.input.truncate(random.below(asked.input.len() + 1));
    }
    if random.once_in(3) {
        damage(&mut asked, random);
    }
    for places in &mut asked.places {
        *places =
            random.pick(&[*places, *places, *places, *places + 1, *places + 20, places.saturating_sub(1)]);
    }
    asked
}

#[cfg(feature = "ours")]
impl Session {
    /// Rescues through the wrapper. The Rust has no counterpart.
    pub(super) fn rescued(&mut self) {
        if self.ours.is_none() {
            return;
        }
        self.tally.stage("rows rescued by positions");
        for _ in 0..self.size.pick(2_000, 100_000, 1_000_000) {
            let asked = any(&mut self.random);
            let paper = asked.answer();
            match crate::ours::rescue::check(&asked, &paper) {
                Ok(answers) => self.tally.ours(answers),
                Err(answer) => {
                    let call = Call::Stream { signed: asked.flag != 0 };
                    self.tally.differs(&asked.input, call, &format!("{paper:?}"), "ours", &answer);
                }
            }
        }
    }
}

/// Any rescue, as a line for the probe.
pub fn probe_line(requests: &mut Requests, random: &mut Random) {
    requests.said(any(random).line());
}

/// Every byte of three runs damaged in turn, under groups at the runs, within them and past them; positions
/// and counts about the right ones, the refusals, and lines that are bad.
pub fn fixed_lines(requests: &mut Requests) {
    let three = vec![0x0A, 0x01, 0x2C, 0x46, 0x02, 0x12, 0x30, 0xC0, 0x04, 0x0A, 0x04];
    let groups = |columns: [&[u64]; 3]| Asked {
        input: three.clone(),
        flag: 0,
        fill: -7,
        columns: columns.map(<[u64]>::to_vec),
        places: [20, 9],
    };
    let right = [
        groups([&[0, 3, 7], &[0, 0, 0], &[5, 3, 5]]),
        groups([&[0, 0, 3], &[0, 3, 2], &[3, 4, 6]]),
        groups([&[0, 0, 3], &[0, 5, 3], &[5, 3, 5]]),
        groups([&[0, 0, 0, 7, 11], &[0, 5, 5, 0, 0], &[5, 0, 3, 5, 0]]),
    ];
    for asked in &right {
        for at in 0..three.len() {
            for by in [0x01, 0x02, 0x08, 0x40, 0x80, 0xFF] {
                let mut damaged = asked.clone();
                damaged.input[at] ^= by;
                requests.said(damaged.line());
            }
            let cut = Asked { input: three[..at].to_vec(), ..asked.clone() };
            requests.said(cut.line());
        }
        for which in 0..3 {
            for place in 0..asked.columns[0].len() {
                for by in [0, 1, u64::MAX, 1 << 63] {
                    let mut other = asked.clone();
                    other.columns[which][place] = other.columns[which][place].wrapping_add(by);
                    requests.said(Asked { flag: 1, ..other }.line());
                }
            }
            let mut shorter = asked.clone();
            shorter.columns[which].pop();
            requests.said(shorter.line());
        }
        for places in
            [[12, 9], [13, 9], [20, asked.columns[0].len()], [20, asked.columns[0].len() - 1], [0, 0]]
        {
            requests.said(Asked { places, ..asked.clone() }.line());
        }
    }
    for (columns, input) in
        [([&[][..]; 3], &three[..]), ([&[]; 3], &[]), ([&[0], &[0], &[0]], &[]), ([&[0], &[0], &[2]], &[])]
    {
        requests.said(Asked { input: input.to_vec(), ..groups(columns) }.line());
    }
    requests.said(groups([&[0, 0], &[0, 0], &[u64::MAX, 1]]).line());
    let head = "1900000000000000000700090009";
    for line in [
        "19",
        &head[..26],
        &format!("{head}0001"),
        &format!("{head}000100000000"),
        "1902000000000000000700090009000000000000",
    ] {
        requests.bad(line);
    }
}
