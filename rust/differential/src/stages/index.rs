//! FORMAT.md, "Index": the index beside a stream, in lines for the probe.
use std::fmt::Write as _;

use model::{Answer, Entry, Index, Lookup, Rows};

use crate::frames;
use crate::probe::{refused, with_rows, Requests};
use crate::tally::Hex;
use model::random::Random;

/// What is asked of an index.
#[derive(Debug, Clone, Copy, PartialEq, Eq)]
pub enum What {
    /// To build it, with that many places lent in each column.
    Build([usize; 3]),
    LookUp {
        row: u64,
    },
    ReadFrom {
        row: u64,
        flag: u64,
        places: usize,
    },
}

/// A stream, and a caller's index, which is empty where one is built.
#[derive(Debug, Clone, PartialEq, Eq)]
pub struct Asked {
    pub what: What,
    pub input: Vec<u8>,
    pub columns: [Vec<u64>; 3],
}

impl Asked {
    /// The columns, lent.
    pub fn lent(&self) -> [&[u64]; 3] {
        self.columns.each_ref().map(Vec::as_slice)
    }
}

/// The entries of a stream as far as it is read, and how many rows they have.
fn entries(input: &[u8]) -> (Vec<Entry>, u64) {
    let (mut entries, mut at, mut first) = (Vec::new(), 0, 0);
    while let Answer::Run(run) = model::read_run(input, at, false, usize::MAX) {
        let rows = run.rows.len() as u64;
        entries.push(Entry { first, at: at as u64, rows });
        at += run.consumed;
        first += rows;
    }
    (entries, first)
}

fn columns(entries: &[Entry]) -> [Vec<u64>; 3] {
    let column = |of: fn(&Entry) -> u64| entries.iter().map(of).collect();
    [column(|entry| entry.first), column(|entry| entry.at), column(|entry| entry.rows)]
}

/// An entry less.
fn without(columns: &mut [Vec<u64>; 3], place: usize) {
    for column in columns {
        column.remove(place);
    }
}

/// One thing of an index changed, of every sort.
fn damage(columns: &mut [Vec<u64>; 3], random: &mut Random) {
    let len = columns[0].len();
    let (which, place) = (random.below(3), random.below(len.max(1)));
    match random.below(12) {
        // A number that is another: by one, by a flipped bit, any.
        0 if len > 0 => columns[which][place] = columns[which][place].wrapping_add(1),
        1 if len > 0 => columns[which][place] = columns[which][place].wrapping_sub(1),
        2 if len > 0 => columns[which][place] ^= 1 << random.below(64),
        3 if len > 0 => columns[which][place] = random.any(),
        // An entry missing, at the end or before it; one twice; one too many.
        4 => columns.iter_mut().for_each(|column| column.truncate(len.saturating_sub(1))),
        5 if len > 0 => without(columns, place),
        6 if len > 0 => columns.iter_mut().for_each(|column| column.insert(place, column[place])),
        7 => columns.iter_mut().for_each(|column| column.push(random.below(20) as u64)),
        // Two runs as one.
        8 if place > 0 => {
            columns[2][place - 1] += columns[2][place];
            without(columns, place);
        }
        // Offsets that count rows, and the other way round; the last entry first.
        9 => columns.swap(which, (which + 1) % 3),
        10 => columns.iter_mut().for_each(|column| column.reverse()),
        // Columns of unequal length.
        11 if len > 0 && random.once_in(2) => columns[which].truncate(len - 1),
        _ => columns[which].push(random.below(20) as u64),
    }
}

/// Any question: of streams that are whole, damaged and cut, half of the indexes right ones.
pub fn any(random: &mut Random) -> Asked {
    let input = frames::any_stream(random);
    let (right, rows) = entries(&input);
    if random.once_in(3) {
        let most = right.len();
        let lent = random.pick(&[most, most, most + 1, most + 9, most.saturating_sub(1), 0]);
        let mut lent = [lent; 3];
        if random.once_in(8) {
            lent[random.below(3)] += 1;
        }
        return Asked { what: What::Build(lent), input, columns: Default::default() };
    }
    let mut columns = columns(&right);
    match random.below(8) {
        0..=2 => damage(&mut columns, random),
        // Another stream's.
        3 if random.once_in(4) => columns = self::columns(&entries(&frames::any_stream(random)).0),
        _ => {}
    }
    let row = match random.below(16) {
        0 => random.any(),
        1 => rows,
        2 => rows.wrapping_sub(1),
        3 => rows + 1,
        _ => random.below(rows.max(1) as usize) as u64,
    };
    let left = rows.saturating_sub(row) as usize;
    let places = random.pick(&[left, left, left + 1, left.saturating_sub(1), 0, 600]);
    let flag = random.below(2) as u64;
    let what = match random.once_in(2) {
        true => What::LookUp { row },
        false => What::ReadFrom { row, flag, places },
    };
    Asked { what, input, columns }
}

impl Requests {
    pub fn index(&mut self, asked: &Asked) {
        let Asked { what, input, .. } = asked;
        let (line, expected) = match *what {
            What::Build(lent) => {
                let [first, at, counts] = lent;
                (format!("08{first:04x}{at:04x}{counts:04x}"), built(input, lent))
            }
            What::LookUp { row } => {
                let answer = match model::look_up(row, asked.lent(), input) {
                    Lookup::Entry(Entry { first, at, rows }) => format!("entry {first}/{at}/{rows}"),
                    Lookup::Refused(refusal) => refused(refusal),
                };
                (format!("09{row:016x}{}", index_fields(asked.lent())), answer)
            }
            What::ReadFrom { row, flag, places } => {
                let answer = match model::read_from(row, asked.lent(), input, flag != 0, places) {
                    Rows::Given(rows) => with_rows(format!("rows {}", rows.len()), &rows),
                    Rows::Refused(refusal) => refused(refusal),
                };
                (format!("0a{flag:02x}{row:016x}{places:04x}{}", index_fields(asked.lent())), answer)
            }
        };
        self.ask(format!("{line}{}", Hex(input)), expected);
    }
}

/// How many there are in each column, and then these.
fn index_fields(columns: [&[u64]; 3]) -> String {
    let mut fields: String = columns.map(|column| format!("{:04x}", column.len())).concat();
    for number in columns.into_iter().flatten() {
        write!(fields, "{number:016x}").expect("a string takes it");
    }
    fields
}

fn built(input: &[u8], lent: [usize; 3]) -> String {
    match model::build_index(input, lent) {
        Index::Refused(refusal) => refused(refusal),
        Index::Built { entries, rows, bytes } => {
            let mut line = format!("index {} {rows} {bytes}", entries.len());
            for Entry { first, at, rows } in entries {
                write!(line, " {first}/{at}/{rows}").expect("a string takes it");
            }
            line
        }
    }
}

/// Any question, as a line for the probe. (A line lends no more places than 8,192.)
pub fn probe_line(requests: &mut Requests, random: &mut Random) {
    requests.index(&any(random));
}

/// Each answer and each refusal, their order, every row, and places about those that are needed.
pub fn fixed_lines(requests: &mut Requests) {
    // Five rows 300; 1, 2, 3; 10, 12, 14, 16, 18.
    let three = [0x0A, 0x01, 0x2C, 0x46, 0x02, 0x12, 0x30, 0xC0, 0x04, 0x0A, 0x04];
    let right = columns(&entries(&three).0);
    let mut ask = |what, input: &[u8], columns: &[Vec<u64>; 3]| {
        requests.index(&Asked { what, input: input.to_vec(), columns: columns.clone() });
    };
    // Building: of a whole stream, of none, and of each cut one; 15 before the stream's own, and this before 8.
    for end in 0..=three.len() {
        for lent in [[4; 3], [3; 3], [2; 3], [0; 3], [3, 3, 2], [3, 4, 3], [0, 3, 3], [0, 1, 2]] {
            ask(What::Build(lent), &three[..end], &Default::default());
        }
    }
    let damaged = [&three[..], &[0xC2, 0x00]].concat();
    for lent in [[4; 3], [3; 3], [0; 3], [4, 4, 3]] {
        ask(What::Build(lent), &damaged, &Default::default());
    }
    // Every row, under both flags, with just enough places, more and too few.
    for row in (0..15).chain([u64::MAX - 1, u64::MAX]) {
        ask(What::LookUp { row }, &three, &right);
        let left = 13u64.saturating_sub(row) as usize;
        for places in [left, left + 1, left.saturating_sub(1), 0, 8192] {
            ask(What::ReadFrom { row, flag: row % 2, places }, &three, &right);
        }
    }
    // The right index of a stream that is cut, damaged or longer, and of another.
    for input in [&three[..10], &three[..7], &damaged, &[&three[..], &[0x0A, 0x01, 0x2C]].concat(), &[]] {
        for row in [0, 12, 13] {
            ask(What::LookUp { row }, input, &right);
            ask(What::ReadFrom { row, flag: 0, places: 0 }, input, &right);
        }
    }
    wrong_indexes(&right, |columns| {
        for row in [0, 12, 13] {
            ask(What::LookUp { row }, &three, columns);
            ask(What::ReadFrom { row, flag: 1, places: 13 }, &three, columns);
        }
    });
    // An empty stream has the empty index, and no row.
    ask(What::LookUp { row: 0 }, &[], &Default::default());
    ask(What::ReadFrom { row: 0, flag: 0, places: 9 }, &[], &Default::default());
    bad_lines(requests);
}

/// Each number of an index changed, each entry missing or twice, each column shorter or longer.
fn wrong_indexes(right: &[Vec<u64>; 3], mut each: impl FnMut(&[Vec<u64>; 3])) {
    for which in 0..3 {
        for place in 0..right[0].len() {
            for by in [1, u64::MAX, 1 << 63, 1 << 32] {
                let mut wrong = right.clone();
                wrong[which][place] = wrong[which][place].wrapping_add(by);
                each(&wrong);
            }
        }
        let mut shorter = right.clone();
        shorter[which].pop();
        each(&shorter);
        let mut longer = right.clone();
        longer[which].push(13);
        each(&longer);
        let mut none = right.clone();
        none[which].clear();
        each(&none);
    }
    for place in 0..right[0].len() {
        let mut missing = right.clone();
        without(&mut missing, place);
        each(&missing);
        let mut twice = right.clone();
        twice.iter_mut().for_each(|column| column.insert(place, column[place]));
        each(&twice);
    }
    each(&Default::default());
    // All rows as one run; an entry of no rows after the last; the last two as one.
    each(&[vec![0], vec![0], vec![13]]);
    each(&[vec![0, 5, 8, 13], vec![0, 3, 7, 11], vec![5, 3, 5, 0]]);
    each(&[vec![0, 5], vec![0, 3], vec![5, 8]]);
}

/// Lines that are too short for what they count, and places that are too many.
fn bad_lines(requests: &mut Requests) {
    let (row, number) = ("0000000000000000", "0000000000000001");
    for bad in ["08", "0800000000", "08000000002001", "09", "0900000000000000", "0a", "0a00"] {
        requests.bad(bad);
    }
    for counts in ["000100010001", "000200000001"] {
        requests.bad(&format!("09{row}{counts}{number}{number}"));
        requests.bad(&format!("0a00{row}0009{counts}{number}{number}"));
    }
    requests.bad(&format!("0a02{row}0009000000000000"));
    requests.bad(&format!("0a00{row}2001000000000000"));
}
