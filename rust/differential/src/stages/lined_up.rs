//! Rows spread over flags, all labels in one pass, flags and bytes written, in lines for the probe: 15 to 18.
use super::labels;
use crate::probe::{with_numbers, Requests};
use crate::tally::Hex;
use model::random::Random;

/// 15: rows spread over flags.
pub fn spread_line(flags: &[u8], rows: &[i64], fill: i64, places: usize) -> String {
    let counts = format!("{:04x}{:04x}", flags.len(), rows.len());
    with_numbers(format!("15{fill:016x}{places:04x}{counts}{}", Hex(flags)), rows)
}

/// 16: all labels, with places lent for offsets, starts and sizes.
pub fn labels_line(flags: &[u8], numbers: &[i64], lengths: &[i64], block: u64, places: [usize; 3]) -> String {
    let counts = [flags.len(), numbers.len(), lengths.len(), places[0], places[1], places[2]];
    let counts: String = counts.iter().map(|count| format!("{count:04x}")).collect();
    with_numbers(with_numbers(format!("16{block:016x}{counts}{}", Hex(flags)), numbers), lengths)
}

/// 17 for flags, 18 for bytes.
pub fn write_line(kind: u8, bytes: &[u8], places: usize) -> String {
    format!("{kind:02x}{places:04x}{}", Hex(bytes))
}

/// Rows to spread over flags.
#[derive(Debug, Clone, PartialEq, Eq)]
pub struct Spread {
    pub flags: Vec<u8>,
    pub rows: Vec<i64>,
    pub fill: i64,
    pub places: usize,
}

/// All labels of a column, with places lent for offsets, starts and sizes.
#[derive(Debug, Clone, PartialEq, Eq)]
pub struct Labels {
    pub flags: Vec<u8>,
    pub numbers: Vec<i64>,
    pub lengths: Vec<i64>,
    pub block_length: u64,
    pub places: [usize; 3],
}

/// Any rows to spread: most of them as many as there are flags.
pub fn any_spread(random: &mut Random) -> Spread {
    let flags: Vec<u8> = (0..random.below(20)).map(|_| random.pick(&[0, 0, 0, 1, 1, 2, 128, 255])).collect();
    let set = flags.iter().filter(|flag| **flag != 0).count();
    let any = random.below(20);
    let count = random.pick(&[set, set, set, set, set, set + 1, set.saturating_sub(1), any]);
    let rows: Vec<i64> = (0..count).map(|_| random.any() as i64 >> random.below(64)).collect();
    let fill = random.any() as i64 >> random.below(64);
    let most = flags.len();
    let places = random.pick(&[most, most, most + 1, most + 9, most.saturating_sub(1)]);
    Spread { flags, rows, fill, places }
}

/// Any labels: half of them of a good dictionary, and most with as many places as they need.
pub fn any_labels(random: &mut Random) -> Labels {
    let labels::Asked { block, lengths, numbers, flags, .. } = labels::any(random);
    let block_length = match random.below(16) {
        0 => random.any(),
        _ => block.len() as u64,
    };
    let mut places = [lengths.len(), flags.len(), flags.len()];
    let which = random.below(3);
    match random.below(4) {
        0 => places[which] = places[which].saturating_sub(1),
        1 => places[which] += 1,
        _ => {}
    }
    Labels { flags, numbers, lengths, block_length, places }
}

/// Bytes in stretches of every length that a run ends at, of few different bytes.
fn stretches(random: &mut Random) -> Vec<u8> {
    let mut bytes = Vec::new();
    for _ in 0..random.below(12) {
        let long = random.from(120, 270);
        let length = random.pick(&[1, 1, 1, 2, 2, 3, 3, 4, 5, 130, 131, 132, long]);
        bytes.extend(vec![random.pick(&[0, 1, 1, 255, 7]); length]);
        if random.once_in(6) {
            bytes.extend((0..random.below(140)).map(|k| k as u8));
        }
    }
    bytes
}

/// Flags or bytes to write as byte runs.
#[derive(Debug, Clone, PartialEq, Eq)]
pub struct ToWrite {
    pub flags: bool,
    pub given: Vec<u8>,
    pub places: usize,
}

/// Any flags or bytes to write: most of them with the places that they need.
pub fn any_to_write(random: &mut Random) -> ToWrite {
    let mut given = stretches(random);
    let flags = random.once_in(2);
    if flags && random.once_in(2) {
        // Eight flags for each byte, so that the bytes have stretches, and now and then some more.
        given.truncate(400);
        given = given.iter().flat_map(|byte| (0..8).map(move |k| byte >> k & 1)).collect();
        given.extend(vec![random.byte(); random.below(9)]);
    }
    let needed =
        model::chosen_byte_runs(&if flags { model::packed_flags(&given) } else { given.clone() }).len();
    let places = random.pick(&[needed, needed, needed + 1, needed + 40, needed.saturating_sub(1), 0]);
    ToWrite { flags, given, places }
}

/// Any line of 15 and 16.
pub fn probe_line(requests: &mut Requests, random: &mut Random) {
    requests.said(if random.once_in(2) {
        let Spread { flags, rows, fill, places } = any_spread(random);
        spread_line(&flags, &rows, fill, places)
    } else {
        let Labels { flags, numbers, lengths, block_length, places } = any_labels(random);
        labels_line(&flags, &numbers, &lengths, block_length, places)
    });
}

/// Any line of 17 and 18.
pub fn written_line(requests: &mut Requests, random: &mut Random) {
    let ToWrite { flags, given, places } = any_to_write(random);
    requests.said(write_line(if flags { 0x17 } else { 0x18 }, &given, places.min(8_192)));
}

/// Of 15 and 16 each answer and each refusal, the refusals' order, and places about those that are needed.
pub fn fixed_lines(requests: &mut Requests) {
    for flags in [&[][..], &[0], &[1], &[255, 0], &[0, 2, 0, 1], &[1, 1, 1, 1], &[0, 0, 0, 128]] {
        for count in 0..6 {
            for places in 0..6 {
                let rows: Vec<i64> = (1..=count).map(|row| -row).collect();
                requests.said(spread_line(flags, &rows, i64::MIN, places));
            }
        }
    }
    let flags = [0, 1, 255, 0, 2, 1, 0];
    let (numbers, lengths) = ([2, 0, 1, 3], [5, 0, 4, 3]);
    for places in [[4, 7, 7], [5, 8, 9], [3, 7, 7], [4, 6, 7], [4, 7, 6], [0, 0, 0]] {
        for block in [12, 11, 13, 0, u64::MAX] {
            requests.said(labels_line(&flags, &numbers, &lengths, block, places));
            requests.said(labels_line(&[], &numbers, &lengths, block, places));
        }
        for place in 0..4 {
            for wrong in [-1, 4, 3, i64::MIN, i64::MAX] {
                let mut other = numbers;
                other[place] = wrong;
                requests.said(labels_line(&flags, &other, &lengths, 12, places));
            }
            requests.said(labels_line(&flags, &numbers[..place], &lengths, 12, places));
            for (from, to) in [(place, 3), (3, place)] {
                let mut other = lengths;
                (other[from], other[to]) = (other[from] - 6, other[to] + 6);
                requests.said(labels_line(&flags, &[], &other, 12, places));
            }
        }
        requests.said(labels_line(&flags, &[0; 4], &[i64::MAX, i64::MAX, 2], 0, places));
        requests.said(labels_line(&[0, 0, 0], &[], &[], 0, places));
        requests.said(labels_line(&[0, 1, 0], &[0], &[], 0, places));
    }
    let zero = "0000000000000000";
    for line in [
        format!("15{zero}200100000000"),
        format!("15{zero}00090001000101"),
        format!("15{zero}000900010000"),
        format!("15{zero}00090000000000"),
        format!("16{zero}000100000000000900090009"),
        format!("16{zero}00000000000000090009000900"),
        format!("16{zero}000000000000200100090009"),
    ] {
        requests.bad(&line);
    }
}

/// Of 17 and 18: stretches and literals of every length about the ends of a run.
pub fn fixed_written(requests: &mut Requests) {
    for line in ["17", "1700", "172001", "18", "18200105"] {
        requests.bad(line);
    }
    for length in (0..6).chain(126..135).chain(256..265).chain([390, 393]) {
        let different: Vec<u8> = (0..length).map(|k| (k % 251) as u8).collect();
        for bytes in [&vec![5; length], &different, &[&different[..], &[9; 3], &different].concat()] {
            let least = model::least_size(bytes);
            for places in [least.saturating_sub(1), least, least + 1, 8_192] {
                requests.said(write_line(0x18, bytes, places));
            }
            let least = model::least_size(&model::packed_flags(bytes));
            for places in [least.saturating_sub(1), least, 8_192] {
                requests.said(write_line(0x17, bytes, places));
            }
        }
    }
    // Flags whose bytes are stretches about the ends of a run, and the last of them not whole.
    for count in [7, 8, 9, 16, 17, 23, 24, 25, 1032, 1033, 1040, 1041, 1048, 1049, 1056, 1057, 1064] {
        let last: Vec<u8> = (0..count).map(|k| u8::from(k + 1 == count)).collect();
        let alternating: Vec<u8> = (0..count).map(|k| 2 * (k % 2) as u8).collect();
        for flags in [vec![1; count], vec![0; count], last, alternating] {
            let least = model::least_size(&model::packed_flags(&flags));
            for places in [least - 1, least] {
                requests.said(write_line(0x17, &flags, places));
            }
        }
    }
}
