//! FORMAT.md, "Reader in parts": streams that arrive in parts, in lines for the probe.
use crate::frames;
use crate::probe::Requests;
use model::random::Random;

/// A stream in parts.
#[derive(Debug, Clone, PartialEq, Eq)]
pub struct Cut {
    pub parts: Vec<Vec<u8>>,
}

impl Cut {
    /// Bytes cut into parts of any length up to a most, empty ones among them.
    fn any(bytes: &[u8], random: &mut Random) -> Self {
        let most = random.pick(&[1, 2, 3, 5, 20, 100, 5000]);
        let mut parts = Vec::new();
        let mut rest = bytes;
        while !rest.is_empty() {
            let (part, behind) = rest.split_at(random.below(most + 1).min(rest.len()));
            parts.push(part.to_vec());
            rest = behind;
        }
        if random.once_in(4) {
            parts.push(Vec::new());
        }
        Cut { parts }
    }

    /// Each part as a slice.
    pub fn slices(&self) -> Vec<&[u8]> {
        self.parts.iter().map(Vec::as_slice).collect()
    }
}

/// Any stream, valid, damaged or cut, in any parts.
pub fn any(random: &mut Random) -> Cut {
    let mut stream = frames::any_stream(random);
    match random.below(8) {
        0 => stream.truncate(random.below(stream.len() + 1)),
        1 if !stream.is_empty() => {
            let at = random.below(stream.len());
            stream[at] ^= 1 << random.below(8);
        }
        // A run of more bytes than most parts have.
        2 => {
            stream.extend(frames::of_kind(random.from(1, 3), random.below(32), random.from(100, 512), random))
        }
        _ => {}
    }
    Cut::any(&stream, random)
}

/// Any stream in any parts, as a line for the probe.
pub fn probe_line(requests: &mut Requests, random: &mut Random) {
    let cut = any(random);
    let signed = random.once_in(2);
    let places = random.pick(&[512, 512, 512, 600, 512, 511, 0]);
    // The line holds at most 65,536 digits, and two numbers of four digits a part.
    if cut.parts.len() < 4000 {
        requests.parts(&cut.slices(), signed, places);
    }
}

fn bytes(hex: &str) -> Vec<u8> {
    let digits: Vec<u32> = hex.chars().filter_map(|digit| digit.to_digit(16)).collect();
    digits.chunks(2).map(|two| (two[0] * 16 + two[1]) as u8).collect()
}

/// One byte at a time, all at once, and at every cut of a stream: whole, unfinished and refused.
fn every_cut(requests: &mut Requests, stream: &[u8]) {
    let one_by_one: Vec<&[u8]> = stream.chunks(1).collect();
    requests.parts(&one_by_one, false, 512);
    requests.parts(&[stream], true, 512);
    for at in 0..=stream.len() {
        requests.parts(&[&stream[..at], &stream[at..]], false, 512);
        requests.parts(&[&stream[..at], &[], &stream[at..], &[]], true, 600);
    }
}

/// Every kind of run cut everywhere, each refusal with the part that shows it, too few places, and parts of
/// more bytes than a run has.
pub fn fixed_lines(requests: &mut Requests) {
    let whole = bytes("0A012C 46021230 C603640514 8603032164123494 C0040A04");
    every_cut(requests, &whole);
    for end in 0..whole.len() {
        requests.parts(&[&whole[..end]], false, 512);
    }
    // 4, 2, 5, 7 and 3 behind a run, and a run behind them.
    for refused in [
        "C200",
        "86031F21",
        "C00080808080808080808002",
        "C00080808080808080808181",
        "860303416412348A",
        "BE0000010000000000000000 0740",
    ] {
        every_cut(requests, &[&bytes("0A012C"), &bytes(refused)[..], &bytes("46021230")].concat());
    }
    for places in [0, 1, 511, 512, 513, 8192] {
        requests.parts(&[&whole, &[]], false, places);
    }
    for none in [&[][..], &[&[][..]], &[&[][..], &[]]] {
        requests.parts(none, false, 512);
        requests.parts(none, false, 511);
    }
    // The longest run: alone, after and before others, and in parts that it crosses.
    let mut random = Random::new(4);
    let fields = frames::Patched { code: 31, rows: 512, base: 8, patch_code: 23, gap_width: 8 };
    let long = frames::patched(fields, &[(16, 0); 31], &mut random);
    let stream = [&bytes("46021230"), &long[..], &whole].concat();
    for length in [1, 100, 4355, 4356, 4357, 9000] {
        requests.parts(&stream.chunks(length).collect::<Vec<_>>(), false, 512);
    }
    requests.parts(&[&stream[..5], &stream[5..]], true, 512);
    // Lines that are too short or too long, by a byte, for what they count.
    let line = "07000200000200010002aabbcc";
    for bad in ["07", "070002", "0700020000", "07000200000200010002", &line[..24], &format!("{line}00")] {
        requests.bad(bad);
    }
    requests.bad("07020200000100010a");
    requests.bad("07002001000100010a");
}
