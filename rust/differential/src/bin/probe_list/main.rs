//! `probe_list FOLDER`: writes the fixed list of the probe program, FOLDER/list.in and FOLDER/list.out.
//!
//! The answers are the model's, which is an independent reading of the rules: nothing of ours is
//! asked. FORMAT.md's sample runs have their answers written out here by hand, and the model
//! must agree; and a run that the Rust decoders read must have their rows too.
//!
//! ```text
//! cargo run --offline -p differential --no-default-features --bin probe_list -- probe/tests
//! ```
mod by_hand;

use std::path::Path;
use std::process::ExitCode;
use std::{env, fs};

use differential::frames;
use differential::listed::{self, Call, LIST};
use differential::probe::Requests;
use differential::stages::{
    batches, column_lines, columns, convert, count, index, labels, lined_up, parts, patched_runs, probe_line,
    rescue, salvage,
};
use model::random::Random;
use model::Form;

use by_hand::{DOCUMENT, FRAMES, SPECIFICATION};

fn bytes(hex: &str) -> Vec<u8> {
    let digits: Vec<u32> = hex.chars().filter_map(|digit| digit.to_digit(16)).collect();
    digits.chunks(2).map(|two| (two[0] * 16 + two[1]) as u8).collect()
}

/// What FORMAT.md says of the last line that was added is what the model says.
fn document_says(requests: &Requests, answer: &str) {
    let (line, said) = requests.lines().last().expect("a line was added");
    assert_eq!(said, answer, "FORMAT.md and the model: {line}");
}

/// A run under both flags. The Rust decoders must read it as the model does, or differ as docs/DIFFERENCES.md says.
fn run(requests: &mut Requests, frame: &[u8]) {
    for signed in [false, true] {
        let paper = model::read_run(frame, 0, signed, 512);
        let rust = oracle::read_run(frame, signed);
        assert!(listed::of_run(frame, &paper, &rust).is_some(), "{frame:02x?}: {paper:?}, {rust:?}");
        requests.run(frame, 0, signed, 512);
    }
}

/// Every place of the input, and every number of places about the rows that a run has.
fn limits_of_runs(requests: &mut Requests) {
    for hex in ["0A012C", "46021230", "C0040A04", "C603640514", "8603032164123494", "C200", "0A01", ""] {
        let frame = bytes(hex);
        for places in [0, 2, 3, 4, 5, 6, 8192] {
            requests.run(&frame, 0, false, places);
            requests.stream(&frame, 0, true, places);
        }
        for at in [1, frame.len() as u64, frame.len() as u64 + 1, u64::MAX] {
            requests.run(&frame, at, true, 512);
            requests.stream(&frame, at, false, 512);
        }
    }
    let most = frames::direct(31, 512, &mut Random::new(2));
    for places in [511, 512, 513] {
        requests.run(&most, 0, false, places);
    }
}

/// Runs, booleans and a byte value cut at every byte, from the first byte on and after others: the cut
/// field's byte counts from the input's first.
fn cuts(requests: &mut Requests) {
    let behind = |before: usize, bytes: &[u8]| [vec![0xC2; before], bytes.to_vec()].concat();
    for hex in [
        "0A012C",
        "46021230",
        "C004E4000A",
        "C603E400E50014",
        "86032322C0016412349498",
        "C004FFFFFFFFFFFFFFFFFFFF",
    ] {
        let frame = bytes(hex);
        for kept in 1..frame.len() {
            for before in [0, 3] {
                let input = behind(before, &frame[..kept]);
                requests.run(&input, before as u64, kept % 2 == 1, 512);
                requests.stream(&input, before as u64, kept % 2 == 0, 512);
            }
        }
    }
    let runs = bytes("00FFFE4445FF80");
    for kept in 0..=runs.len() {
        for before in [0, 3] {
            requests.booleans(&behind(before, &runs[..kept]), before as u64, 48, 64);
        }
    }
}

/// FORMAT.md, "Varints": those of ten bytes, as the first row and as the base delta, with nothing after
/// the tenth, with the base delta or another run's byte, and with a varint that is cut.
fn tenth_bytes(requests: &mut Requests) {
    for nine in [[0x80; 9], [0xFF; 9]] {
        for tenth in [0x00, 0x01, 0x02, 0x7F, 0x80, 0x81, 0xFF] {
            for before in [&[0xC0, 0x00][..], &[0xC0, 0x01, 0x07]] {
                for behind in [&[][..], &[0x00], &[0x80]] {
                    let frame = [before, &nine, &[tenth], behind].concat();
                    run(requests, &frame);
                    let stream = [&bytes("46021230"), &frame[..]].concat();
                    requests.stream(&stream, 0, false, 512);
                }
            }
        }
    }
}

fn streams(requests: &mut Requests) {
    let two = bytes("0A012C46021230");
    for places in [0, 5, 7, 8, 9, 512] {
        requests.stream(&two, 0, false, places);
        requests.stream(&two, 3, true, places);
    }
    for end in 0..two.len() {
        requests.stream(&two[..end], 0, false, 512);
    }
    // After a run that is refused nothing more is read.
    requests.stream(&bytes("0A012CC200460212300A012C"), 0, false, 512);
    requests.stream(&bytes("0A012C").repeat(100), 0, false, 512);
    requests.stream(&bytes("0A012C").repeat(103), 0, false, 512);
}

fn booleans(requests: &mut Requests) {
    // "32 booleans: 24 true, 8 false. With 33: refusal 6."
    let line = bytes("00FFFF00");
    requests.booleans(&line, 0, 32, 512);
    document_says(requests, "booleans 1 32 4 11111111111111111111111100000000");
    requests.booleans(&line, 0, 33, 512);
    document_says(requests, "refused 6 0 cut 4");
    for n in [0, 1, 8, 24, 31, 64, u64::MAX] {
        requests.booleans(&line, 0, n, 512);
    }
    for (hex, n) in [
        ("6100", 800),
        ("FE4445", 16),
        ("FE4445", 1),
        ("FE44", 1),
        ("FF80", 8),
        ("8000", 1),
        ("", 0),
        ("", 1),
    ] {
        requests.booleans(&bytes(hex), 0, n, 8192);
    }
    for (at, n, places) in [
        (0, 8, 7),
        (0, 8, 8),
        (0, 0, 0),
        (2, 24, 512),
        (3, 1, 512),
        (4, 0, 0),
        (4, 1, 0),
        (u64::MAX, 0, 0),
        (u64::MAX, 1, 512),
        (u64::MAX, u64::MAX, 0),
    ] {
        requests.booleans(&line, at, n, places);
    }
}

fn values(requests: &mut Requests) {
    let input = [1, 2, 0xAB, 0xFF, 0];
    for at in [0, 1, 5, 6, u64::MAX] {
        for n in [0, 1, 4, 5, 6, u64::MAX] {
            requests.value(&input, at, n);
        }
    }
    requests.value(&[], 0, 0);
    requests.value(&[], 0, 1);
}

fn written(requests: &mut Requests) {
    use Form::*;
    let ends = [i64::MAX, i64::MIN];
    let rows: [(&[i64], bool, Form, u8); 29] = [
        (&[300; 5], false, ShortRepeat, 2),
        (&[-1; 3], true, ShortRepeat, 1),
        (&[7; 10], false, ShortRepeat, 8),
        (&[7; 2], false, ShortRepeat, 9),
        (&[7; 11], false, ShortRepeat, 1),
        (&[300, 300, 301], false, ShortRepeat, 1),
        (&[300; 3], false, ShortRepeat, 0),
        (&[300; 3], false, ShortRepeat, 9),
        (&[256; 3], false, ShortRepeat, 1),
        (&[1, 2, 3], false, Direct, 3),
        (&[-1, 1, -2], true, Direct, 3),
        (&[1], false, Direct, 24),
        (&[], false, Direct, 1),
        (&[7; 512], false, Direct, 31),
        (&[7; 513], false, Direct, 7),
        (&[1, 2, 3], false, Direct, 32),
        (&[-1], false, Direct, 30),
        (&[i64::MIN], true, Direct, 31),
        (&[10, 12, 14, 16, 18], false, FixedDelta, 0),
        (&ends, true, FixedDelta, 0),
        (&[7], false, FixedDelta, 0),
        (&[1, 2, 4], false, FixedDelta, 0),
        (&[1, 2, 3], false, FixedDelta, 1),
        (&[100, 97, 96, 92], false, PackedDelta, 3),
        (&[1, 2, 3], false, PackedDelta, 0),
        (&[7], false, PackedDelta, 1),
        (&[1, 2, 1], false, PackedDelta, 30),
        (&[1, 2, 1], false, PackedDelta, 31),
        (&[5, 5, 5], true, PackedDelta, 1),
    ];
    for (rows, signed, form, width) in rows {
        requests.write(rows, signed, form, width, 8192);
    }
    for places in [0, 2, 3, 4] {
        requests.write(&[300; 5], false, ShortRepeat, 2, places);
        requests.write(&[1, 2, 3], false, Direct, 3, places);
        requests.write(&[10, 12, 14, 16, 18], false, FixedDelta, 0, places);
    }
}

fn bad_lines(requests: &mut Requests) {
    for line in [
        "",
        "0",
        "zz",
        "00",
        "07",
        "ff",
        "01",
        "0100",
        "0 ",
        "06000000000000000",
        "0G0000000000000000",
        // Too short by one byte for its fields.
        "01000000000000000000 02",
        "0100000000000000000000",
        "0200000000000000000000",
        "030000000000000000000000000000000000",
        "04000000000000000000000000000000",
        "0500000000",
        "0600000000000000",
        "060000000000000000 ",
        "06000000000000000000",
        // Another flag, another form, 8,193 places, a row of seven bytes.
        "010200000000000000000200",
        "02ff00000000000000000200",
        "0502000002000000000000000001",
        "0500050002000000000000000001",
        // A patched run without all of its base, and one with a row of seven bytes.
        "050004010200000000000000",
        "0500040102000000000000000001000000000000 02",
        "010000000000000000002001",
        "020000000000000000002001",
        "03000000000000000000000000000000002001",
        "050001012001",
        "05000101020000000000000001",
    ] {
        requests.bad(line);
    }
    requests.bad(&"06".repeat(32_769));
}

/// The whole list.
fn list() -> Requests {
    let mut requests = Requests::default();
    for (flags, hex, answer) in DOCUMENT {
        for flag in flags {
            requests.run(&bytes(hex), 0, *flag == 1, 512);
            document_says(&requests, answer);
        }
    }
    for hex in SPECIFICATION.into_iter().chain(FRAMES) {
        run(&mut requests, &bytes(hex));
    }
    for entry in &LIST {
        let input = entry.bytes();
        match entry.call {
            Call::Run { signed } | Call::ReadBack { signed } => requests.run(&input, 0, signed, 512),
            Call::Stream { signed } => requests.stream(&input, 0, signed, 512),
            Call::Booleans { n } => requests.booleans(&input, 0, n as u64, 512),
            Call::Value { n } => requests.value(&input, 0, n as u64),
        }
    }
    limits_of_runs(&mut requests);
    cuts(&mut requests);
    tenth_bytes(&mut requests);
    streams(&mut requests);
    booleans(&mut requests);
    values(&mut requests);
    written(&mut requests);
    for bit in 0..64 {
        requests.narrowest(1 << bit);
        requests.narrowest((1 << bit) - 1);
    }
    requests.narrowest(u64::MAX);
    bad_lines(&mut requests);
    // The longest line that is none too long: 32,751 bytes of input.
    requests.value(&vec![0x5A; 32_751], 32_749, 2);
    // Frames of every kind that the Rust decoders read, and any requests.
    let mut random = Random::new(1);
    for frame in frames::samples(&mut random) {
        run(&mut requests, &frame);
    }
    for _ in 0..300 {
        probe_line(&mut requests, &mut random);
    }
    patched_runs::fixed_lines(&mut requests);
    for _ in 0..150 {
        patched_runs::probe_line(&mut requests, &mut random);
    }
    labels::fixed_lines(&mut requests);
    for _ in 0..100 {
        labels::probe_line(&mut requests, &mut random);
    }
    parts::fixed_lines(&mut requests);
    for _ in 0..100 {
        parts::probe_line(&mut requests, &mut random);
    }
    count::fixed_lines(&mut requests);
    for _ in 0..100 {
        count::probe_line(&mut requests, &mut random);
    }
    index::fixed_lines(&mut requests);
    for _ in 0..100 {
        index::probe_line(&mut requests, &mut random);
    }
    salvage::fixed_lines(&mut requests);
    salvage::damaged_tables(&mut requests, 1, 85, &mut random);
    for _ in 0..100 {
        salvage::probe_line(&mut requests, &mut random);
    }
    convert::fixed_lines(&mut requests, &mut random);
    for _ in 0..100 {
        convert::probe_line(&mut requests, &mut random);
    }
    column_lines::fixed_lines(&mut requests);
    for _ in 0..200 {
        columns::listed_line(&mut requests, &mut random);
    }
    batches::fixed_lines(&mut requests);
    lined_up::fixed_lines(&mut requests);
    for _ in 0..150 {
        batches::probe_line(&mut requests, &mut random);
        lined_up::probe_line(&mut requests, &mut random);
    }
    lined_up::fixed_written(&mut requests);
    for _ in 0..150 {
        lined_up::written_line(&mut requests, &mut random);
    }
    rescue::fixed_lines(&mut requests);
    for _ in 0..150 {
        rescue::probe_line(&mut requests, &mut random);
    }
    requests
}

fn main() -> ExitCode {
    let Some(folder) = env::args().nth(1) else {
        eprintln!("usage: probe_list FOLDER");
        return ExitCode::from(2);
    };
    let requests = list();
    let (mut asked, mut answered) = (String::new(), String::new());
    for (line, answer) in requests.lines() {
        asked.extend([line, "\n"]);
        answered.extend([&answer, "\n"]);
    }
    for (name, text) in [("list.in", asked), ("list.out", answered)] {
        if let Err(error) = fs::write(Path::new(&folder).join(name), text) {
            eprintln!("{folder}/{name}: {error}");
            return ExitCode::from(2);
        }
    }
    ExitCode::SUCCESS
}
