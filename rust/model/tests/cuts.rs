//! FORMAT.md, "Places and cut bytes": a line for every field of every layout, cut at every byte.
//!
//! A line is a run field by field, written out from the layouts, each field with the number that is
//! given where the input ends inside it (or before its first byte): `12:64` is a varint of
//! the one byte 64. The byte that goes with 6, 12, 13 and 14 is the field's first; 1 has none.
use model::*;

/// The numbers, the fields, and all their bytes.
struct Line {
    fields: Vec<(u8, usize)>,
    bytes: Vec<u8>,
}

fn line(text: &str) -> Line {
    let mut line = Line { fields: Vec::new(), bytes: Vec::new() };
    for word in text.split_whitespace() {
        let (number, hex) = word.split_once(':').expect("NUMBER:BYTES");
        line.fields.push((number.parse().expect("a number"), line.bytes.len()));
        line.bytes.extend(bytes(hex));
    }
    line
}

/// `00*38` is 38 bytes of 00.
fn bytes(hex: &str) -> Vec<u8> {
    let (hex, times) = hex.split_once('*').unwrap_or((hex, "1"));
    let digits: Vec<u32> = hex.chars().map(|c| c.to_digit(16).expect("a digit")).collect();
    let once: Vec<u8> = digits.chunks(2).map(|two| (two[0] * 16 + two[1]) as u8).collect();
    once.repeat(times.parse().expect("how many times"))
}

impl Line {
    /// What is to be answered where the input ends after that many of the bytes that begin at `place`.
    fn refusal(&self, kept: usize, place: usize) -> Refusal {
        let (number, begins) = *self.fields.iter().rfind(|(_, begins)| *begins <= kept).expect("a field");
        let cut = (number != 1).then_some(place + begins);
        Refusal { number, place, cut }
    }
}

const RUNS: [&str; 23] = [
    // Short repeat: a header of one byte, then the value.
    "1:00 6:01",
    "1:0A 6:012C",
    "1:17 6:098D7C",
    "1:38 6:0102030405060708",
    // Direct: a header of two bytes, then the packed rows.
    "1:4000 13:80",
    "1:4009 13:FFC0",
    "1:4602 13:1230",
    "1:5E03 13:5CA1AB1EDEADBEEF",
    "1:7000 13:00000040",
    "1:7E01 13:FF*16",
    // Delta: a header of two bytes, two varints, then the packed magnitudes, if there are any.
    "1:C004 12:0A 12:04",
    "1:C000 12:8001 12:808001",
    "1:C001 12:FEFFFFFFFFFFFFFFFF01 12:02",
    "1:C001 12:07 12:FEFFFFFFFFFFFFFFFF01",
    "1:C601 12:0A 12:05",
    "1:C603 12:64 12:05 13:14",
    "1:C609 12:02 12:02 13:22424246",
    "1:F002 12:0A 12:8200 13:00000040",
    // Patched base: a header of four bytes, the base, the packed values, the list.
    "1:86030320 6:E4 13:1234",
    "1:86030321 6:64 13:1234 14:94",
    "1:8603E322 6:0102030405060708 13:1234 14:5660",
    "1:8E132B21 6:07D0 13:1E00147028323C46505A646E78828C96A0AAB4BE 14:FCE8",
    "1:812B01E2 6:05 13:00*38 14:FF02B0",
];

#[test]
fn runs() {
    for text in RUNS {
        let line = line(text);
        for (before, signed) in [(0, false), (0, true), (1, true), (5, false)] {
            let input = [vec![0xC2; before], line.bytes.clone()].concat();
            assert_eq!(read_run(&input[..before], before, signed, 512), Answer::End);
            for kept in 1..line.bytes.len() {
                let refused = Answer::Refused(line.refusal(kept, before));
                let cut = &input[..before + kept];
                // A cut comes before the want of places.
                for places in [512, 0] {
                    assert_eq!(read_run(cut, before, signed, places), refused, "{text}, {kept} bytes");
                }
            }
            let whole = read_run(&input, before, signed, 512);
            assert!(matches!(whole, Answer::Run(run) if run.consumed == line.bytes.len()), "{text}");
        }
    }
}

#[test]
fn streams() {
    // Five rows 300 in three bytes, and then the cut run: place and byte count from the slice's start.
    for text in RUNS {
        let line = line(text);
        for before in [0, 2] {
            let input = [vec![0xC2; before], bytes("0A012C"), line.bytes.clone()].concat();
            for kept in 1..line.bytes.len() {
                let refusal = line.refusal(kept, before + 3);
                let last = Some(Info { kind: Kind::ShortRepeat, width: 16, rows: 5, bytes: 3 });
                let refused = Stream::Refused { refusal, rows: vec![300; 5], consumed: 3, last };
                let cut = &input[..before + 3 + kept];
                assert_eq!(read_stream(cut, before, false, 600), refused, "{text}, {kept} bytes");
            }
        }
    }
}

#[test]
fn five_and_the_cuts_come_in_byte_order() {
    let number = |hex: &str| match read_run(&bytes(hex), 0, false, 512) {
        Answer::Refused(refusal) => (refusal.number, refusal.cut),
        other => panic!("{hex}: {other:?}"),
    };
    // Ten bytes with the top bit set are 5 before the base delta is missed; nine are a cut varint.
    assert_eq!(number("C00280808080808080808080"), (5, None));
    assert_eq!(number("C002808080808080808080"), (12, Some(2)));
    assert_eq!(number("C00201808080808080808080"), (12, Some(3)));
    assert_eq!(number("C0020180808080808080808080"), (5, None));
    // A header's own refusals come before every cut, and have no byte.
    assert_eq!(number("C200"), (4, None));
    assert_eq!(number("86031F21"), (2, None));
    assert_eq!(number("860303"), (1, None));
    assert_eq!(number("860303416412348A"), (7, None));
}

/// Boolean runs, with a number of booleans that needs them all. The control byte is a field, and what
/// follows it is another.
const BOOLEANS: [(&str, usize); 7] = [
    ("6:00 13:FF", 24),
    ("6:00 13:FF", 1),
    ("6:FE 13:4445", 16),
    ("6:FE 13:4445", 1),
    ("6:00 13:FF 6:FF 13:00", 32),
    ("6:7F 13:FF 6:FD 13:010203 6:00 13:00", 1065),
    ("6:80 13:FF*128", 1),
];

#[test]
fn booleans() {
    for (text, n) in BOOLEANS {
        let line = line(text);
        for before in [0, 1, 5] {
            let input = [vec![0xC2; before], line.bytes.clone()].concat();
            for kept in 0..line.bytes.len() {
                let refused = Booleans::Refused(line.refusal(kept, before));
                for places in [2000, 0] {
                    let cut = &input[..before + kept];
                    assert_eq!(read_booleans(cut, before, n, places), refused, "{text}, {kept} bytes");
                }
            }
            let whole = read_booleans(&input, before, n, n);
            assert!(
                matches!(whole, Booleans::Given { consumed, .. } if consumed == line.bytes.len()),
                "{text}"
            );
            // More than all runs hold: the control byte of the run after them is missing.
            let refused = Booleans::Refused(Refusal::cut(6, before, input.len()));
            assert_eq!(read_booleans(&input, before, 9000, 0), refused, "{text}");
        }
    }
    // A position past the end is where the control byte would stand.
    for at in [2, 9, usize::MAX] {
        let refused = Booleans::Refused(Refusal::cut(6, at, at));
        assert_eq!(read_booleans(&[0, 1], at, 1, 0), refused);
        assert_eq!(read_booleans(&[0, 1], at, usize::MAX, 0), refused);
    }
    // 8 has no byte.
    let eight = Booleans::Refused(Refusal::whole(8, 1));
    assert_eq!(read_booleans(&bytes("0000FF"), 1, 24, 23), eight);
}

#[test]
fn byte_values() {
    for (at, n) in [(0, 4), (1, 3), (3, 1), (9, 1), (usize::MAX, usize::MAX)] {
        assert_eq!(read_value(&[1, 2, 3], at, n), Value::Refused(Refusal::cut(6, at, at)));
    }
}

#[test]
fn no_other_number_has_a_byte() {
    let none = |refusal: Refusal, number| assert_eq!(refusal, Refusal { number, place: 0, cut: None });
    for (hex, number) in [("40", 1), ("86031F21", 2), ("C200", 4), ("860303416412348A", 7), ("0A012C", 8)] {
        let Answer::Refused(refusal) = read_run(&bytes(hex), 0, false, 4) else { panic!("{hex}") };
        none(refusal, number);
    }
    let rows = [300; 5];
    for (form, width, places, number) in [
        (Form::PackedDelta, 0, 9, 10),
        (Form::ShortRepeat, 1, 9, 11),
        (Form::ShortRepeat, 2, 2, 8),
        (Form::Direct, 99, 0, 10),
    ] {
        let Written::Refused(refusal) = write_run(&rows, false, form, width, places) else { panic!() };
        none(refusal, number);
    }
    let Written::Refused(refusal) = write_run(&[], false, Form::Direct, 0, 0) else { panic!() };
    none(refusal, 9);
}
