//! FORMAT.md, "Answers": every answer names the run, by its kind, value width, rows and bytes; the
//! stream reader's names the last run read, or none.
use model::*;

fn bytes(hex: &str) -> Vec<u8> {
    let digits: Vec<u32> = hex.chars().filter_map(|c| c.to_digit(16)).collect();
    digits.chunks(2).map(|two| (two[0] * 16 + two[1]) as u8).collect()
}

/// A run, and what is said of it: kind, width, rows, bytes.
const RUNS: [(&str, Kind, usize, usize, usize); 20] = [
    ("0001", Kind::ShortRepeat, 8, 3, 2),
    ("0A012C", Kind::ShortRepeat, 16, 5, 3),
    ("17098D7C", Kind::ShortRepeat, 24, 10, 4),
    ("380102030405060708", Kind::ShortRepeat, 64, 3, 9),
    ("400080", Kind::Direct, 1, 1, 3),
    ("46021230", Kind::Direct, 4, 3, 4),
    ("5E035CA1AB1EDEADBEEF", Kind::Direct, 16, 4, 10),
    ("700000000040", Kind::Direct, 26, 1, 6),
    ("7E000000000000000007", Kind::Direct, 64, 1, 10),
    ("8603032164123494", Kind::PatchedBase, 4, 4, 8),
    ("86030320E41234", Kind::PatchedBase, 4, 4, 7),
    ("B4011C000A0000000400000020", Kind::PatchedBase, 30, 2, 13),
    ("BE00000100000000000000000700", Kind::PatchedBase, 64, 1, 14),
    ("C0000700", Kind::Delta, 0, 1, 4),
    ("C0040A04", Kind::Delta, 0, 5, 4),
    ("C1FF0A04", Kind::Delta, 0, 512, 4),
    // Two rows and a width: no magnitudes, and the width is named all the same.
    ("C2010A04", Kind::Delta, 2, 2, 4),
    ("C603640514", Kind::Delta, 4, 4, 5),
    ("C609020222424246", Kind::Delta, 4, 10, 8),
    ("FE020A040000000000000001", Kind::Delta, 64, 3, 12),
];

fn info((_, kind, width, rows, bytes): (&str, Kind, usize, usize, usize)) -> Info {
    Info { kind, width, rows, bytes }
}

#[test]
fn runs() {
    for line in RUNS {
        // Bytes before and after the run change nothing.
        let run = bytes(line.0);
        let input = [&[0x46][..], &run, &[0xFF, 0xFF]].concat();
        for (input, at, signed) in [(&run, 0, false), (&run, 0, true), (&input, 1, false)] {
            match read_run(input, at, signed, 512) {
                Answer::Run(run) => assert_eq!(run.info(), info(line), "{}", line.0),
                other => panic!("{}: {other:?}", line.0),
            }
        }
    }
}

/// "Codes 0 to 23 mean 1 to 24 bits; 24, 25, 26 mean 26, 28, 30; 27 to 31 mean 32, 40, 48, 56, 64."
#[test]
fn every_width() {
    for code in 0..32usize {
        let width = match code {
            0..=23 => code + 1,
            24..=26 => 2 * code - 22,
            27 => 32,
            _ => 8 * (code - 23),
        };
        let first = |kind: usize| (kind << 6 | code << 1) as u8;
        let value = vec![0; width.div_ceil(8)];
        let direct = [vec![first(1), 0], value.clone()].concat();
        let patched = [vec![first(2), 0, 0, 0, 0], value.clone()].concat();
        let delta = [vec![first(3), 2, 0, 0], value].concat();
        for (run, kind, rows) in
            [(direct, Kind::Direct, 1), (patched, Kind::PatchedBase, 1), (delta, Kind::Delta, 3)]
        {
            // In a delta header code 0 means a fixed delta, and the byte after it is another run's.
            let fixed = kind == Kind::Delta && code == 0;
            let (width, bytes) = if fixed { (0, 4) } else { (width, run.len()) };
            let Answer::Run(read) = read_run(&run, 0, false, 512) else { panic!("{run:02X?}") };
            assert_eq!(read.info(), Info { kind, width, rows, bytes }, "{run:02X?}");
        }
    }
}

fn last(stream: &Stream) -> Option<Info> {
    let (Stream::Whole { last, .. } | Stream::Refused { last, .. }) = stream;
    *last
}

#[test]
fn streams() {
    for one in RUNS {
        for other in RUNS {
            let two = bytes(&format!("{}{}", one.0, other.0));
            let whole = read_stream(&two, 0, true, 2000);
            assert!(matches!(whole, Stream::Whole { .. }), "{whole:?}");
            assert_eq!(last(&whole), Some(info(other)));
            // Cut, or with too few places, the second run is refused, and the last read is the first.
            for (kept, places) in [(two.len() - 1, 2000), (two.len(), one.3), (one.4 + 1, 2000)] {
                let refused = read_stream(&two[..kept], 0, true, places);
                assert!(matches!(refused, Stream::Refused { .. }), "{refused:?}");
                assert_eq!(last(&refused), Some(info(one)));
            }
        }
        // None before the first run, whether the bytes end or it is refused.
        let run = bytes(one.0);
        assert_eq!(last(&read_stream(&run, run.len(), false, 0)), None);
        assert_eq!(last(&read_stream(&run, 0, false, one.3 - 1)), None);
        assert_eq!(last(&read_stream(&run[..run.len() - 1], 0, false, 512)), None);
    }
}

#[test]
fn booleans_and_byte_values() {
    let given = read_booleans(&bytes("00FFFF00"), 0, 32, 32);
    assert_eq!(given.info(), Some(Info { kind: Kind::Booleans, width: 1, rows: 32, bytes: 4 }));
    let none = read_booleans(&[], 3, 0, 0);
    assert_eq!(none.info(), Some(Info { kind: Kind::Booleans, width: 1, rows: 0, bytes: 0 }));
    assert_eq!(read_booleans(&bytes("00FFFF00"), 0, 33, 33).info(), None);
    let value = read_value(&[1, 2, 3], 1, 2);
    assert_eq!(value.info(), Some(Info { kind: Kind::ByteValue, width: 8, rows: 2, bytes: 2 }));
    assert_eq!(read_value(&[1, 2, 3], 1, 3).info(), None);
}

/// Rows, form and width code; the kind, the width in bits and the bytes of what is written.
type Line = (&'static [i64], Form, u8, Kind, usize, usize);

#[test]
fn writer() {
    use Form::*;
    let lines: [Line; 6] = [
        (&[300; 5], ShortRepeat, 2, Kind::ShortRepeat, 16, 3),
        (&[300; 5], ShortRepeat, 8, Kind::ShortRepeat, 64, 9),
        (&[1, 2, 3], Direct, 3, Kind::Direct, 4, 4),
        (&[1], Direct, 27, Kind::Direct, 32, 6),
        (&[10, 12, 14, 16, 18], FixedDelta, 0, Kind::Delta, 0, 4),
        (&[100, 97, 96, 92], PackedDelta, 3, Kind::Delta, 4, 5),
    ];
    for (rows, form, code, kind, width, bytes) in lines {
        let written = write_run(rows, false, form, code, 9);
        assert_eq!(written.info(), Some(Info { kind, width, rows: rows.len(), bytes }));
    }
    assert_eq!(write_run(&[1], false, Direct, 27, 5).info(), None);
}
