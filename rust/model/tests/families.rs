//! The test vectors: lines whose answers were worked out by hand, from the layouts and the specification's own
//! examples, are among them and are answered so; and each family has what it says that it has.
use std::collections::{BTreeMap, BTreeSet};

use model::vectors::{Family, FAMILIES};
use model::{answer_line, Answer};

fn family(name: &str) -> &'static Family {
    FAMILIES.iter().find(|family| family.name == name).expect("a family")
}

/// Each line is one of the family's, and the model answers it as is written here.
fn answered(name: &str, by_hand: &[(&str, &str)]) {
    let lines: BTreeSet<String> = family(name).frames().map(|frame| frame.line()).collect();
    for (line, answer) in by_hand {
        assert!(lines.contains(*line), "{line} is none of {name}");
        assert_eq!(answer_line(line.as_bytes()), *answer, "{line}");
    }
}

#[test]
fn widths() {
    answered(
        "widths",
        &[
            ("0046021230", "run 3 4 1 2 3"),
            ("0146021230", "run 3 4 -1 1 -2"),
            ("00700000000040", "run 1 6 1"),
            ("005E035CA1AB1EDEADBEEF", "run 4 10 23713 43806 57005 48879"),
            ("000A012C", "run 5 3 300 300 300 300 300"),
            ("010A012C", "run 5 3 150 150 150 150 150"),
            ("000A2710", "run 5 3 10000 10000 10000 10000 10000"),
            ("0100FF", "run 3 2 -128 -128 -128"),
            ("0038FFFFFFFFFFFFFFFF", "run 3 9 -1 -1 -1"),
            ("00C0040A04", "run 5 4 10 12 14 16 18"),
            ("00C603640514", "run 4 5 100 97 96 92"),
            ("00C609020222424246", "run 10 8 2 3 5 7 11 13 17 19 23 29"),
            ("00C2000700", "refused 4"),
            (
                "008E132B2107D01E00147028323C46505A646E78828C96A0AAB4BEFCE8",
                "run 20 28 2030 2000 2020 1000000 2040 2050 2060 2070 2080 2090 2100 2110 2120 2130 2140 2150 \
                 2160 2170 2180 2190",
            ),
        ],
    );
}

#[test]
fn patches() {
    answered(
        "patches",
        &[
            ("008603032164123494", "run 4 8 101 102 183 104"),
            ("018603032164123494", "run 4 8 101 102 183 104"),
            ("0086030320E41234", "run 4 7 -99 -98 -97 -96"),
            // Gaps 1 and 2, patches 5 and 6: places 1 and 3. Then gaps 1 and 0.
            ("00860303226412345660", "run 4 9 101 182 103 200"),
            ("00860303226412345460", "refused 7"),
            // Place 4 of 4 rows, place 1 of 1; place 0 twice; a skip and nothing after it.
            ("00860303416412348A", "refused 7"),
            ("0080000001000080", "refused 7"),
            ("0080000002000000", "refused 7"),
            ("00800000E10000FF00", "refused 7"),
            // 64 bits of patch and 2 of gap; 30 bits of value under a patch of 3 and of 2^34.
            ("0086031F21", "refused 2"),
            ("00B4001C010000000004000000000003", "run 1 15 3221225473"),
            ("00B4001C010000000004000400000000", "refused 3"),
        ],
    );
}

/// Thirteen values of 64 bits, about the ends.
const VALUES: &str = "0000000000000000 0000000000000001 0000000000000002 00000000FFFFFFFF 3FFFFFFFFFFFFFFF \
                      4000000000000000 7FFFFFFFFFFFFFFE 7FFFFFFFFFFFFFFF 8000000000000000 8000000000000001 \
                      FFFFFFFFFFFFFFFD FFFFFFFFFFFFFFFE FFFFFFFFFFFFFFFF";

#[test]
fn sums() {
    let least = "-9223372036854775808";
    answered(
        "sums",
        &[
            ("01C001FEFFFFFFFFFFFFFFFF0102", &format!("run 2 13 9223372036854775807 {least}")),
            ("00C000FFFFFFFFFFFFFFFFFF0100", "run 1 13 -1"),
            // 2^64 - 1 and a step of 1, unsigned; the least row and a step of 1; 0 and a step of -1.
            ("00C002FFFFFFFFFFFFFFFFFF0102", "run 3 13 -1 0 1"),
            (
                "01C002FFFFFFFFFFFFFFFFFF0102",
                &format!("run 3 13 {least} -9223372036854775807 -9223372036854775806"),
            ),
            ("00C0020001", "run 3 4 0 -1 -2"),
            // Magnitudes of 3 in two bits, rising over 2^63 - 1 and falling from 0.
            (
                "00C206FFFFFFFFFFFFFFFF7F00FFC0",
                "run 7 14 9223372036854775807 9223372036854775807 -9223372036854775806 -9223372036854775803 \
                 -9223372036854775800 -9223372036854775797 -9223372036854775794",
            ),
            ("00C2060001FFC0", "run 7 6 0 -1 -4 -7 -10 -13 -16"),
            // A base of -1 under values of 64 bits.
            (
                &format!("00BE0C000081{}", VALUES.replace(' ', "")),
                &format!(
                    "run 13 109 -1 0 1 4294967294 4611686018427387902 4611686018427387903 9223372036854775805 \
                     9223372036854775806 9223372036854775807 {least} -4 -3 -2"
                ),
            ),
            // A tenth byte of 1 is 2^63, and one of 2 says more than 64 bits hold.
            (
                "00C002808080808080808080010301",
                &format!("run 3 13 {least} 9223372036854775806 9223372036854775804"),
            ),
            ("00C002808080808080808080020301", "refused 5"),
        ],
    );
}

#[test]
fn cuts() {
    answered(
        "cuts",
        &[
            ("00", "end"),
            ("01", "end"),
            ("000A", "refused 6"),
            ("000A01", "refused 6"),
            ("000A012C", "run 5 3 300 300 300 300 300"),
            ("000A012C46", "run 5 3 300 300 300 300 300"),
            ("0046", "refused 1"),
            ("004602", "refused 13"),
            ("00460212", "refused 13"),
            ("0046021230", "run 3 4 1 2 3"),
            ("00C004", "refused 12"),
            ("00C0040A", "refused 12"),
            ("00C6036405", "refused 13"),
            ("00860303", "refused 1"),
            ("0086030321", "refused 6"),
            ("00860303216412", "refused 13"),
            ("0086030321641234", "refused 14"),
            ("0186030321641234", "refused 14"),
        ],
    );
}

/// By the headers: 2 bits kind, 5 bits width code, 9 bits rows - 1; of a short repeat 6 bits size and count.
#[test]
fn every_width_at_every_length() {
    let (mut lines, mut short) = (BTreeSet::new(), BTreeSet::new());
    let mut flags: BTreeMap<(u8, u8), [usize; 2]> = BTreeMap::new();
    for frame in family("widths").frames() {
        let [first, second, ..] = frame.bytes[..] else { panic!("two bytes at least") };
        let (kind, code) = (first >> 6, first >> 1 & 31);
        if kind == 0 {
            short.insert((first, frame.signed));
        }
        lines.insert((kind, code, usize::from(first & 1) * 256 + usize::from(second) + 1));
        flags.entry((kind, code)).or_default()[usize::from(frame.signed)] += 1;
    }
    assert_eq!(short.len(), 2 * 64, "short repeats");
    for code in 0..32 {
        assert!((1..=512).all(|rows| lines.contains(&(1, code, rows))), "direct, code {code}");
        for rows in (1..=66).chain(127..=130).chain(255..=258).chain(510..=512) {
            assert!(
                [2, 3].iter().all(|kind| lines.contains(&(*kind, code, rows))),
                "code {code}, {rows} rows"
            );
        }
        let [unsigned, signed] = flags[&(1, code)];
        assert!(unsigned.abs_diff(signed) <= 3, "code {code}: {unsigned} and {signed}");
    }
}

/// Every answer that a family is about is among its answers, and no line is too long for the program.
#[test]
fn what_a_family_is_about() {
    for (name, numbers) in [
        ("widths", &[4][..]),
        ("patches", &[1, 2, 3, 6, 7, 13, 14]),
        ("sums", &[5]),
        ("cuts", &[1, 2, 6, 12, 13, 14]),
    ] {
        let mut seen: BTreeSet<u8> = BTreeSet::new();
        let mut runs = 0;
        for frame in family(name).frames() {
            match frame.answer() {
                Answer::Refused(refusal) => drop(seen.insert(refusal.number)),
                Answer::Run(_) => runs += 1,
                Answer::End => {}
            }
            assert!(frame.bytes.len() < 4_400, "{name}: a line of over 8,800 characters");
        }
        assert_eq!(seen.into_iter().collect::<Vec<u8>>(), numbers, "{name}");
        assert!(runs > 1_000, "{name}: {runs} runs");
    }
}

/// The same lines at every call.
#[test]
fn always_the_same() {
    for family in &FAMILIES[1..] {
        assert!(family.frames().eq(family.frames()), "{}", family.name);
    }
}
