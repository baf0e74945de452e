//! The bytes of the named flag columns: never more than by the plain choice or by the Apache model, the fewest
//! that any runs have, and those of docs/FLAGS.md.
use model::{least_size, packed_flags, plain_byte_runs};
use planning::apache_bytes::apache_byte_runs;
use planning::flags::{columns, figures, table, Figures};

const PAGE: &str = include_str!("../../../docs/FLAGS.md");

/// As `cargo run --offline -p planning --example flag_table` prints it.
const TABLE: &str = "\
| Column | Flags | Packed bytes | Ours | Plain choice | Apache model |
|---|---:|---:|---:|---:|---:|
| all true | 100000 | 12500 | 194 | 194 | 194 |
| all false | 100000 | 12500 | 194 | 194 | 194 |
| alternating | 100000 | 12500 | 194 | 194 | 194 |
| first 24 of each 32 | 100000 | 12500 | 12500 | 12500 | 12500 |
| first half | 100000 | 12500 | 196 | 196 | 196 |
| rare, one in 1,000 | 100000 | 12500 | 519 | 519 | 519 |
| rare, one in 100 | 100000 | 12500 | 3337 | 3337 | 3337 |
| one in ten false | 100000 | 12500 | 12100 | 12100 | 12100 |
| random, even | 100000 | 12500 | 12598 | 12598 | 12598 |
| long stretches, to 20,000 | 100000 | 12500 | 222 | 222 | 222 |
| stretches to 2,000 | 100000 | 12500 | 455 | 455 | 455 |
| stretches to 200 | 100000 | 12500 | 3419 | 3419 | 3419 |
| stretches to 20 | 100000 | 12500 | 12598 | 12598 | 12598 |
| 2 equal bytes | 16 | 2 | 3 | 3 | 3 |
| 3 equal bytes | 24 | 3 | 2 | 2 | 2 |
| 130 equal bytes | 1040 | 130 | 2 | 2 | 2 |
| 131 equal bytes | 1048 | 131 | 4 | 4 | 4 |
| 132 equal bytes | 1056 | 132 | 4 | 5 | 5 |
| 133 equal bytes | 1064 | 133 | 4 | 4 | 4 |
| 261 equal bytes | 2088 | 261 | 6 | 6 | 6 |
| 262 equal bytes | 2096 | 262 | 6 | 7 | 7 |
| 127 different bytes | 1016 | 127 | 128 | 128 | 128 |
| 128 different bytes | 1024 | 128 | 129 | 129 | 129 |
| 129 different bytes | 1032 | 129 | 131 | 131 | 131 |
| 1 byte, then 131 equal | 1056 | 132 | 5 | 6 | 6 |
| 1 byte, then 132 equal | 1064 | 133 | 6 | 7 | 7 |
| 126 different, then 3 equal | 1032 | 129 | 129 | 129 | 131 |
| 127 different, then 131 equal | 2064 | 258 | 131 | 132 | 131 |
| 128 different, then 131 equal | 2072 | 259 | 133 | 133 | 133 |
| 131 equal bytes, 100 times | 104800 | 13100 | 350 | 400 | 400 |
| 132 equal bytes, 100 times | 105600 | 13200 | 400 | 500 | 500 |
";

#[test]
fn never_more() {
    let figures = figures();
    assert!(figures.len() >= 10, "at least ten named columns");
    for column in &figures {
        assert!(
            column.ours <= column.plain,
            "{}: {} bytes, plain {}",
            column.name,
            column.ours,
            column.plain
        );
        assert!(
            column.ours <= column.apache,
            "{}: {} bytes, Apache {}",
            column.name,
            column.ours,
            column.apache
        );
        assert!(column.ours <= column.packed + column.packed.div_ceil(128), "{}", column.name);
    }
    for (column, figures) in columns().iter().zip(&figures) {
        assert_eq!(figures.ours, least_size(&packed_flags(&column.flags)), "{}", column.name);
    }
    assert_eq!(table(&figures), TABLE);
}

/// The page has the sums, and a line for each column on which the three differ.
#[test]
fn the_page() {
    let figures = figures();
    let sum = |bytes: fn(&Figures) -> usize| {
        let sum: usize = figures.iter().map(bytes).sum();
        format!("{},{:03}", sum / 1000, sum % 1000)
    };
    let [ours, plain, apache] =
        [sum(|column| column.ours), sum(|column| column.plain), sum(|column| column.apache)];
    let sums = format!("ours take {ours} bytes, the plain choice {plain}, the Apache model {apache}.");
    assert!(PAGE.contains(&sums), "{sums}");
    let differ = figures.iter().filter(|column| [column.plain, column.apache] != [column.ours; 2]);
    let lines = differ.map(|Figures { name, flags, ours, plain, apache, .. }| {
        format!("| {name} | {flags} | {ours} | {plain} | {apache} |")
    });
    let shown = PAGE.lines().filter(|line| line.starts_with("| ")).skip(1);
    assert_eq!(shown.collect::<Vec<_>>(), lines.collect::<Vec<_>>());
}

/// The Apache model's runs, by hand. They differ from the plain choice's if a stretch begins in the last bytes of
/// full literals: the model does not look ahead, so the stretch loses these.
#[test]
fn the_apache_model() {
    for (given, runs) in [
        (&[][..], &[][..]),
        (&[5], &[0xFF, 5]),
        (&[5, 5], &[0xFE, 5, 5]),
        (&[5, 5, 5], &[0x00, 5]),
        (&[7, 5, 5, 5, 8], &[0xFF, 7, 0x00, 5, 0xFF, 8]),
        (&[7, 5, 5, 8, 7], &[0xFB, 7, 5, 5, 8, 7]),
        (&[5, 5, 5, 6, 6, 6], &[0x00, 5, 0x00, 6]),
    ] {
        assert_eq!(apache_byte_runs(given), runs, "{given:?}");
        assert_eq!(plain_byte_runs(given), runs, "{given:?}");
    }
    assert_eq!(apache_byte_runs(&[5; 132]), [0x7F, 5, 0xFE, 5, 5]);
    let different: Vec<u8> = (0..126).collect();
    let given = [&different[..], &[200; 3]].concat();
    assert_eq!(apache_byte_runs(&given), [&[0x80][..], &different, &[200, 200, 0xFF, 200]].concat());
    assert_eq!(plain_byte_runs(&given), [&[0x82][..], &different, &[0x00, 200]].concat());
}

/// Of short flag columns all: no more than by either.
#[test]
fn all_short_columns() {
    for count in 0..=16 {
        for number in 0..1u32 << count {
            let flags: Vec<u8> = (0..count).map(|bit| (number >> bit & 1) as u8).collect();
            let packed = packed_flags(&flags);
            let least = model::chosen_byte_runs(&packed).len();
            assert!(least <= plain_byte_runs(&packed).len() && least <= apache_byte_runs(&packed).len());
        }
    }
}
