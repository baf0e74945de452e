//! Flags and bytes written: the plain choice, the least size, and the runs that are chosen. Lines written out
//! by hand.
use model::*;

fn bytes(hex: &str) -> Vec<u8> {
    let digits: Vec<u32> = hex.chars().filter_map(|c| c.to_digit(16)).collect();
    digits.chunks(2).map(|two| (two[0] * 16 + two[1]) as u8).collect()
}

/// Numbers of which no two neighbours are equal.
fn different(count: usize) -> Vec<u8> {
    (0..count).map(|k| (k % 251) as u8).collect()
}

#[test]
fn the_plain_choice() {
    for (given, runs) in [
        ("", ""),
        ("05", "FF05"),
        ("0505", "FE0505"),
        ("050505", "0005"),
        ("05050505", "0105"),
        ("0505050606", "0005 FE0606"),
        ("0606050505", "FE0606 0005"),
        ("0705050508", "FF07 0005 FF08"),
        ("0705050807", "FB0705050807"),
        ("050505060606", "0005 0006"),
    ] {
        assert_eq!(plain_byte_runs(&bytes(given)), bytes(runs), "{given}");
        assert_eq!(runs_stand_for(&bytes(runs)), Some(bytes(given)), "{given}");
    }
}

#[test]
fn stretches_about_130() {
    for (count, runs, least) in [
        (129, "7E05", 2),
        (130, "7F05", 2),
        (131, "7F05 FF05", 4),
        // Two of them left: 129 and 3 are a byte less.
        (132, "7F05 FE0505", 4),
        (133, "7F05 0005", 4),
        (260, "7F05 7F05", 4),
        (261, "7F05 7F05 FF05", 6),
        (262, "7F05 7F05 FE0505", 6),
        (263, "7F05 7F05 0005", 6),
    ] {
        let given = vec![5; count];
        assert_eq!(plain_byte_runs(&given), bytes(runs), "{count}");
        assert_eq!(least_size(&given), least, "{count}");
    }
    // What is left goes with the literals that follow: 2 + 4 bytes.
    let given = [vec![5; 131], vec![6, 7]].concat();
    assert_eq!(plain_byte_runs(&given), bytes("7F05 FD050607"));
    assert_eq!(least_size(&given), 6);
    // A literal before them: 2 + 2 + 2, and a byte less if the first of them goes with the literal.
    let given = [vec![9], vec![5; 131]].concat();
    assert_eq!(plain_byte_runs(&given), bytes("FF09 7F05 FF05"));
    assert_eq!(least_size(&given), 5);
}

#[test]
fn literals_about_128() {
    for (count, runs) in [(127, 1), (128, 1), (129, 2), (256, 2), (257, 3)] {
        let given = different(count);
        let plain = plain_byte_runs(&given);
        assert_eq!((plain.len(), least_size(&given)), (count + runs, count + runs));
        assert_eq!(usize::from(plain[0]), 256 - count.min(128));
        assert_eq!(runs_stand_for(&plain), Some(given));
    }
    // Three equal bytes from the 127th on are a run of their own: 127 + 2.
    let given = [different(126), vec![255; 3]].concat();
    assert_eq!(plain_byte_runs(&given).len(), 129);
    assert_eq!(least_size(&given), 129);
}

#[test]
fn least_sizes() {
    for (given, least) in [
        ("", 0),
        ("05", 2),
        ("0505", 3),
        ("050505", 2),
        ("05050505", 2),
        ("050506", 4),
        ("05050506", 4),
        // Two ways of six bytes: three runs, or one of literals.
        ("0705050508", 6),
        ("070505050508", 6),
        ("0705050508060606", 8),
    ] {
        assert_eq!(least_size(&bytes(given)), least, "{given}");
    }
}

/// The size of the best of all ways to cut the bytes into runs, each tried in turn.
fn tried(bytes: &[u8]) -> usize {
    if bytes.is_empty() {
        return 0;
    }
    let literal = (1..=bytes.len()).map(|count| 1 + count + tried(&bytes[count..]));
    let equal = bytes.iter().take_while(|byte| **byte == bytes[0]).count();
    let repeat = (3..=equal).map(|count| 2 + tried(&bytes[count..]));
    literal.chain(repeat).min().expect("one literal is a run")
}

/// Every text of two letters up to nine: the least size is the best of all cuts, and the plain choice
/// stands for the bytes and is never shorter.
#[test]
fn short_texts() {
    for length in 0..10 {
        for text in 0..1u32 << length {
            let given: Vec<u8> = (0..length).map(|k| (text >> k & 1) as u8).collect();
            let plain = plain_byte_runs(&given);
            assert_eq!(least_size(&given), tried(&given), "{given:?}");
            assert!(least_size(&given) <= plain.len(), "{given:?}");
            assert_eq!(chosen_byte_runs(&given).len(), least_size(&given), "{given:?}");
            assert_eq!(runs_stand_for(&plain), Some(given));
        }
    }
}

#[test]
fn chosen_runs() {
    for (given, runs) in [
        ("", ""),
        ("05", "FF05"),
        ("0505", "FE0505"),
        ("050505", "0005"),
        ("0705050508", "FF07 0005 FF08"),
        ("0705050807", "FB0705050807"),
        ("050505060606", "0005 0006"),
    ] {
        assert_eq!(chosen_byte_runs(&bytes(given)), bytes(runs), "{given}");
    }
    for (count, runs) in [
        (129, "7E05"),
        (130, "7F05"),
        (131, "7F05 FF05"),
        (132, "7E05 0005"),
        (133, "7F05 0005"),
        (261, "7F05 7F05 FF05"),
        (262, "7F05 7E05 0005"),
        (263, "7F05 7F05 0005"),
    ] {
        assert_eq!(chosen_byte_runs(&vec![5; count]), bytes(runs), "{count}");
    }
    // The byte that would be left alone joins the literals before it, if they are not 128.
    let given = [vec![9], vec![5; 131]].concat();
    assert_eq!(chosen_byte_runs(&given), bytes("FE0905 7F05"));
    let given = [vec![9], vec![5; 132]].concat();
    assert_eq!(chosen_byte_runs(&given), bytes("FF09 7E05 0005"));
    for (before, first) in [(126, 0x81), (127, 0x80), (128, 0x80), (129, 0x80)] {
        let chosen = chosen_byte_runs(&[different(before), vec![255; 131]].concat());
        assert_eq!(usize::from(chosen[0]), first, "{before}");
    }
}

/// Of pieces of every length that matters, one after the other, the chosen runs stand for the bytes, and no
/// runs are shorter; so the plain choice is not.
#[test]
fn chosen_runs_are_the_fewest_bytes() {
    const PIECES: [usize; 12] = [1, 2, 3, 4, 127, 128, 129, 130, 131, 132, 133, 261];
    let mut lists = vec![vec![]];
    for _ in 0..3 {
        lists = lists
            .iter()
            .flat_map(|list: &Vec<u8>| {
                // The next piece is of another byte, or of different ones.
                let other = list.last().map_or(1, |last| last.wrapping_add(1));
                let equal = PIECES.map(|count| [&list[..], &vec![other; count]].concat());
                let unlike = [1, 2, 126, 127, 128, 129].map(|count| {
                    let unlike: Vec<u8> = (0..count).map(|k| other.wrapping_add(k as u8)).collect();
                    [&list[..], &unlike].concat()
                });
                equal.into_iter().chain(unlike).collect::<Vec<_>>()
            })
            .collect();
    }
    for given in lists {
        let chosen = chosen_byte_runs(&given);
        assert_eq!(chosen.len(), least_size(&given), "{given:?}");
        assert!(chosen.len() <= plain_byte_runs(&given).len(), "{given:?}");
        assert_eq!(runs_stand_for(&chosen), Some(given));
    }
}

#[test]
fn flags_as_bytes() {
    assert_eq!(packed_flags(&[]), bytes(""));
    assert_eq!(packed_flags(&[1]), bytes("80"));
    assert_eq!(packed_flags(&[0, 0, 0, 0, 0, 0, 0, 255]), bytes("01"));
    // 1010 0000 1: the bits after the ninth are 0.
    assert_eq!(packed_flags(&[2, 0, 9, 0, 0, 0, 0, 0, 1]), bytes("A080"));
    // Eight times 24 and 8: as FORMAT.md's sample line has them.
    let flags = [vec![1; 24], vec![0; 8]].concat();
    assert_eq!(plain_byte_runs(&packed_flags(&flags)), bytes("00FF FF00"));
}

/// Runs that are cut stand for nothing.
#[test]
fn cut_runs() {
    for cut in ["00", "FF", "FE05", "0005 00", "0005 FE05"] {
        assert_eq!(runs_stand_for(&bytes(cut)), None, "{cut}");
    }
}
