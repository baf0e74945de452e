//! FORMAT.md, "Varints": a varint whose tenth byte is above 1 is refused with 5, at the tenth byte.
//! Lines written out by hand.
use model::*;

fn bytes(hex: &str) -> Vec<u8> {
    let digits: Vec<u32> = hex.chars().filter_map(|c| c.to_digit(16)).collect();
    digits.chunks(2).map(|two| (two[0] * 16 + two[1]) as u8).collect()
}

fn read(hex: &str, signed: bool) -> Answer {
    read_run(&bytes(hex), 0, signed, 512)
}

fn rows(hex: &str, signed: bool, rows: &[i64], consumed: usize) {
    match read(hex, signed) {
        Answer::Run(run) => assert_eq!((&run.rows[..], run.consumed), (rows, consumed), "{hex}"),
        other => panic!("{hex}: {other:?}"),
    }
}

const EIGHTIES: &str = "808080808080808080";
const ALL_SET: &str = "FFFFFFFFFFFFFFFFFF";
const ABOVE: [&str; 5] = ["02", "7F", "80", "81", "FF"];

/// What may stand after the tenth byte: nothing, the next varint, bytes with the top bit set.
const BEHIND: [&str; 4] = ["", "00", "8080", "FFFFFFFFFFFFFFFFFFFF"];

#[test]
fn tenth_bytes_above_one() {
    let five = Answer::Refused(Refusal::whole(5, 0));
    for nine in [EIGHTIES, ALL_SET] {
        for tenth in ABOVE {
            for behind in BEHIND {
                for signed in [false, true] {
                    // The first row; the base delta; and before magnitudes that are missing.
                    for header in ["C000", "C00107", "C603", "C60307"] {
                        let hex = format!("{header}{nine}{tenth}{behind}");
                        assert_eq!(read(&hex, signed), five, "{hex}");
                    }
                }
            }
        }
    }
}

#[test]
fn tenth_bytes_zero_and_one_in_the_first_row() {
    // 0; 2^63; 2^63 - 1; 2^64 - 1. Then the base delta 0.
    rows(&format!("C000{EIGHTIES}0000"), false, &[0], 13);
    rows(&format!("C000{EIGHTIES}0100"), false, &[i64::MIN], 13);
    rows(&format!("C000{ALL_SET}0000"), false, &[i64::MAX], 13);
    rows(&format!("C000{ALL_SET}0100"), false, &[-1], 13);
    // The same, zigzag decoded.
    rows(&format!("C000{EIGHTIES}0000"), true, &[0], 13);
    rows(&format!("C000{EIGHTIES}0100"), true, &[1 << 62], 13);
    rows(&format!("C000{ALL_SET}0000"), true, &[-(1 << 62)], 13);
    rows(&format!("C000{ALL_SET}0100"), true, &[i64::MIN], 13);
    // Nothing after: the base delta is missing.
    for tenth in ["00", "01"] {
        let missing = Answer::Refused(Refusal::cut(12, 0, 12));
        assert_eq!(read(&format!("C000{ALL_SET}{tenth}"), false), missing);
    }
}

#[test]
fn tenth_bytes_zero_and_one_in_the_base_delta() {
    // After the row 7: 0, 2^62, -2^62 and -2^63 more; bytes after the run are not read.
    for behind in BEHIND {
        let two = |ten: &str, second| rows(&format!("C00107{ten}{behind}"), false, &[7, second], 13);
        two(&format!("{EIGHTIES}00"), 7);
        two(&format!("{EIGHTIES}01"), 7 + (1 << 62));
        two(&format!("{ALL_SET}00"), 7 - (1 << 62));
        two(&format!("{ALL_SET}01"), i64::MIN + 7);
    }
    // Magnitudes that are missing after it.
    let missing = Answer::Refused(Refusal::cut(13, 0, 13));
    assert_eq!(read(&format!("C60307{EIGHTIES}01"), false), missing);
}

#[test]
fn up_to_nine_bytes_nothing_is_refused() {
    // Nine bytes, the last 7F: 2^63 - 1. Nine with the top bit set, and no tenth: a cut varint.
    rows("C000FFFFFFFFFFFFFFFF7F00", false, &[i64::MAX], 12);
    assert_eq!(read(&format!("C000{ALL_SET}"), false), Answer::Refused(Refusal::cut(12, 0, 2)));
    assert_eq!(read(&format!("C00107{ALL_SET}"), false), Answer::Refused(Refusal::cut(12, 0, 3)));
    rows("C0007F7F", false, &[127], 4);
}

#[test]
fn the_first_varint_is_judged_first() {
    // Both say too much; the first is cut; the header's own refusal comes before.
    let five = Answer::Refused(Refusal::whole(5, 0));
    assert_eq!(read(&format!("C000{EIGHTIES}02{EIGHTIES}02"), false), five);
    assert_eq!(read(&format!("C000{EIGHTIES}01{EIGHTIES}02"), false), five);
    assert_eq!(read(&format!("C200{EIGHTIES}02"), false), Answer::Refused(Refusal::whole(4, 0)));
    // In a stream, with its place.
    let stream = read_stream(&bytes(&format!("46021230C000{EIGHTIES}0200")), 0, false, 512);
    let last = Some(Info { kind: Kind::Direct, width: 4, rows: 3, bytes: 4 });
    let refusal = Refusal::whole(5, 4);
    assert_eq!(stream, Stream::Refused { refusal, rows: vec![1, 2, 3], consumed: 4, last });
}
