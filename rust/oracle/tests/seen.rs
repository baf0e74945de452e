//! What the oracle is built to show: wrapping sums, zigzag, caught panics, bytes counted, and the
//! iterator's calls after an error.
use oracle::{read_booleans, read_run, read_stream, read_value, Case, Outcome, Run, Stopped};

fn bytes(hex: &str) -> Vec<u8> {
    let digits: Vec<u32> = hex.chars().filter_map(|c| c.to_digit(16)).collect();
    digits.chunks(2).map(|two| (two[0] * 16 + two[1]) as u8).collect()
}

fn rows(rows: &[i64], consumed: usize) -> Run {
    Run::Rows { rows: rows.to_vec(), consumed }
}

#[test]
fn sums_wrap_in_every_profile() {
    let run = bytes("C001FEFFFFFFFFFFFFFFFF0102");
    assert_eq!(read_run(&run, true), rows(&[i64::MAX, i64::MIN], 13));
    // The width underflow and the shift by 70 are quiet too.
    assert_eq!(read_run(&bytes("C20007000000"), false), Run::Error(Case::Io));
    assert_eq!(read_run(&bytes("C000808080808080808080800100"), false), rows(&[64], 14));
}

#[test]
fn runs() {
    assert_eq!(read_run(&[], true), Run::End);
    assert_eq!(read_run(&bytes("46021230FF"), true), rows(&[-1, 1, -2], 4));
    assert_eq!(read_run(&bytes("8603032164123494"), true), rows(&[101, 102, 183, 104], 8));
    assert_eq!(read_run(&bytes("4602"), true), Run::Error(Case::Io));
    assert_eq!(read_run(&bytes("70"), true), Run::Panic);
    assert_eq!(read_run(&bytes("86030320E41234"), true), Run::Panic);
}

#[test]
fn the_iterator_goes_on_after_an_error() {
    let stream = read_stream(&bytes("0001C0040A"), false, 100);
    let expected = [Ok(1), Ok(1), Ok(1), Err(Case::Io), Ok(10)];
    assert_eq!((&stream.items[..], stream.stopped), (&expected[..], Stopped::Done));
    assert_eq!(read_stream(&bytes("000170"), false, 100).stopped, Stopped::Panic);
    assert_eq!(read_stream(&bytes("0001"), false, 2).stopped, Stopped::Calls);
}

#[test]
fn booleans_and_values() {
    let given = Outcome::Given { values: vec![true; 32], consumed: 2 };
    assert_eq!(read_booleans(&bytes("00FFFF00"), 32), given);
    assert_eq!(read_booleans(&bytes("80"), 1), Outcome::Panic { before: vec![] });
    let cut = Outcome::Error { case: Case::Io, before: vec![] };
    assert_eq!(read_booleans(&bytes("00"), 1), cut);
    assert_eq!(read_value(&[1, 2, 3], 5), Outcome::Given { values: vec![1, 2, 3], consumed: 3 });
}
