//! FORMAT.md, "Reader in parts": however the bytes are cut, the rows, starts and refusal are the whole
//! stream's; what is taken is written out by hand.
use model::*;

fn bytes(hex: &str) -> Vec<u8> {
    let digits: Vec<u32> = hex.chars().filter_map(|c| c.to_digit(16)).collect();
    digits.chunks(2).map(|two| (two[0] * 16 + two[1]) as u8).collect()
}

/// Parts with bars between them.
fn read(parts: &str) -> Parts {
    let parts: Vec<Vec<u8>> = parts.split('|').map(bytes).collect();
    read_parts(&parts.iter().map(Vec::as_slice).collect::<Vec<_>>(), false, 512)
}

/// The starts and rows of the runs that were handed out.
fn runs(parts: &Parts) -> Vec<(usize, &[i64])> {
    parts.runs.iter().map(|(start, run)| (*start, &run.rows[..])).collect()
}

#[test]
fn two_runs_cut_anywhere() {
    let two = bytes("0A012C46021230");
    for one in 0..=two.len() {
        for other in one..=two.len() {
            let parts = [&two[..one], &[], &two[one..other], &two[other..], &[]];
            let read = read_parts(&parts, false, 600);
            assert_eq!(runs(&read), [(0, &[300; 5][..]), (3, &[1, 2, 3])], "{one} {other}");
            assert_eq!((read.refusal, read.taken), (None, 7));
            assert_eq!(read.runs[1].1.info(), Info { kind: Kind::Direct, width: 4, rows: 3, bytes: 4 });
        }
    }
    let none = Parts { runs: vec![], refusal: None, taken: 0 };
    assert_eq!(read_parts(&[], true, 512), none);
    assert_eq!(read_parts(&[&[], &[]], true, 512), none);
}

#[test]
fn an_unfinished_run_is_refused_at_the_closing_call() {
    // Every byte is taken, and the refusal is the whole stream's: header, value, varint, rows, list.
    for (parts, number, place, cut) in [
        ("0A01|2C46", 1, 3, None),
        ("0A|01", 6, 0, Some(1)),
        ("0A012C|C0|02", 12, 3, Some(5)),
        ("0A012CC002|80|80", 12, 3, Some(5)),
        ("0A012C4602|12|", 13, 3, Some(5)),
        ("8603|0321|64|1234", 14, 0, Some(7)),
    ] {
        let read = read(parts);
        assert_eq!(read.refusal, Some(Refusal { number, place, cut }), "{parts}");
        assert_eq!(read.taken, bytes(parts).len(), "{parts}");
    }
}

#[test]
fn another_refusal_comes_with_the_part_that_shows_it() {
    for (parts, number, place, taken) in [
        // 4 needs the two header bytes.
        ("0A012CC200FF", 4, 3, 3),
        ("0A012C|C200FF", 4, 3, 3),
        ("0A01|2CC2|00FF|46", 4, 3, 4),
        ("0A012CC2|00|FF", 4, 3, 4),
        ("0A012CC2||00FF", 4, 3, 4),
        ("C2|00", 4, 0, 1),
        // 2 needs the four.
        ("86031F|21", 2, 0, 3),
        ("86|03|1F|21|64", 2, 0, 3),
        ("86031F21", 2, 0, 0),
        // 5 needs the varint's tenth byte.
        ("C000808080808080808080|02", 5, 0, 11),
        ("C000|8080808080808080808002", 5, 0, 2),
        ("C000|80808080808080808001|80808080808080808081|00", 5, 0, 12),
        // 7 and 3 need the whole list.
        ("860303416412348A", 7, 0, 0),
        ("86030341641234|8A", 7, 0, 7),
        ("0A012C86030341641234|8A46021230", 7, 3, 10),
        ("BE0000010000000000000000|07|40", 3, 0, 13),
    ] {
        let read = read(parts);
        assert_eq!((read.refusal, read.taken), (Some(Refusal::whole(number, place)), taken), "{parts}");
        assert_eq!(read.runs.len(), usize::from(place == 3), "{parts}");
    }
}

#[test]
fn fewer_than_512_places() {
    let eight = Parts { runs: vec![], refusal: Some(Refusal::whole(8, 0)), taken: 0 };
    assert_eq!(read_parts(&[&bytes("0A012C")], false, 511), eight);
    assert_eq!(read_parts(&[&bytes("C200")], false, 0), eight);
    assert_eq!(read_parts(&[], false, 511), eight);
}

#[test]
fn the_flag() {
    let parts = read_parts(&[&bytes("00"), &bytes("01")], true, 512);
    assert_eq!(runs(&parts), [(0, &[-1; 3][..])]);
}
