//! FORMAT.md's sample runs, the ORC specification's examples, and the limits.
use model::*;

fn bytes(hex: &str) -> Vec<u8> {
    let digits: Vec<u32> = hex.chars().filter_map(|c| c.to_digit(16)).collect();
    digits.chunks(2).map(|two| (two[0] * 16 + two[1]) as u8).collect()
}

fn rows(hex: &str, signed: bool, rows: &[i64], consumed: usize) {
    match read_run(&bytes(hex), 0, signed, 512) {
        Answer::Run(run) => assert_eq!((&run.rows[..], run.consumed), (rows, consumed), "{hex}"),
        other => panic!("{hex}: {other:?}"),
    }
}

fn refused(hex: &str, number: u8) {
    for signed in [false, true] {
        let refusal = Answer::Refused(Refusal::whole(number, 0));
        assert_eq!(read_run(&bytes(hex), 0, signed, 512), refusal, "{hex}");
    }
}

fn cut(hex: &str, number: u8, byte: usize) {
    for signed in [false, true] {
        let refusal = Answer::Refused(Refusal::cut(number, 0, byte));
        assert_eq!(read_run(&bytes(hex), 0, signed, 512), refusal, "{hex}");
    }
}

#[test]
fn lines_of_document_01() {
    rows("0A012C", false, &[300; 5], 3);
    rows("0A012C", true, &[150; 5], 3);
    rows("0001", true, &[-1; 3], 2);
    rows("46021230", false, &[1, 2, 3], 4);
    rows("46021230", true, &[-1, 1, -2], 4);
    rows("700000000040", false, &[1], 6);
    rows("C0040A04", false, &[10, 12, 14, 16, 18], 4);
    rows("C603640514", false, &[100, 97, 96, 92], 5);
    rows("C001FEFFFFFFFFFFFFFFFF0102", true, &[i64::MAX, i64::MIN], 13);
    rows("C0000700", false, &[7], 4);
    refused("C200", 4);
    for signed in [false, true] {
        rows("8603032164123494", signed, &[101, 102, 183, 104], 8);
        rows("86030320E41234", signed, &[-99, -98, -97, -96], 7);
    }
    refused("860303416412348A", 7);
    refused("86031F21", 2);
    assert_eq!(read_run(&[], 0, true, 0), Answer::End);
}

#[test]
fn examples_of_the_specification() {
    rows("0A2710", false, &[10000; 5], 3);
    rows("5E035CA1AB1EDEADBEEF", false, &[23713, 43806, 57005, 48879], 10);
    rows("C609020222424246", false, &[2, 3, 5, 7, 11, 13, 17, 19, 23, 29], 8);
    let mut patched = vec![2030, 2000, 2020, 1_000_000];
    patched.extend((2040..=2190).step_by(10));
    rows("8E132B2107D01E001470 28323C46505A646E78828C96A0AAB4BEFCE8", false, &patched, 28);
    let varints = [(0, "00"), (1, "01"), (127, "7F"), (128, "8001"), (129, "8101")];
    let more = [(16_383, "FF7F"), (16_384, "808001"), (16_385, "818001")];
    for (number, hex) in varints.into_iter().chain(more) {
        rows(&format!("C000{hex}00"), false, &[number], 3 + hex.len() / 2);
        let run = bytes(&format!("C000{hex}00"));
        let written = Written::Run { kind: Kind::Delta, width: 0, rows: 1, bytes: run };
        assert_eq!(write_run(&[number], false, Form::FixedDelta, 0, 9), written);
    }
    assert_eq!([0, 1, 2, 3, 4].map(zigzag), [0, -1, 1, -2, 2]);
    assert_eq!([u64::MAX, u64::MAX - 1].map(zigzag), [i64::MIN, i64::MAX]);
}

fn booleans(hex: &str, n: usize) -> Booleans {
    read_booleans(&bytes(hex), 0, n, 10_000)
}

#[test]
fn booleans_and_byte_values() {
    let mut values = vec![true; 24];
    values.resize(32, false);
    // The second run is three copies of 00.
    assert_eq!(booleans("00FFFF00", 32), Booleans::Given { values, consumed: 4 });
    let cut = |number, place, byte| Booleans::Refused(Refusal::cut(number, place, byte));
    assert_eq!(booleans("00FFFF00", 33), cut(6, 0, 4));
    assert_eq!(booleans("6100", 800), Booleans::Given { values: vec![false; 800], consumed: 2 });
    let fe4445 = [0, 1, 0, 0, 0, 1, 0, 0, 0, 1, 0, 0, 0, 1, 0, 1].map(|bit| bit == 1);
    assert_eq!(booleans("FE4445", 16), Booleans::Given { values: fe4445.into(), consumed: 3 });
    assert_eq!(booleans("FE4445", 1), Booleans::Given { values: vec![false], consumed: 3 });
    assert_eq!(booleans("FE44", 1), cut(13, 0, 1));
    let ff80 = [1, 0, 0, 0, 0, 0, 0, 0].map(|bit| bit == 1);
    assert_eq!(booleans("FF80", 8), Booleans::Given { values: ff80.into(), consumed: 2 });
    assert_eq!(read_booleans(&[], 9, 0, 0), Booleans::Given { values: vec![], consumed: 0 });
    assert_eq!(read_booleans(&[], 9, 1, 0), cut(6, 9, 9));
    assert_eq!(read_booleans(&[0xFF, 0x80], 0, 8, 7), Booleans::Refused(Refusal::whole(8, 0)));
    assert_eq!(read_value(&[1, 2, 3], 1, 2), Value::Given(vec![2, 3]));
    assert_eq!(read_value(&[1, 2, 3], 7, 0), Value::Given(vec![]));
    assert_eq!(read_value(&[1, 2, 3], 1, 3), Value::Refused(Refusal::cut(6, 1, 1)));
}

#[test]
fn order_of_refusals_and_varints() {
    refused("40", 1);
    refused("C2", 1);
    refused("860303", 1);
    cut("08", 6, 1);
    cut("C002", 12, 2);
    // Over 64 bits both ways: 2 is the header's, before the missing body; value and patch width may
    // be over 64 together, and then the body is missed.
    refused("BE031F21", 2);
    cut("BE030121", 6, 4);
    // Ten bytes with the top bit set, at the end of the input too; nine and the end.
    refused("C00280808080808080808080", 5);
    cut("C002808080808080808080", 12, 2);
    refused("C0020180808080808080808080", 5);
    // The tenth byte's bits at 2^64 and above are not dropped any more.
    rows("C000FFFFFFFFFFFFFFFFFF0100", false, &[-1], 13);
    refused("C000FFFFFFFFFFFFFFFFFF7F00", 5);
    refused("C0008080808080808080800200", 5);
    // 7 before 8, and 8 last.
    let seven = Answer::Refused(Refusal::whole(7, 0));
    assert_eq!(read_run(&bytes("860303416412348A"), 0, false, 3), seven);
    let eight = Answer::Refused(Refusal::whole(8, 1));
    assert_eq!(read_run(&bytes("0046021230"), 1, false, 2), eight);
}

#[test]
fn patch_lists() {
    // Two entries, gaps counted from the entry before: places 1 and 3. Then both at place 1.
    rows("86030322641234 5660", false, &[101, 182, 103, 200], 9);
    refused("86030322641234 5460", 7);
    // 300 rows of one bit: a skip, then place 265; then the skip last.
    let zeros = "00".repeat(38);
    let mut patched = [5; 300];
    patched[265] = 11;
    rows(&format!("812B01E205{zeros}FF02B0"), true, &patched, 46);
    refused(&format!("812B01E205{zeros}0AFFC0"), 7);
    let faults = Faults { last_skip: true, ..Faults::default() };
    assert_eq!(list_faults(&bytes(&format!("812B01E205{zeros}0AFFC0"))), Some(faults));
    // A sign with magnitude 0 is 0.
    rows("86030320801234", true, &[1, 2, 3, 4], 7);
}

#[test]
fn streams() {
    let two = bytes("0A012C46021230");
    let joined = vec![300, 300, 300, 300, 300, 1, 2, 3];
    let [short, direct] = [(Kind::ShortRepeat, 16, 5, 3), (Kind::Direct, 4, 3, 4)]
        .map(|(kind, width, rows, bytes)| Some(Info { kind, width, rows, bytes }));
    let whole = Stream::Whole { rows: joined, consumed: 7, last: direct };
    assert_eq!(read_stream(&two, 0, false, 8), whole);
    let empty = Stream::Whole { rows: vec![], consumed: 0, last: None };
    assert_eq!(read_stream(&two, 99, false, 0), empty);
    let refusal = Refusal::whole(8, 3);
    let broke = Stream::Refused { refusal, rows: vec![300; 5], consumed: 3, last: short };
    assert_eq!(read_stream(&two, 0, false, 7), broke);
    let refusal = Refusal::cut(13, 3, 5);
    let broke = Stream::Refused { refusal, rows: vec![300; 5], consumed: 3, last: short };
    assert_eq!(read_stream(&two[..6], 0, false, 8), broke);
}

fn write(rows: &[i64], signed: bool, form: Form, width: u8) -> Result<Vec<u8>, u8> {
    match write_run(rows, signed, form, width, 10_000) {
        Written::Run { bytes, .. } => Ok(bytes),
        Written::Refused(refusal) => Err(refusal.number),
    }
}

#[test]
fn writer() {
    use Form::*;
    assert_eq!(write(&[300; 5], false, ShortRepeat, 2), Ok(bytes("0A012C")));
    assert_eq!(write(&[-1; 3], true, ShortRepeat, 1), Ok(bytes("0001")));
    assert_eq!(write(&[1, 2, 3], false, Direct, 3), Ok(bytes("46021230")));
    assert_eq!(write(&[1], false, Direct, 24), Err(10));
    assert_eq!(write(&[10, 12, 14, 16, 18], false, FixedDelta, 0), Ok(bytes("C0040A04")));
    assert_eq!(write(&[100, 97, 96, 92], false, PackedDelta, 3), Ok(bytes("C603640514")));
    let ends = [i64::MAX, i64::MIN];
    assert_eq!(write(&ends, true, FixedDelta, 0), Ok(bytes("C001FEFFFFFFFFFFFFFFFF0102")));
    assert_eq!(write(&[7], false, FixedDelta, 0), Ok(bytes("C0000700")));
    // 9, then 10, then 11.
    assert_eq!(write(&[7; 2], false, ShortRepeat, 9), Err(9));
    assert_eq!(write(&[7; 11], false, ShortRepeat, 1), Err(9));
    assert_eq!(write(&[7], false, PackedDelta, 1), Err(9));
    assert_eq!(write(&[], false, Direct, 1), Err(9));
    assert_eq!(write(&[7; 513], false, Direct, 7), Err(9));
    assert_eq!(write(&[300, 300, 301], false, ShortRepeat, 1), Err(10));
    assert_eq!(write(&[300; 3], false, ShortRepeat, 0), Err(10));
    assert_eq!(write(&[1, 2, 4], false, FixedDelta, 0), Err(10));
    assert_eq!(write(&[1, 2, 3], false, FixedDelta, 1), Err(10));
    assert_eq!(write(&[1, 2, 3], false, PackedDelta, 0), Err(10));
    assert_eq!(write(&[1, 2, 3], false, Direct, 32), Err(10));
    assert_eq!(write(&[256; 3], false, ShortRepeat, 1), Err(11));
    assert_eq!(write(&[-1], false, Direct, 30), Err(11));
    // Against its direction: a magnitude of nearly 2^64, which 64 bits hold.
    assert_eq!(write(&[1, 2, 1], false, PackedDelta, 30), Err(11));
    assert!(write(&[1, 2, 1], false, PackedDelta, 31).is_ok());
    let eight = Written::Refused(Refusal::whole(8, 0));
    assert_eq!(write_run(&[300; 5], false, ShortRepeat, 2, 2), eight);
    assert_eq!([0, 1, 2, 1 << 24, 1 << 26, u64::MAX].map(narrowest_code), [0, 0, 1, 27, 27, 31]);
}

#[test]
fn written_runs_read_back() {
    use Form::*;
    let mut seed = 1u64;
    let mut next = || {
        seed = seed.wrapping_mul(6_364_136_223_846_793_005).wrapping_add(1_442_695_040_888_963_407);
        seed >> 20
    };
    for round in 0..4000 {
        let signed = round % 2 == 0;
        let width = [0, 1, 3, 7, 15, 23, 27, 28, 29, 30, 31][(next() % 11) as usize];
        let some: Vec<i64> =
            (0..1 + next() % 40).map(|_| (next() % (1 << (1 + next() % 40))) as i64).collect();
        let step = next() as i64 % 100 - 50;
        let (form, rows) = match round % 4 {
            0 => (ShortRepeat, vec![some[0]; some.len()]),
            1 => (Direct, some),
            2 => (FixedDelta, (0..some.len() as i64).map(|k| some[0].wrapping_add(k * step)).collect()),
            _ => (PackedDelta, some),
        };
        let width = if form == FixedDelta { 0 } else { width };
        if let Ok(bytes) = write(&rows, signed, form, width) {
            match read_run(&bytes, 0, signed, 512) {
                Answer::Run(run) => assert_eq!((run.rows, run.consumed), (rows, bytes.len())),
                other => panic!("{other:?}"),
            }
        }
    }
}
