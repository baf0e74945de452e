//! FORMAT.md's sample runs through the linked library, and what the wrapper adds.
use menakovitsy::*;

const START: ByteOffset = ByteOffset(0);

fn bytes(hex: &str) -> Vec<u8> {
    let digits: Vec<u32> = hex.chars().filter_map(|c| c.to_digit(16)).collect();
    digits.chunks(2).map(|two| (two[0] * 16 + two[1]) as u8).collect()
}

/// A run under a flag, by itself, at a position, as one number, and as a stream.
fn rows(hex: &str, sign: Sign, kind: Kind, width: u64, expected: &[i64]) {
    let run = bytes(hex);
    let (count, length) = (RowNumber(expected.len()), ByteOffset(run.len()));
    for before in [0, 3] {
        let input = [vec![0xC2; before], run.clone()].concat();
        let mut rows = [7777; 512];
        let read = read_run(&input, ByteOffset(before), sign, &mut rows).unwrap().unwrap();
        assert_eq!((read.kind, read.width), (kind, width), "{hex}");
        assert_eq!((read.rows, read.bytes), (count, length), "{hex}");
        assert_eq!(&rows[..expected.len()], expected, "{hex}");
        assert!(rows[expected.len()..].iter().all(|row| *row == 7777), "{hex}: a place behind them changed");
        let mut again = [7777; 512];
        let stream = read_stream(&input, ByteOffset(before), sign, &mut again).unwrap();
        assert_eq!((stream.rows, stream.bytes, again), (count, length, rows), "{hex}");
        assert_eq!(stream.last, Some(read), "{hex}");
    }
    let mut out = [0xEE; 8 * 512];
    let counts = read_run_bytes(&run, sign, &mut out).unwrap().unwrap();
    assert_eq!((counts.rows, counts.bytes), (count, length), "{hex}");
    assert!(out.chunks_exact(8).zip(expected).all(|(eight, row)| eight == row.to_le_bytes()), "{hex}");
}

/// A run that is refused, by itself and after three bytes; the cut field by its place in the run.
fn refused(hex: &str, refusal: Refusal, cut: Option<usize>) {
    let run = bytes(hex);
    for (sign, before) in [Sign::Unsigned, Sign::Signed].into_iter().flat_map(|sign| [(sign, 0), (sign, 3)]) {
        let input = [vec![0xC2; before], run.clone()].concat();
        let (at, cut) = (ByteOffset(before), cut.map(|byte| ByteOffset(before + byte)));
        let mut rows = [7777; 512];
        let refused = read_run(&input, at, sign, &mut rows).unwrap_err();
        assert_eq!((refused.refusal, refused.at, refused.cut), (refusal, Some(at), cut), "{hex}");
        let stream = read_stream(&input, at, sign, &mut rows).unwrap_err();
        assert_eq!((stream.refused, stream.before), (refused, Stream::default()), "{hex}");
        assert_eq!(rows, [7777; 512], "{hex}: a refused call changed a place");
        assert_eq!(read_run_bytes(&run, sign, &mut [0; 4096]), Err(refusal), "{hex}");
    }
}

#[test]
fn lines_of_document_01() {
    use Kind::*;
    use Sign::*;
    rows("0A012C", Unsigned, ShortRepeat, 16, &[300; 5]);
    rows("0A012C", Signed, ShortRepeat, 16, &[150; 5]);
    rows("0001", Signed, ShortRepeat, 8, &[-1; 3]);
    rows("46021230", Unsigned, Direct, 4, &[1, 2, 3]);
    rows("46021230", Signed, Direct, 4, &[-1, 1, -2]);
    rows("700000000040", Unsigned, Direct, 26, &[1]);
    rows("C0040A04", Unsigned, Delta, 0, &[10, 12, 14, 16, 18]);
    rows("C603640514", Unsigned, Delta, 4, &[100, 97, 96, 92]);
    rows("C001FEFFFFFFFFFFFFFFFF0102", Signed, Delta, 0, &[i64::MAX, i64::MIN]);
    rows("C0000700", Unsigned, Delta, 0, &[7]);
    refused("C200", Refusal::OneRowDelta, None);
    for sign in [Unsigned, Signed] {
        rows("8603032164123494", sign, PatchedBase, 4, &[101, 102, 183, 104]);
        rows("86030320E41234", sign, PatchedBase, 4, &[-99, -98, -97, -96]);
        assert_eq!(read_run(&[], START, sign, &mut []), Ok(None));
        assert_eq!(read_run(&[1, 2], ByteOffset(usize::MAX), sign, &mut []), Ok(None));
        assert_eq!(read_stream(&[], START, sign, &mut []), Ok(Stream::default()));
        assert_eq!(read_run_bytes(&[], sign, &mut []), Ok(None));
    }
    refused("860303416412348A", Refusal::PatchOutOfPlace, None);
    refused("86031F21", Refusal::EntryOver64, None);
}

/// FORMAT.md, "Places and cut bytes": which field is cut, and where it begins.
#[test]
fn cut_fields() {
    use Refusal::*;
    for (hex, refusal, cut) in [
        // The header, which is no field; a short repeat's value; packed rows.
        ("46", HeaderCut, None),
        ("0A", ValueCut, Some(1)),
        ("0A01", ValueCut, Some(1)),
        ("4602", RowsCut, Some(2)),
        ("460212", RowsCut, Some(2)),
        // A first row and a base delta, of which no byte is there or some are; magnitudes.
        ("C004", VarintCut, Some(2)),
        ("C00480", VarintCut, Some(2)),
        ("C0040A", VarintCut, Some(3)),
        ("C0048001", VarintCut, Some(4)),
        ("C6036405", RowsCut, Some(4)),
        ("C004FFFFFFFFFFFFFFFFFFFF", VarintTooLong, None),
        // A base, packed rows and a patch list.
        ("86032321", ValueCut, Some(4)),
        ("8603232164", ValueCut, Some(4)),
        ("86030321", ValueCut, Some(4)),
        ("8603032164", RowsCut, Some(5)),
        ("860303216412", RowsCut, Some(5)),
        ("86030321641234", ListCut, Some(7)),
        ("8603032264123494", ListCut, Some(7)),
    ] {
        refused(hex, refusal, cut);
    }
    assert_eq!(
        read_run(&bytes("86030321641234"), START, Sign::Signed, &mut []).unwrap_err().to_string(),
        "at byte 0: refusal 14: the patch list that begins at byte 7 is cut (call again with more bytes; if \
         there are none, the stream is cut or the offset is wrong)"
    );
}

/// FORMAT.md, "Patch lists": two values of 30 bits, 1 and 2, over a base of 10, with a patch field of
/// 40 bits and gaps of 1; then one value of 64 bits.
#[test]
fn patches_that_fit() {
    let run = |entries: &[&str]| format!("B4011C{:02X}0A0000000400000020{}", entries.len(), entries.concat());
    let read = |entries: &[&str], expected: &[i64]| {
        for sign in [Sign::Unsigned, Sign::Signed] {
            rows(&run(entries), sign, Kind::PatchedBase, 30, expected);
        }
    };
    read(&["010000000003"], &[11, 12 + 3 * (1 << 30)]);
    read(&["0103FFFFFFFF"], &[11, 12 - (1 << 30)]);
    read(&[], &[11, 12]);
    refused(&run(&["010400000000"]), Refusal::PatchTooLarge, None);
    // Out of place; out of place and too large; and too large, with the list cut after it.
    refused(&run(&["020000000003"]), Refusal::PatchOutOfPlace, None);
    refused(&run(&["020400000000"]), Refusal::PatchTooLarge, None);
    let cut = run(&["010400000000", "010000000003"]);
    refused(&cut[..cut.len() - 2], Refusal::ListCut, Some(13));
    rows("BE00000100000000000000000700", Sign::Unsigned, Kind::PatchedBase, 64, &[7]);
    refused("BE00000100000000000000000740", Refusal::PatchTooLarge, None);
    refused("BE00000100000000000000000780", Refusal::PatchOutOfPlace, None);
    rows("BE001E00000000000000000007", Sign::Unsigned, Kind::PatchedBase, 64, &[7]);
}

/// FORMAT.md, "Varints": ten bytes as the first row, and as the base delta after the row 7. The tenth is
/// judged before what is missing after it.
#[test]
fn tenth_bytes() {
    use Sign::*;
    const EIGHTIES: &str = "808080808080808080";
    const ALL_SET: &str = "FFFFFFFFFFFFFFFFFF";
    for (nine, tenth, first, second) in [
        (EIGHTIES, "00", 0, 7),
        (EIGHTIES, "01", i64::MIN, 7 + (1 << 62)),
        (ALL_SET, "00", i64::MAX, 7 - (1 << 62)),
        (ALL_SET, "01", -1, i64::MIN + 7),
    ] {
        rows(&format!("C000{nine}{tenth}00"), Unsigned, Kind::Delta, 0, &[first]);
        refused(&format!("C000{nine}{tenth}"), Refusal::VarintCut, Some(12));
        rows(&format!("C00107{nine}{tenth}"), Unsigned, Kind::Delta, 0, &[7, second]);
    }
    for nine in [EIGHTIES, ALL_SET] {
        for tenth in ["02", "7F", "80", "81", "FF"] {
            for behind in ["", "00", "80", "8001"] {
                refused(&format!("C000{nine}{tenth}{behind}"), Refusal::VarintTooLong, None);
                refused(&format!("C00107{nine}{tenth}{behind}"), Refusal::VarintTooLong, None);
                refused(&format!("C603{nine}{tenth}{behind}"), Refusal::VarintTooLong, None);
            }
        }
    }
    // Nine bytes say what they say.
    rows("C000FFFFFFFFFFFFFFFF7F00", Unsigned, Kind::Delta, 0, &[i64::MAX]);
}

/// 512 rows of 64 bits, a base of 8 bytes, 31 entries of 64 bits; and nothing after them is read.
#[test]
fn the_longest_run() {
    let mut run = bytes("BFFFFEFF");
    run.extend([0; 8 + 512 * 8]);
    // Patch width 56, gap width 8: the first at place 0, each other one place further.
    run.extend((0..31u64).flat_map(|entry| (u64::from(entry > 0) << 56).to_be_bytes()));
    assert_eq!(run.len(), MAX_RUN_BYTES);
    let mut places = [7777; MAX_ROWS];
    let read = read_run(&run, START, Sign::Signed, &mut places).unwrap().unwrap();
    assert_eq!((read.rows, read.bytes, places), (RowNumber(512), ByteOffset(MAX_RUN_BYTES), [0; 512]));
    let cut = read_run(&run[..MAX_RUN_BYTES - 1], START, Sign::Signed, &mut places).unwrap_err();
    assert_eq!((cut.refusal, cut.cut), (Refusal::ListCut, Some(ByteOffset(4108))));
}

#[test]
fn examples_of_the_specification() {
    use Kind::*;
    use Sign::*;
    rows("0A2710", Unsigned, ShortRepeat, 16, &[10_000; 5]);
    rows("5E035CA1AB1EDEADBEEF", Unsigned, Direct, 16, &[23_713, 43_806, 57_005, 48_879]);
    rows("C609020222424246", Unsigned, Delta, 4, &[2, 3, 5, 7, 11, 13, 17, 19, 23, 29]);
    let mut patched = vec![2030, 2000, 2020, 1_000_000];
    patched.extend((2040..=2190).step_by(10));
    rows("8E132B2107D01E00147028323C46505A646E78828C96A0AAB4BEFCE8", Unsigned, PatchedBase, 8, &patched);
}

#[test]
fn booleans_of_document_01() {
    let line = bytes("00FFFF00");
    let mut out = [77; 40];
    let run = read_booleans(&line, START, RowNumber(32), &mut out).unwrap();
    assert_eq!((run.kind, run.rows, run.bytes), (Kind::Booleans, RowNumber(32), ByteOffset(4)));
    assert_eq!(run.width, 1);
    assert_eq!((&out[..24], &out[24..32], &out[32..]), (&[1; 24][..], &[0; 8][..], &[77; 8][..]));
    let cases = [
        (0, 33, 40, Refusal::ValueCut, Some(ByteOffset(4))),
        (2, 9, 40, Refusal::ValueCut, Some(ByteOffset(4))),
        (3, 1, 40, Refusal::RowsCut, Some(ByteOffset(4))),
        (9, 1, 40, Refusal::ValueCut, Some(ByteOffset(9))),
        (0, 32, 31, Refusal::TooFewPlaces, None),
    ];
    for (at, n, places, refusal, cut) in cases {
        let mut out = [77; 40];
        let refused = read_booleans(&line, ByteOffset(at), RowNumber(n), &mut out[..places]).unwrap_err();
        assert_eq!((refused.refusal, refused.at, refused.cut), (refusal, Some(ByteOffset(at)), cut));
        assert_eq!(out, [77; 40]);
    }
}

/// FORMAT.md, "Stream reader": the last run read, of a whole stream and before a refused run.
#[test]
fn the_last_run_of_a_stream() {
    let stream = bytes("0A012CC0040A0446021230");
    let mut places = [7777; 16];
    let last = |end: usize, places: &mut [i64]| match read_stream(&stream[..end], START, Sign::Signed, places)
    {
        Ok(read) => read.last,
        Err(refused) => refused.before.last,
    };
    // Cut after no run, one, two and three, and inside the next.
    let ends = [(0, 0), (2, 0), (3, 1), (6, 1), (7, 2), (10, 2), (11, 3)];
    let runs = [(Kind::ShortRepeat, 16, 5, 3), (Kind::Delta, 0, 5, 4), (Kind::Direct, 4, 3, 4)];
    for (end, read) in ends {
        let last = last(end, &mut places).map(|run| (run.kind, run.width, run.rows.0, run.bytes.0));
        assert_eq!(last, runs[..read].last().copied(), "{end} bytes");
    }
    // The run that has no places is none that was read.
    assert_eq!(last(11, &mut places[..12]).map(|run| run.kind), Some(Kind::Delta));
    assert_eq!(last(11, &mut places[..4]), None);
}

#[test]
fn byte_values_are_parts_of_the_input() {
    let input = b"drumsvocals";
    let part = byte_value(input, ByteOffset(5), ByteOffset(6)).unwrap();
    assert_eq!(part.as_ptr_range(), input[5..].as_ptr_range());
    assert_eq!(byte_value(input, ByteOffset(11), ByteOffset(0)), Ok(&[][..]));
    assert_eq!(byte_value(input, ByteOffset(usize::MAX), ByteOffset(0)), Ok(&[][..]));
    for (at, n) in [(5, 7), (11, 1), (usize::MAX, 1), (1, usize::MAX)] {
        let refused = byte_value(input, ByteOffset(at), ByteOffset(n)).unwrap_err();
        assert_eq!((refused.refusal, refused.at), (Refusal::ValueCut, Some(ByteOffset(at))));
        assert_eq!(refused.cut, Some(ByteOffset(at)));
    }
}

#[test]
fn what_is_written_reads_back() {
    use Form::*;
    let written = |rows: &[i64], sign, form, width| {
        let mut out = [77; MAX_WRITTEN];
        write_run(rows, sign, form, width, &mut out)
            .map(|run| (run.kind, run.width, out[..run.bytes.0].to_vec()))
    };
    use Sign::*;
    assert_eq!(written(&[300; 5], Unsigned, ShortRepeat, 2), Ok((Kind::ShortRepeat, 16, bytes("0A012C"))));
    assert_eq!(written(&[-1, 1, -2], Signed, Direct, 3), Ok((Kind::Direct, 4, bytes("46021230"))));
    assert_eq!(written(&[10, 12, 14], Unsigned, FixedDelta, 0), Ok((Kind::Delta, 0, bytes("C0020A04"))));
    assert_eq!(
        written(&[100, 97, 96, 92], Unsigned, PackedDelta, 3),
        Ok((Kind::Delta, 4, bytes("C603640514")))
    );
    for (rows, form, width, refusal) in [
        (&[300; 2][..], ShortRepeat, 2, Refusal::RowCount),
        (&[300, 300, 301], ShortRepeat, 2, Refusal::NotTheForm),
        (&[300; 3], ShortRepeat, 9, Refusal::NotTheForm),
        (&[300; 3], ShortRepeat, 1, Refusal::TooNarrow),
        // A patched run wants a base, and an unknown form has none, whatever the rows and the width are.
        (&[300; 3], Patched, 4, Refusal::NotTheForm),
        (&[], Patched, 4, Refusal::NotTheForm),
        (&[300; 3], Unknown(5), 1, Refusal::NotTheForm),
        (&[300; 3], Unknown(u64::MAX), 1, Refusal::NotTheForm),
    ] {
        assert_eq!(written(rows, Unsigned, form, width).unwrap_err().refusal, refusal);
    }
    // The longest run.
    let longest: Vec<i64> = (0..512).map(|k| if k % 2 == 0 { i64::MIN } else { 0 }).collect();
    assert_eq!(written(&longest, Signed, PackedDelta, 31).map(|(_, _, bytes)| bytes.len()), Ok(4102));
    for (number, code) in [(0, 0), (1, 0), (2, 1), (4, 3), (255, 7), (256, 15), (1 << 24, 27), (u64::MAX, 31)]
    {
        assert_eq!(narrowest_code(number), code);
    }
}

#[test]
fn a_trailing_part_is_no_place() {
    let run = bytes("0001");
    for places in 0..40 {
        let mut out = vec![0xEE; places];
        let answer = read_run_bytes(&run, Sign::Unsigned, &mut out);
        if places < 24 {
            assert_eq!(answer, Err(Refusal::TooFewPlaces));
            assert!(out.iter().all(|byte| *byte == 0xEE));
        } else {
            let counts = answer.unwrap().unwrap();
            assert_eq!((counts.rows, counts.bytes), (RowNumber(3), ByteOffset(2)));
            assert_eq!(out[..24], [1, 0, 0, 0, 0, 0, 0, 0].repeat(3));
            assert!(out[24..].iter().all(|byte| *byte == 0xEE));
        }
    }
}

#[test]
fn the_one_number() {
    assert_eq!(unpack(0), Ok(None));
    for refusal in Refusal::ALL {
        assert_eq!(unpack(refusal.number()), Err(refusal));
    }
    let counts = unpack(65_536 * 4098 + 512).unwrap().unwrap();
    assert_eq!((counts.rows, counts.bytes), (RowNumber(512), ByteOffset(4098)));
    for none in [20, 65_535, 65_536, 65_536 + 513] {
        assert_eq!(unpack(none), Err(Refusal::Unknown(none)));
    }
}

/// Each has its number, and each text says what to do.
#[test]
fn refusals_by_their_numbers() {
    // 20 is of the program that adds up totals.
    let numbers = (1..=19).chain([21]);
    assert_eq!(numbers.clone().count(), Refusal::ALL.len());
    for (number, refusal) in numbers.zip(Refusal::ALL) {
        assert_eq!((refusal.number(), Refusal::of_number(number)), (number, refusal));
    }
    for none in [0, 20, 22, u64::MAX] {
        assert_eq!(Refusal::of_number(none), Refusal::Unknown(none));
    }
    // Those that more bytes may help, and those of them that name a field.
    for refusal in Refusal::ALL {
        assert_eq!(refusal.is_cut(), [1, 6, 12, 13, 14].contains(&refusal.number()), "{refusal}");
        assert_eq!(refusal.cut_field().is_some(), refusal.is_cut() && refusal.number() != 1, "{refusal}");
        assert_eq!(refusal.advice().contains("more bytes"), refusal.is_cut(), "{refusal}");
    }
    let told = read_run(&[0x46], START, Sign::Signed, &mut []).unwrap_err().to_string();
    assert_eq!(
        told,
        "at byte 0: refusal 1: the input ends inside the run's header (call again with more bytes; if there \
         are none, the stream is cut or the offset is wrong)"
    );
}
