//! FORMAT.md, "Totals": totals over lines, and the count of ones. Lines written out by hand.
use model::*;

fn report(text: &str) -> String {
    let (totals, refusal) = Totals::default().over(text.as_bytes());
    totals.report(refusal)
}

/// A report with the lines that are not 0, in their order; the others are there with 0.
fn reports(text: &str, lines: &[&str]) {
    let mut report = String::new();
    let names = ["lines", "bad", "end"].map(String::from).into_iter();
    let refused = [1, 2, 3, 4, 5, 6, 7, 12, 13, 14].map(|number| format!("refused {number}"));
    let more =
        ["short", "direct", "patched", "delta", "rows", "smallest", "largest", "sum"].map(String::from);
    for name in names.chain(refused).chain(more) {
        let given = lines.iter().find(|line| line.rsplit_once(' ').expect("a value").0 == name);
        let zero = if ["smallest", "largest"].contains(&&name[..]) { "none" } else { "0" };
        report += &given.map_or(format!("{name} {zero}\n"), |line| format!("{line}\n"));
    }
    assert_eq!(self::report(text), report, "{text}");
}

#[test]
fn the_lines_of_document_01() {
    let text = "000A012C\n0046021230\n0086031F21\n01\nzz\n";
    let lines = [
        "lines 5",
        "bad 1",
        "end 1",
        "refused 2 1",
        "short 1",
        "direct 1",
        "rows 8",
        "smallest 1",
        "largest 300",
        "sum 1506",
    ];
    reports(text, &lines);
    // A final newline opens no further line; either letter case.
    reports(text.trim_end(), &lines);
    reports(&text.to_lowercase(), &lines);
    // The whole text, as the program writes it.
    let whole = "lines 5\nbad 1\nend 1\nrefused 1 0\nrefused 2 1\nrefused 3 0\nrefused 4 0\nrefused 5 0\n\
                 refused 6 0\nrefused 7 0\nrefused 12 0\nrefused 13 0\nrefused 14 0\nshort 1\ndirect 1\n\
                 patched 0\ndelta 0\nrows 8\nsmallest 1\nlargest 300\nsum 1506\n";
    assert_eq!(report(text), whole);
}

#[test]
fn no_lines_and_no_rows() {
    reports("", &[]);
    reports("\n", &["lines 1", "bad 1"]);
    reports("00\n01\n", &["lines 2", "end 2"]);
    reports("\n\n", &["lines 2", "bad 2"]);
    // Another flag, an odd number of digits, a carriage return, 8,802 characters.
    reports("02\n000\n00\r\n", &["lines 3", "bad 3"]);
    reports(&"00".repeat(4401), &["lines 1", "bad 1"]);
    // 8,800 characters: three rows 0, and bytes after the run that are not read.
    let lines = ["lines 1", "short 1", "rows 3", "smallest 0", "largest 0"];
    reports(&"00".repeat(4400), &lines);
}

#[test]
fn every_refusal_and_every_kind() {
    let text = "0040\n0086031F21\n00BE0000010000000000000000 0740\n00C200\n00C000808080808080808080 02\n\
                000A01\n00860303416412348A\n00C000\n004602\n0086030321641234\n\
                008603032164123494\n00C0040A04\n";
    let lines = [
        "lines 12",
        "refused 1 1",
        "refused 2 1",
        "refused 3 1",
        "refused 4 1",
        "refused 5 1",
        "refused 6 1",
        "refused 7 1",
        "refused 12 1",
        "refused 13 1",
        "refused 14 1",
        "patched 1",
        "delta 1",
        "rows 9",
        "smallest 10",
        "largest 183",
        "sum 560",
    ];
    reports(&text.replace(' ', ""), &lines);
}

#[test]
fn rows_by_the_line_s_flag_and_exact_sums() {
    // Five rows 150; three rows -1.
    let lines = ["lines 2", "short 2", "rows 8", "smallest -1", "largest 150", "sum 747"];
    reports("010A012C\n010001\n", &lines);
    // Three times the largest row, and three times the smallest.
    let text = "00387FFFFFFFFFFFFFFF\n";
    let largest = [
        "lines 1",
        "short 1",
        "rows 3",
        "smallest 9223372036854775807",
        "largest 9223372036854775807",
        "sum 27670116110564327421",
    ];
    reports(text, &largest);
    let smallest = [
        "lines 1",
        "short 1",
        "rows 3",
        "smallest -9223372036854775808",
        "largest -9223372036854775808",
        "sum -27670116110564327424",
    ];
    reports("0138FFFFFFFFFFFFFFFF\n", &smallest);
    let both = [
        "lines 2",
        "short 2",
        "rows 6",
        "smallest -9223372036854775808",
        "largest 9223372036854775807",
        "sum -3",
    ];
    reports("00387FFFFFFFFFFFFFFF\n0138FFFFFFFFFFFFFFFF\n", &both);
}

#[test]
fn two_inputs_combine() {
    let inputs = ["", "zz\n", "000A012C\n01\n", "0001\n010001\n0040\n", "00C0040A04\n0046\n"];
    for one in inputs {
        for other in inputs {
            let of = |text: &str| Totals::default().over(text.as_bytes()).0;
            assert_eq!(of(one).and(&of(other)), Some(of(&format!("{one}{other}"))), "{one:?} {other:?}");
        }
    }
}

#[test]
fn the_limits() {
    let twenty = Some(Refusal::whole(20, 0));
    // One line is left: it is read, whatever it is, and the next is not.
    let before = Totals { lines: MOST - 1, ..Totals::default() };
    for (text, lines, refusal) in
        [("zz\n", MOST, None), ("00\n", MOST, None), ("zz\nzz\n", MOST, twenty), ("", MOST - 1, None)]
    {
        let (totals, stopped) = before.clone().over(text.as_bytes());
        assert_eq!((totals.lines, stopped), (lines, refusal), "{text}");
    }
    // Five rows are left: a run of five is read, one of six is not, nor any line after it.
    let before = Totals { lines: 7, rows: MOST - 5, ..Totals::default() };
    let (totals, stopped) = before.clone().over(b"000A012C\n");
    assert_eq!((totals.lines, totals.rows, totals.sum, stopped), (8, MOST, 1500, None));
    let (totals, stopped) = before.clone().over(b"000B012C\n00\n");
    assert_eq!((&totals, stopped), (&before, twenty));
    assert!(totals.report(stopped).ends_with("sum 0\nrefused 20\n"));
    let (totals, stopped) = before.over(b"000A012C\n00\n000001\n00\n");
    assert_eq!((totals.lines, totals.rows, totals.end, stopped), (9, MOST, 1, twenty));
}

#[test]
fn ones() {
    for (bytes, n, ones) in [
        (&[][..], 0, 0),
        (&[0xFF], 0, 0),
        (&[0xFF], 8, 8),
        // Only the bits asked for, the highest first.
        (&[0x0F], 4, 0),
        (&[0x0F], 5, 1),
        (&[0xF0], 5, 4),
        (&[0x01, 0x80], 8, 1),
        (&[0x01, 0x80], 7, 0),
        (&[0x01, 0x80], 9, 2),
        (&[0xAA, 0xAA, 0xAA], 24, 12),
        (&[0xAA, 0xAA, 0xAA], 23, 12),
    ] {
        assert_eq!(count_true(bytes, n), Ones::True(ones), "{bytes:02X?} {n}");
    }
    for (bytes, n) in [(&[][..], 1), (&[0xFF], 9), (&[0; 3], 25), (&[0; 3], u64::MAX)] {
        assert_eq!(count_true(bytes, n), Ones::Refused(Refusal::cut(6, 0, 0)), "{n}");
    }
}
