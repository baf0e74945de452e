//! Lines 11 to 19 of the probe: lines and answers that were worked out by hand, held to what the model makes
//! of the lines; and byte runs that a writer may choose, or may not.
use std::collections::BTreeMap;

use differential::probe::Requests;
use differential::said::{said, Expected};
use differential::stages::{batches, lined_up, rescue};
use model::random::Random;
use model::{read_stream, Stream};

/// The lines with their answers. A field `#N` is a number of eight bytes.
fn by_hand() -> Vec<(String, &'static str)> {
    let line = |text: &str| -> String {
        let number = |digits: &str| format!("{:016x}", digits.parse::<i64>().expect("a number"));
        text.split(' ').map(|field| field.strip_prefix('#').map_or_else(|| field.into(), number)).collect()
    };
    let lines = include_str!("said.txt").lines().filter(|text| !text.is_empty() && !text.starts_with(';'));
    let split = |text: &'static str| text.split_once("->").expect("a line and its answer");
    lines.map(split).map(|(asked, answer)| (line(asked.trim()), answer.trim())).collect()
}

#[test]
fn lines_by_hand() {
    let lines = by_hand();
    assert!(lines.len() > 100);
    let wrong: String = lines
        .iter()
        .filter(|(line, answer)| !said(line).takes(answer) || !said(&line.to_lowercase()).takes(answer))
        .map(|(line, answer)| format!("{line}\n  by hand:   {answer}\n  the model: {}\n", said(line)))
        .collect();
    assert!(wrong.is_empty(), "{wrong}");
}

/// Any other answer is not taken: one with a mark at its end, another number, another case.
#[test]
fn other_answers() {
    for (line, answer) in by_hand() {
        for other in [format!("{answer} odd"), format!("{answer} touched"), format!("{answer}0"), "".into()] {
            assert!(!said(&line).takes(&other), "{line}: {other}");
        }
    }
}

/// A line without its last byte, or with a byte more, is bad unless its end is an input of any length.
#[test]
fn lines_of_another_length() {
    let bad = Expected::Text("bad line".into());
    for (line, answer) in by_hand().into_iter().filter(|(_, answer)| *answer != "bad line") {
        if ["15", "16"].contains(&&line[..2]) {
            assert_eq!(said(&line[..line.len() - 2]), bad, "{line} {answer}");
            assert_eq!(said(&format!("{line}00")), bad, "{line} {answer}");
        }
        assert_eq!(said(&line[..line.len() - 1]), bad, "{line} {answer}");
        assert_eq!(said(&format!("{line}0g")), bad, "{line} {answer}");
        assert_eq!(said(&format!(" {line}")), bad, "{line} {answer}");
        // The form of every line is longer than this.
        assert_eq!(said(&line[..4]), bad, "{line} {answer}");
    }
    // The longest line that is none too long has 32,765 bytes to write, and no place for them.
    assert_eq!(said(&format!("180000{}", "00".repeat(32_765))), Expected::Text("refused 8 0".into()));
    assert_eq!(said(&format!("180000{}", "00".repeat(32_766))), bad);
}

/// Where several choices of runs are of the fewest bytes, each of them is taken, and no longer one.
#[test]
fn runs_of_the_writers_choice() {
    // 7 5 5 5 8 as three runs, or as one of literals: six bytes.
    let five = said("1800060705050508");
    assert!(five.takes("written 5 6 ff070005ff08"));
    assert!(five.takes("written 5 6 fb0705050508"));
    for other in [
        "written 5 7 fe07050005ff08",
        "written 5 8 ff07ff05fe0505ff08",
        "written 5 6 FB0705050508",
        "written 5 6 fb0705050509",
        "written 6 6 fb0705050508",
        "written 5 5 fb0705050508",
        "written 5 6 fb07050505",
        "written 5 6",
        "written 5 6 fb0705050508 touched",
        "refused 8 0",
        "bad line",
    ] {
        assert!(!five.takes(other), "{other}");
    }
    assert_eq!(said("1800050705050508"), Expected::Text("refused 8 0".into()));
    // 132 equal bytes: 130 and two literals are a byte more than 129 and 3.
    let equal = said(&format!("180004{}", "05".repeat(132)));
    assert!(equal.takes("written 132 4 7e050005") && equal.takes("written 132 4 3f053f05"));
    assert!(!equal.takes("written 132 5 7f05fe0505"));
}

/// How many answers begin with each word, and with each number of a refusal.
fn kinds(lines: &Requests) -> BTreeMap<String, usize> {
    let mut kinds = BTreeMap::new();
    for (_, answer) in lines.lines() {
        let words = if answer.starts_with("refused") { 2 } else { 1 };
        let kind: Vec<&str> = answer.split(' ').take(words).collect();
        *kinds.entry(kind.join(" ")).or_default() += 1;
    }
    kinds
}

/// The lines that are made for the probe have every answer and every refusal, and none is bad by mistake.
#[test]
fn made_lines() {
    let all = [
        "end",
        "rows",
        "flags",
        "bytes",
        "spread",
        "labels",
        "written",
        "rescued",
        "refused 6",
        "refused 8",
        "refused 12",
        "refused 13",
        "refused 16",
        "refused 17",
        "refused 18",
        "refused 19",
        "refused 21",
    ];
    let mut random = Random::new(7);
    let mut any = Requests::default();
    for _ in 0..3_000 {
        batches::probe_line(&mut any, &mut random);
        lined_up::probe_line(&mut any, &mut random);
        lined_up::written_line(&mut any, &mut random);
        rescue::probe_line(&mut any, &mut random);
    }
    let mut fixed = Requests::default();
    batches::fixed_lines(&mut fixed);
    lined_up::fixed_lines(&mut fixed);
    lined_up::fixed_written(&mut fixed);
    rescue::fixed_lines(&mut fixed);
    for lines in [&any, &fixed] {
        let kinds = kinds(lines);
        assert!(all.iter().all(|kind| kinds.get(*kind).is_some_and(|count| *count > 5)), "{kinds:?}");
        assert!(lines.lines().all(|(line, answer)| said(line).takes(&answer)));
    }
    assert_eq!(kinds(&any).get("bad"), None);
}

/// Of a whole stream every group is kept, wherever it is cut and however its positions are said.
#[test]
fn whole_tables() {
    let mut random = Random::new(11);
    for _ in 0..500 {
        let table = rescue::table(&mut random);
        let Stream::Whole { rows, .. } = read_stream(&table.input, 0, table.flag == 1, usize::MAX) else {
            panic!("{table:?}");
        };
        let rows: String = rows.iter().map(|row| format!(" {row}")).collect();
        let kept = "1".repeat(table.columns[0].len());
        assert!(said(&table.line()).takes(&format!("rescued {kept}{rows}")), "{table:?}");
    }
}
