//! `menakovitsy annotate` and `values` with `--flags` and `--bytes`, by running them.
mod running;

use running::{json, menakovitsy, scratch, Ran};

/// Three bytes FF; one 00; 1, 2 and 3; 130 times 0: by the rules of the specification, byte by byte.
const RUNS: [u8; 10] = [0x00, 0xFF, 0xFF, 0x00, 0xFD, 0x01, 0x02, 0x03, 0x7F, 0x00];

const FLAGS: &str = "      byte        row  kind         bits  rows bytes  values
         0          0  repeat          1    24     2  24 true
         2         24  literals        1     8     2  0 true
         4         32  literals        1    24     4  4 true
         8         56  repeat          1  1040     2  0 true

kind         bits       runs         rows        bytes
repeat          1          2         1064            4
literals        1          2           32            6
all                        4         1096           10

whole: 1096 rows in 4 runs, 10 bytes
";

const BYTES: &str = "      byte        row  kind         bits  rows bytes  values
         4          4  literals        8     3     4  1 to 3
         8          7  repeat          8   130     2  0

kind         bits       runs         rows        bytes
repeat          8          1          130            2
literals        8          1            3            4
all                        2          133            6

passed over, before row 5: 4 rows in 2 runs, 4 bytes

whole: 137 rows in 4 runs, 10 bytes
";

#[test]
fn the_lines() {
    let folder = scratch("byte-runs");
    let file = folder.holding("file", &RUNS);
    assert_eq!(menakovitsy(&["annotate", "--flags", &file], &[]), Ran::well(FLAGS));
    assert_eq!(menakovitsy(&["annotate", "--bytes", &file, "--from", "5"], &[]), Ran::well(BYTES));
    // Row 4 is the first of the run at byte 4.
    let from = BYTES.replace("before row 5", "before row 4");
    assert_eq!(menakovitsy(&["annotate", "--bytes", &file, "--from", "4"], &[]), Ran::well(&from));
    let signed = menakovitsy(&["annotate", "--bytes", "--signed", &file], &[]);
    assert!(signed.output.contains("  repeat          8     3     2  -1\n"), "{}", signed.output);
    assert_eq!(menakovitsy(&["annotate", "--flags", "-"], &[]), Ran::well("whole: the file is empty\n"));
}

/// The runs of some bytes, by the model: where each begins and what it stands for; and whether the last is cut.
fn runs(bytes: &[u8]) -> (Vec<(usize, Vec<u8>)>, bool) {
    let (mut runs, mut at) = (Vec::new(), 0);
    while let Some((values, taken)) = model::first_run(&bytes[at..]) {
        runs.push((at, values));
        at += taken;
    }
    (runs, at < bytes.len())
}

/// The lines, the end, the rows and the status are what the model says of the bytes.
fn held_to_the_model(bytes: &[u8]) {
    let (runs, cut) = runs(bytes);
    let said = menakovitsy(&["annotate", "--bytes", "--json", "-"], bytes);
    assert_eq!((said.status, said.error.as_str()), (i32::from(cut), ""));
    let objects = json::objects(&said.output);
    let mut lines = objects.iter();
    let mut first = 0;
    for (at, values) in &runs {
        let line = lines.next().expect("a line for each run");
        let kind = if bytes[*at] < 128 { "repeat" } else { "literals" };
        assert_eq!((line.kind(), line.get("kind")), ("run", Some(kind)));
        let (least, most) = (values.iter().min().unwrap(), values.iter().max().unwrap());
        let wanted =
            [*at, first, 8, values.len(), usize::from(*least), usize::from(*most)].map(|n| n as i128);
        let found = ["byte", "row", "bits", "rows", "smallest", "largest"].map(|name| line.number(name));
        assert_eq!(found, wanted);
        first += values.len();
    }
    let last = objects.last().expect("a last line");
    assert_eq!((last.kind(), last.number("rows")), (if cut { "refused" } else { "whole" }, first as i128));
    if cut {
        // Byte runs are refused with 13, and the cut is after the control byte.
        let at = last.number("byte");
        assert_eq!((last.number("refusal"), last.number("cut_byte")), (13, at + 1));
    }
    let rows: String = runs.iter().flat_map(|(_, values)| values).map(|value| format!("{value}\n")).collect();
    let values = menakovitsy(&["values", "--bytes", "-"], bytes);
    assert_eq!((values.status, values.output), (i32::from(cut), rows));
}

#[test]
fn every_cut() {
    for end in 0..=RUNS.len() {
        held_to_the_model(&RUNS[..end]);
    }
}

/// A run of every control byte.
fn every_control() -> Vec<u8> {
    let mut bytes = Vec::new();
    for control in 0..=255u8 {
        let count = if control < 128 { 1 } else { 256 - usize::from(control) };
        bytes.push(control);
        bytes.extend((0..count).map(|k| control.wrapping_mul(31).wrapping_add(k as u8)));
    }
    bytes
}

#[test]
fn every_control_byte() {
    held_to_the_model(&every_control());
}

/// A file of several windows, and rows from all parts of it.
#[test]
fn a_large_file() {
    let bytes = every_control().repeat(400);
    assert!(bytes.len() > 3 << 20);
    let rows: Vec<u8> = runs(&bytes).0.into_iter().flat_map(|(_, values)| values).collect();
    let folder = scratch("byte-runs-large");
    let file = folder.holding("file", &bytes);
    for from in [0, 1, 2, 130, rows.len() / 3, rows.len() / 2, rows.len() - 5] {
        let (row, flag) = (from.to_string(), (8 * from + 3).to_string());
        let said = menakovitsy(&["values", &file, "--bytes", "--from", &row, "--count", "200"], &[]);
        let end = rows.len().min(from + 200);
        let wanted: String = rows[from..end].iter().map(|value| format!("{value}\n")).collect();
        assert_eq!(said, Ran::well(&wanted), "from {from}");
        // Flags are the bits of the bytes, the highest first.
        let said = menakovitsy(&["values", &file, "--flags", "--from", &flag, "--count", "13"], &[]);
        let bits = rows[from..end].iter().flat_map(|byte| (0..8).rev().map(move |bit| byte >> bit & 1));
        let wanted: String = bits.skip(3).take(13).map(|bit| format!("{bit}\n")).collect();
        assert_eq!(said, Ran::well(&wanted), "from flag {flag}");
    }
    let said = menakovitsy(&["annotate", &file, "--bytes"], &[]);
    let (count, all) = (256 * 400, bytes.len());
    assert!(said.output.ends_with(&format!("whole: {} rows in {count} runs, {all} bytes\n", rows.len())));
}
