//! `menakovitsy annotate --from ROW`, by running it.
mod running;

use running::{expected, fields, menakovitsy, scratch, Ran, BEFORE_THE_END, EVERY_KIND};

/// What it says of the sample from row 60 on, checked by hand against what it says of all.
const SAID: &str = "      byte        row  kind         bits  rows bytes  values
        25         54  direct         24     8    26  44100 to 352800
        51         62  patched base    8    20    28  2000 to 1000000
        79         82  delta           4    10     8  2 to 29
        87         92  patched base   30     2    19  11 to 3221225484
       106         94  direct         64     2    18  1 to 9223372036854775807

kind         bits       runs         rows        bytes
direct         24          1            8           26
direct         64          1            2           18
patched base    8          1           20           28
patched base   30          1            2           19
delta           4          1           10            8
all                        5           42           99

passed over, before row 60: 54 rows in 5 runs, 25 bytes

whole: 96 rows in 10 runs, 124 bytes
";

/// The runs of some bytes, by the model: where each begins, its first row, and itself.
fn runs(bytes: &[u8]) -> Vec<(usize, usize, model::Run)> {
    let (mut runs, mut at, mut first) = (Vec::new(), 0, 0);
    while let model::Answer::Run(run) = model::read_run(bytes, at, false, 512) {
        let (bytes, rows) = (run.consumed, run.rows.len());
        runs.push((at, first, run));
        at += bytes;
        first += rows;
    }
    runs
}

/// The lines are those of the runs from the one that holds the row on.
fn held_to_the_model(said: &Ran, bytes: &[u8], from: usize) {
    let shown: Vec<_> =
        runs(bytes).into_iter().filter(|(_, first, run)| first + run.rows.len() > from).collect();
    let lines: Vec<&str> = said.output.lines().skip(1).take(shown.len()).collect();
    assert_eq!(lines.len(), shown.len(), "{}", said.output);
    for ((at, first, run), line) in shown.iter().zip(lines) {
        assert_eq!(fields(line), expected(*at, *first, run), "from {from}");
    }
}

#[test]
fn the_sample() {
    let folder = scratch("from");
    let whole = folder.holding("whole.rle", &EVERY_KIND[..BEFORE_THE_END]);
    let said = menakovitsy(&["annotate", &whole, "--from", "60"], &[]);
    assert_eq!(said, Ran { status: 0, output: SAID.into(), error: String::new() });
    // From row 0 on, it is as without.
    assert_eq!(
        menakovitsy(&["annotate", &whole, "--from", "0"], &[]),
        menakovitsy(&["annotate", &whole], &[])
    );
    for from in 0..96 {
        let said = menakovitsy(&["annotate", &whole, "--from", &from.to_string()], &[]);
        held_to_the_model(&said, &EVERY_KIND[..BEFORE_THE_END], from);
        assert_eq!((said.status, said.error.as_str()), (0, ""));
    }
    for from in ["96", "97", "18446744073709551615"] {
        let said = menakovitsy(&["annotate", &whole, "--from", from], &[]);
        assert_eq!((said.status, said.error.as_str()), (1, ""));
        let end =
            "refusal 16: there is no such row\n  the file is whole: 96 rows in 10 runs, 124 bytes\n  what \
                   to do: start at a row from 0 to 95\n";
        assert!(said.output.ends_with(end), "{}", said.output);
    }
    let said = menakovitsy(&["annotate", "-", "--from", "1"], &[]);
    let empty =
        "refusal 16: there is no such row\n  what to do: the file is empty: there is no row to start at\n";
    assert_eq!(said, Ran::refused(empty));
}

/// A damaged file is shown from the row on as far as it goes.
#[test]
fn a_damaged_end() {
    let said = menakovitsy(&["annotate", "-", "--from", "95"], EVERY_KIND);
    held_to_the_model(&said, EVERY_KIND, 95);
    assert_eq!(said.status, 1);
    assert!(said.output.contains("\n  refusal 14: the patch list that begins at byte 150 is cut\n"));
    assert!(said.output.contains("\n  before it:  96 rows in 10 runs, 124 bytes, all read or passed over\n"));
    // The row that is asked for is after the damage.
    let said = menakovitsy(&["annotate", "-", "--from", "96"], EVERY_KIND);
    assert_eq!(said.status, 1);
    assert!(said.output.contains("breaks off at byte 124, where row 96 would begin\n"), "{}", said.output);
    assert!(said.output.contains("\n  row 96: not among them\n"), "{}", said.output);
}

/// A file of several windows, whose ends are inside runs.
#[test]
fn a_file_larger_than_the_window() {
    let direct = [&[0x7F, 0xFF][..], &[0x11; 4096]].concat();
    let mut bytes = Vec::new();
    for k in 0..700 {
        bytes.extend(&direct);
        bytes.extend(&EVERY_KIND[..if k % 5 == 0 { BEFORE_THE_END } else { 6 + k % 2 * 3 }]);
    }
    assert!(bytes.len() > 5 << 19);
    let rows: usize = runs(&bytes).iter().map(|(_, _, run)| run.rows.len()).sum();
    let folder = scratch("from-large");
    let file = folder.holding("large", &bytes);
    for from in [1, 511, 512, rows / 3, rows / 2, rows - 513, rows - 1] {
        let said = menakovitsy(&["annotate", &file, "--from", &from.to_string()], &[]);
        held_to_the_model(&said, &bytes, from);
        assert_eq!((said.status, said.error.as_str()), (0, ""));
        assert!(said.output.ends_with(&format!(
            "whole: {rows} rows in {} runs, {} bytes\n",
            runs(&bytes).len(),
            bytes.len()
        )));
    }
    let said = menakovitsy(&["annotate", &file, "--from", &rows.to_string()], &[]);
    assert_eq!(said.status, 1);
}

#[test]
fn a_row_that_is_no_number() {
    for (value, what) in [
        ("ninety", "option --from needs a number, 0 or more, and not ninety ("),
        ("-1", "option --from needs a number"),
    ] {
        let said = menakovitsy(&["annotate", "a", "--from", value], &[]);
        assert_eq!((said.status, said.output.as_str()), (2, ""));
        assert!(said.error.starts_with(&format!("menakovitsy: {what}")), "{}", said.error);
    }
}
