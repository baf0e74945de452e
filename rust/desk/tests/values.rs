//! `menakovitsy values`, by running it.
mod running;

use running::{json, menakovitsy, scratch, Ran, BEFORE_THE_END, EVERY_KIND};

/// The rows of some bytes, by the model.
fn rows(bytes: &[u8], signed: bool) -> Vec<i64> {
    match model::read_stream(bytes, 0, signed, usize::MAX) {
        model::Stream::Whole { rows, .. } => rows,
        refused => panic!("{refused:?}"),
    }
}

fn lines(rows: &[i64]) -> String {
    rows.iter().map(|row| format!("{row}\n")).collect()
}

#[test]
fn all_rows() {
    let folder = scratch("values");
    let whole = &EVERY_KIND[..BEFORE_THE_END];
    let file = folder.holding("file", whole);
    for signed in [false, true] {
        let option: &[&str] = if signed { &["--signed"] } else { &[] };
        let wanted = lines(&rows(whole, signed));
        assert_eq!(menakovitsy(&[&["values", &file], option].concat(), &[]), Ran::well(&wanted));
        assert_eq!(menakovitsy(&[&["values", "-"], option].concat(), whole), Ran::well(&wanted));
    }
    assert_eq!(menakovitsy(&["values", "-"], &[]), Ran::well(""));
}

#[test]
fn some_rows() {
    let folder = scratch("values-some");
    let whole = &EVERY_KIND[..BEFORE_THE_END];
    let file = folder.holding("file", whole);
    let rows = rows(whole, false);
    for from in [0, 1, 31, 32, 60, 95] {
        for count in [0, 1, 5, 40, 1000] {
            let wanted = lines(&rows[from..rows.len().min(from + count)]);
            let (from, count) = (from.to_string(), count.to_string());
            let said = menakovitsy(&["values", &file, "--from", &from, "--count", &count], &[]);
            assert_eq!(said, Ran::well(&wanted), "{count} from {from}");
        }
    }
    for from in ["96", "18446744073709551615"] {
        let said = menakovitsy(&["values", &file, "--from", from], &[]);
        assert_eq!((said.status, said.output.as_str()), (1, ""));
        let told =
            format!("menakovitsy: refusal 16: there is no such row: {file} has 96 rows, counted from 0\n");
        assert_eq!(said.error, told);
        let said = menakovitsy(&["values", &file, "--from", from, "--json"], &[]);
        let objects = json::objects(&said.output);
        assert_eq!((said.status, objects.len(), objects[0].kind()), (1, 1, "refused"));
        assert_eq!((objects[0].number("refusal"), objects[0].number("rows")), (16, 96));
    }
}

/// Rows before the damage are written, and rows that end before it are all well.
#[test]
fn a_damaged_end() {
    let wanted = lines(&rows(&EVERY_KIND[..BEFORE_THE_END], false));
    let said = menakovitsy(&["values", "-"], EVERY_KIND);
    assert_eq!((said.status, said.output), (1, wanted.clone()));
    let told = "menakovitsy: standard input breaks off at byte 124, after 96 rows\n  refusal 14: the patch list that \
                begins at byte 150 is cut\n  what to do: ";
    assert!(said.error.starts_with(told), "{}", said.error);
    assert_eq!(menakovitsy(&["values", "-", "--count", "96"], EVERY_KIND), Ran::well(&wanted));
}

#[test]
fn json_lines() {
    let whole = &EVERY_KIND[..BEFORE_THE_END];
    let said = menakovitsy(&["values", "-", "--json"], whole);
    assert_eq!((said.status, said.error.as_str()), (0, ""));
    let objects = json::objects(&said.output);
    assert_eq!(objects.len(), 96);
    for ((number, row), object) in rows(whole, false).iter().enumerate().zip(&objects) {
        assert_eq!((object.kind(), object.number("row")), ("row", number as i128));
        assert_eq!(object.number("value"), i128::from(*row));
        // A row that doubles do not hold stands as text, too.
        let text = (row.unsigned_abs() > 1 << 53).then(|| row.to_string());
        assert_eq!(object.get("value_text"), text.as_deref());
    }
    assert!(said.output.ends_with(
        "{\"type\":\"row\",\"row\":95,\"value\":9223372036854775807,\"value_text\":\"9223372036854775807\"}\n"
    ));
}
