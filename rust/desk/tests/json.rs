//! `menakovitsy annotate --json`, by running it: the same as the text says.
mod running;

use running::{fields, json, menakovitsy, scratch, BEFORE_THE_END, EVERY_KIND};

/// What is said of the sample as text and as JSON lines.
fn both(options: &[&str], bytes: &[u8]) -> (Vec<Vec<String>>, Vec<json::Object>) {
    let arguments = [&["annotate", "-"], options].concat();
    let (text, lines) =
        (menakovitsy(&arguments, bytes), menakovitsy(&[&arguments[..], &["--json"]].concat(), bytes));
    assert_eq!((text.status, &text.error), (lines.status, &lines.error));
    (text.output.lines().map(fields).collect(), json::objects(&lines.output))
}

#[test]
fn runs_and_counts_are_those_of_the_text() {
    let (text, objects) = both(&[], EVERY_KIND);
    let kinds: Vec<&str> = objects.iter().map(json::Object::kind).collect();
    assert_eq!(kinds, [&["run"; 10][..], &["count"; 10], &["refused"]].concat());
    for (line, object) in text[1..].iter().zip(&objects[..10]) {
        let found = ["byte", "row", "kind", "bits", "rows", "bytes", "smallest"].map(|name| object.get(name));
        let kind = object.get("kind").unwrap().replace(' ', "-");
        let found = found.map(|value| value.unwrap().replace(' ', "-"));
        assert_eq!((found.to_vec(), kind), (line[..7].to_vec(), line[2].clone()));
        assert_eq!(object.get("largest"), line.get(8).or(line.get(6)).map(String::as_str));
    }
    // Ten runs, an empty line, a head.
    for (line, object) in text[13..].iter().zip(&objects[10..20]) {
        let found =
            ["kind", "bits", "runs", "rows", "bytes"].map(|name| object.get(name).unwrap().replace(' ', "-"));
        assert_eq!(found.to_vec(), *line);
    }
    let last = &objects[20];
    let found = ["refusal", "byte", "row", "cut_byte", "runs", "rows", "bytes", "length"]
        .map(|name| last.number(name));
    assert_eq!(found, [14, 124, 96, 150, 10, 96, 124, 151]);
    assert_eq!(last.get("meaning"), Some("the patch list that begins at byte 150 is cut"));
}

#[test]
fn ends() {
    let whole = &EVERY_KIND[..BEFORE_THE_END];
    let (_, objects) = both(&["--from", "60"], whole);
    let passed = &objects[objects.len() - 2];
    assert_eq!(passed.kind(), "passed");
    assert_eq!(["before_row", "runs", "rows", "bytes"].map(|name| passed.number(name)), [60, 5, 54, 25]);
    let last = objects.last().unwrap();
    assert_eq!(last.kind(), "whole");
    assert_eq!(["runs", "rows", "bytes"].map(|name| last.number(name)), [10, 96, 124]);
    let (_, objects) = both(&["--from=96"], whole);
    let last = objects.last().unwrap();
    assert_eq!((last.kind(), last.number("refusal"), last.number("row")), ("refused", 16, 96));
    let (_, objects) = both(&[], &[]);
    assert_eq!((objects.len(), objects[0].kind(), objects[0].number("rows")), (1, "whole", 0));
}

/// Rows that doubles do not hold stand as text, too.
#[test]
fn wide_rows() {
    let (_, objects) = both(&[], &EVERY_KIND[..BEFORE_THE_END]);
    let last = &objects[9];
    assert_eq!((last.number("smallest"), last.get("smallest_text")), (1, None));
    assert_eq!(last.number("largest"), i128::from(i64::MAX));
    assert_eq!(last.get("largest_text"), Some("9223372036854775807"));
}

#[test]
fn convert_refused() {
    let said = menakovitsy(&["convert", "-", "--json", "--out", "no-such-folder/new"], EVERY_KIND);
    let objects = json::objects(&said.output);
    assert_eq!((said.status, said.error.as_str(), objects.len()), (1, "", 1));
    assert_eq!(
        ["refusal", "byte", "cut_byte", "length"].map(|name| objects[0].number(name)),
        [14, 124, 150, 151]
    );
}

/// The sample of salvage: group 7 of 20 is damaged.
#[test]
fn salvage() {
    let folder = scratch("json-salvage");
    let stream = folder.holding("stream", include_bytes!("../sample/damaged.rle"));
    let groups = folder.holding("groups", include_bytes!("../sample/damaged.groups"));
    let arguments = ["salvage", &stream, "--fill=7", "--out", &folder.path("new"), "--json"];
    let said = menakovitsy(&[&arguments[..], &["--groups", &groups]].concat(), &[]);
    assert_eq!((said.status, said.error.as_str()), (0, ""));
    let objects = json::objects(&said.output);
    assert_eq!(objects.len(), 21);
    for (number, object) in objects[..20].iter().enumerate() {
        let became = if number == 7 { "replaced" } else { "kept" };
        assert_eq!((object.kind(), object.get("became")), ("group", Some(became)));
        assert_eq!((object.number("group"), object.number("rows")), (number as i128, 25));
    }
    assert_eq!((objects[20].kind(), objects[20].get("note")), ("salvaged", None));
    let found = ["kept_rows", "lost_rows", "replaced_groups"].map(|name| objects[20].number(name));
    assert_eq!(found, [475, 25, 1]);
    let wrong = folder.holding("wrong", b"1 25\n");
    let said = menakovitsy(&[&arguments[..], &["--groups", &wrong]].concat(), &[]);
    let objects = json::objects(&said.output);
    assert_eq!((said.status, said.error.as_str(), objects.len()), (1, "", 1));
    assert_eq!((objects[0].kind(), objects[0].number("refusal")), ("refused", 17));
    assert!(objects[0].get("advice").is_some_and(|advice| advice.starts_with("the starts must begin at 0")));
}
