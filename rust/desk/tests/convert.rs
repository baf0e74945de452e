//! `menakovitsy convert`, by running it.
mod running;

use std::fs;

use running::{fields, menakovitsy, scratch, Ran, EVERY_KIND};

#[path = "../examples/widths.rs"]
mod widths;

/// The sample, as it stands in the repository, and what it is converted to.
const BEFORE: &[u8] = include_bytes!("../sample/every-width.rle");
const AFTER: &[u8] = include_bytes!("../sample/every-width.converted.rle");

#[test]
fn the_sample() {
    assert_eq!(BEFORE, widths::bytes(), "sample/every-width.rle is what examples/widths.rs writes");
    let model::Converted::Written { altered, bytes } = model::convert(BEFORE, false, usize::MAX) else {
        panic!("the sample is whole");
    };
    assert_eq!(
        (altered, &bytes[..]),
        (43, AFTER),
        "sample/every-width.converted.rle is what the model writes"
    );
    let folder = scratch("convert");
    let (file, new) = (folder.holding("file", BEFORE), folder.path("new"));
    let said = menakovitsy(&["convert", &file, "--out", &new], &[]);
    let line = format!("altered 43 runs: {} bytes before, {} after\n", BEFORE.len(), AFTER.len());
    let line = line.replace(" after", " bytes after");
    assert_eq!(said, Ran { status: 0, output: line, error: String::new() });
    assert_eq!(fs::read(&new).unwrap(), AFTER);
    // The input stays, and nothing stands beside; once more, over what was there, nothing is altered.
    assert_eq!(
        (fs::read(&file).unwrap(), fs::read_dir(folder.path("")).unwrap().count()),
        (BEFORE.to_vec(), 2)
    );
    let said = menakovitsy(&["convert", "-", "--signed", "--out", &new], AFTER);
    let line = format!("altered 0 runs: {0} bytes before, {0} bytes after\n", AFTER.len());
    assert_eq!(said, Ran { status: 0, output: line, error: String::new() });
    assert_eq!(fs::read(&new).unwrap(), AFTER);
}

/// By `annotate`: as many runs, of the same kinds and rows, and of no odd width but a patched one.
#[test]
fn annotated() {
    let lines = |bytes: &[u8]| -> Vec<Vec<String>> {
        let said = menakovitsy(&["annotate", "-"], bytes);
        assert_eq!(said.status, 0);
        said.output.lines().skip(1).take_while(|line| !line.is_empty()).map(fields).collect()
    };
    let (before, after) = (lines(BEFORE), lines(AFTER));
    assert_eq!((before.len(), after.len()), (67, 67));
    for (before, after) in before.iter().zip(&after) {
        // Byte, row, kind, bits, rows, bytes, values.
        assert_eq!((&before[1..3], &before[4], &before[6..]), (&after[1..3], &after[4], &after[6..]));
        let kept =
            ["0", "1", "2", "4", "8", "16", "24", "32", "40", "48", "56", "64"].contains(&after[3].as_str());
        assert!(kept || after[2] == "patched-base", "{after:?}");
    }
}

#[test]
fn refused_and_unwritable() {
    let folder = scratch("convert-refused");
    let (file, new) = (folder.holding("file", EVERY_KIND), folder.holding("new", b"old"));
    let said = menakovitsy(&["convert", &file, "--out", &new], &[]);
    assert_eq!((said.status, said.output.as_str()), (1, ""));
    let told =
        "menakovitsy: breaks off at byte 124: refusal 14: the patch list that begins at byte 150 is cut; \
                nothing is written\nwhat to do: ";
    assert!(said.error.starts_with(told), "{}", said.error);
    assert_eq!(folder.text("new"), "old");
    let said = menakovitsy(&["convert", &file, "--out", &folder.path("./file")], &[]);
    assert_eq!(said.status, 2);
    assert!(
        said.error.starts_with("menakovitsy: the new stream would be written over IN ("),
        "{}",
        said.error
    );
    for (input, out, what) in [
        ("missing", "new", "missing cannot be read: "),
        ("whole", "missing/new", "missing/new cannot be written: "),
    ] {
        folder.holding("whole", BEFORE);
        let said = menakovitsy(&["convert", &folder.path(input), "--out", &folder.path(out)], &[]);
        assert_eq!((said.status, said.output.as_str()), (2, ""));
        assert!(said.error.contains(what), "{}", said.error);
    }
    assert_eq!(fs::read(&file).unwrap(), EVERY_KIND);
}
