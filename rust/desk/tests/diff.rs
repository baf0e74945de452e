//! `menakovitsy diff`, by running it.
mod running;

use running::{json, menakovitsy, scratch, Ran, Scratch, BEFORE_THE_END, EVERY_KIND};

/// The sample without its damaged end: runs begin at bytes 0, 6, 9, 11, 21, 25, 51, 79, 87 and 106.
const WHOLE: &[u8] = EVERY_KIND.split_at(BEFORE_THE_END).0;

/// What is said of two files, their names left out.
fn diff(folder: &Scratch, a: &[u8], b: &[u8], options: &[&str]) -> Ran {
    let (one, other) = (folder.holding("a", a), folder.holding("b", b));
    let mut said = menakovitsy(&[&["diff", &one, &other], options].concat(), &[]);
    said.output = said.output.replace(&one, "A").replace(&other, "B");
    said
}

#[test]
fn equal_files() {
    let folder = scratch("diff-equal");
    let equal = "equal: 96 rows in 10 runs, 124 bytes\n";
    assert_eq!(diff(&folder, WHOLE, WHOLE, &[]), Ran::well(equal));
    assert_eq!(diff(&folder, WHOLE, WHOLE, &["--signed", "--rows"]), Ran::well(equal));
    assert_eq!(menakovitsy(&["diff", "-", &folder.path("a")], WHOLE), Ran::well(equal));
    assert_eq!(menakovitsy(&["diff", &folder.path("a"), "-"], WHOLE), Ran::well(equal));
    assert_eq!(diff(&folder, &[], &[], &[]), Ran::well("equal: 0 rows in 0 runs, 0 bytes\n"));
    let object = "{\"type\":\"equal\",\"runs\":10,\"rows\":96,\"bytes\":124}\n";
    assert_eq!(diff(&folder, WHOLE, WHOLE, &["--json"]), Ran::well(object));
}

/// A byte of a direct run: the third row of four, 0xDEAD, is 0xDEAC.
#[test]
fn one_row() {
    let folder = scratch("diff-row");
    let mut other = WHOLE.to_vec();
    assert_eq!(other[17..19], [0xDE, 0xAD]);
    other[18] -= 1;
    let said = "first run that differs: run 3
  A  byte 11, row 47: direct, 4 rows of 16 bits, 10 bytes
  B  byte 11, row 47: direct, 4 rows of 16 bits, 10 bytes
first row that differs: row 49
  A  57005, in the run at byte 11
  B  57004, in the run at byte 11
";
    assert_eq!(diff(&folder, WHOLE, &other, &[]), Ran::refused(said));
    // With a sign: zigzag of 57005 and of 57004.
    let signed = diff(&folder, WHOLE, &other, &["--signed", "--rows"]);
    let said = "first row that differs: row 49
  A  -28503, in the run at byte 11
  B  28502, in the run at byte 11
";
    assert_eq!(signed, Ran::refused(said));
    let objects = json::objects(&diff(&folder, WHOLE, &other, &["--json"]).output);
    assert_eq!(objects.iter().map(json::Object::kind).collect::<Vec<_>>(), ["run_differs", "row_differs"]);
    let found = ["run", "a_byte", "b_row", "a_bits", "b_rows", "a_bytes"].map(|name| objects[0].number(name));
    assert_eq!((found, objects[0].get("a_kind")), ([3, 11, 47, 16, 4, 10], Some("direct")));
    let found = ["row", "a_byte", "a_value", "b_byte", "b_value"].map(|name| objects[1].number(name));
    assert_eq!(found, [49, 11, 57005, 11, 57004]);
}

/// The same rows in other runs.
#[test]
fn other_runs() {
    let folder = scratch("diff-runs");
    let before = include_bytes!("../sample/every-width.rle");
    let after = include_bytes!("../sample/every-width.converted.rle");
    let said = "first run that differs: run 6
  A  byte 39, row 38: direct, 8 rows of 3 bits, 5 bytes
  B  byte 39, row 38: direct, 8 rows of 4 bits, 6 bytes
rows: all 580 are equal
";
    assert_eq!(diff(&folder, before, after, &[]), Ran::refused(said));
    assert_eq!(diff(&folder, before, after, &["--rows"]), Ran::well("rows: all 580 are equal\n"));
    // Five times 300 as one run; as a run of three and one of two; and the sixth row differs.
    let one = [0x0A, 0x01, 0x2C, 0x46, 0x02, 0x12, 0x30];
    let two = [0x08, 0x01, 0x2C, 0x5E, 0x01, 0x01, 0x2C, 0x01, 0x2C, 0x46, 0x02, 0x22, 0x30];
    let said = "first run that differs: run 0
  A  byte 0, row 0: short repeat, 5 rows of 16 bits, 3 bytes
  B  byte 0, row 0: short repeat, 3 rows of 16 bits, 3 bytes
first row that differs: row 5
  A  1, in the run at byte 3
  B  2, in the run at byte 9
";
    assert_eq!(diff(&folder, &one, &two, &[]), Ran::refused(said));
}

#[test]
fn one_ends_before_the_other() {
    let folder = scratch("diff-end");
    let said = "first run that differs: run 8
  A  byte 87, row 92: patched base, 2 rows of 30 bits, 19 bytes
  B  has ended: 92 rows in 8 runs, 87 bytes
first row that differs: row 92
  A  11, in the run at byte 87
  B  has ended: 92 rows in 8 runs, 87 bytes
";
    assert_eq!(diff(&folder, WHOLE, &WHOLE[..87], &[]), Ran::refused(said));
    let objects = json::objects(&diff(&folder, &WHOLE[..87], WHOLE, &["--json"]).output);
    assert_eq!((objects[0].number("a_end"), objects[1].number("a_end")), (87, 87));
    assert_eq!((objects[1].number("row"), objects[1].number("b_value")), (92, 11));
}

/// A refused file is no equal one, even of itself.
#[test]
fn refused_files() {
    let folder = scratch("diff-refused");
    let said = diff(&folder, EVERY_KIND, WHOLE, &[]);
    let begin = "first run that differs: run 10
  A  breaks off at byte 124: refusal 14: the patch list that begins at byte 150 is cut
    what to do: bytes are missing at the end: ";
    assert!(said.status == 1 && said.output.starts_with(begin), "{}", said.output);
    let end = "  B  has ended: 96 rows in 10 runs, 124 bytes
first row that differs: row 96
  A  breaks off at byte 124: refusal 14: the patch list that begins at byte 150 is cut
  B  has ended: 96 rows in 10 runs, 124 bytes
";
    assert!(said.output.ends_with(end), "{}", said.output);
    let said = diff(&folder, EVERY_KIND, EVERY_KIND, &[]);
    assert!(
        said.status == 1
            && said.output.starts_with("both break off after 96 rows in 10 runs, 124 bytes, which")
    );
    let said = diff(&folder, EVERY_KIND, EVERY_KIND, &["--rows"]);
    assert!(
        said.status == 1
            && said.output.starts_with("rows: the first 96 are equal, and then both break off\n")
    );
    assert_eq!(said.output.matches("what to do: ").count(), 2);
    // The same rows in other runs, and then both break off: what to do is said of each, once.
    let (a, b) = ([0x0A, 0x01, 0x2C, 0xC2, 0x00], [0x5E, 0x04, 1, 44, 1, 44, 1, 44, 1, 44, 1, 44, 0x0A]);
    let said = diff(&folder, &a, &b, &[]);
    let begin = "first run that differs: run 0
  A  byte 0, row 0: short repeat, 5 rows of 16 bits, 3 bytes
  B  byte 0, row 0: direct, 5 rows of 16 bits, 12 bytes
rows: the first 5 are equal, and then both break off
  A  breaks off at byte 3: refusal 4: ";
    assert!(said.status == 1 && said.output.starts_with(begin), "{}", said.output);
    assert_eq!(said.output.matches("what to do: ").count(), 2);
    assert!(said.output.contains("  B  breaks off at byte 12: refusal 6: "), "{}", said.output);
    let objects = json::objects(&diff(&folder, EVERY_KIND, WHOLE, &["--json"]).output);
    assert_eq!((objects[1].number("a_refused"), objects[1].number("b_end")), (14, 124));
    let missing = menakovitsy(&["diff", &folder.path("a"), &folder.path("missing")], &[]);
    assert_eq!((missing.status, missing.output.as_str()), (2, ""));
}

/// Files of several windows, one row apart near the end, in runs of other lengths.
#[test]
fn large_files() {
    let folder = scratch("diff-large");
    let long = [&[0x7F, 0xFF][..], &[0x11; 4096]].concat();
    // The same rows, in two runs each.
    let half = [&[0x7E, 0xFF][..], &[0x11; 2048]].concat();
    let (a, mut b) = (long.repeat(800), half.repeat(1600));
    assert_eq!(diff(&folder, &a, &b, &["--rows"]), Ran::well("rows: all 409600 are equal\n"));
    // The last byte of row 300,000: 256 rows a run of 2,050 bytes.
    let at = 300_000 / 256 * 2050 + 2 + 300_000 % 256 * 8 + 7;
    b[at] = 0x12;
    let said = diff(&folder, &a, &b, &["--rows"]);
    assert_eq!(said.status, 1);
    let row = 0x1111_1111_1111_1111_i64;
    let [in_a, in_b] = [300_000 / 512 * 4098, 300_000 / 256 * 2050];
    let wanted = format!(
        "first row that differs: row 300000\n  A  {row}, in the run at byte {in_a}\n  B  {}, in the run at byte {in_b}\n",
        row + 1
    );
    assert_eq!(said.output, wanted);
}

#[test]
fn byte_runs() {
    let folder = scratch("diff-bytes");
    // Three bytes FF as a repeat and as literals; then another byte.
    let (a, b) = ([0x00, 0xFF, 0xFF, 0x01], [0xFC, 0xFF, 0xFF, 0xFF, 0x01]);
    assert_eq!(diff(&folder, &a, &b, &["--bytes", "--rows"]), Ran::well("rows: all 4 are equal\n"));
    let said = diff(&folder, &a, &[0xFC, 0xFF, 0xFF, 0xFF, 0x09], &["--flags", "--rows"]);
    let wanted =
        "first row that differs: row 28\n  A  0, in the run at byte 2\n  B  1, in the run at byte 0\n";
    assert_eq!(said, Ran::refused(wanted));
}
