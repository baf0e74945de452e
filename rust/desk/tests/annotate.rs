//! `menakovitsy annotate`, by running it.
mod running;

use running::{fields, menakovitsy, scratch, Ran, BEFORE_THE_END, EVERY_KIND};

/// What it says of the sample, checked by hand against the bytes of `examples/sample.rs`.
const SAID: &str = "      byte        row  kind         bits  rows bytes  values
         0          0  delta           0    32     6  0 to 683550
         6         32  short repeat   16     5     3  300
         9         37  short repeat    8    10     2  42
        11         47  direct         16     4    10  23713 to 57005
        21         51  direct          4     3     4  1 to 3
        25         54  direct         24     8    26  44100 to 352800
        51         62  patched base    8    20    28  2000 to 1000000
        79         82  delta           4    10     8  2 to 29
        87         92  patched base   30     2    19  11 to 3221225484
       106         94  direct         64     2    18  1 to 9223372036854775807

kind         bits       runs         rows        bytes
short repeat    8          1           10            2
short repeat   16          1            5            3
direct          4          1            3            4
direct         16          1            4           10
direct         24          1            8           26
direct         64          1            2           18
patched base    8          1           20           28
patched base   30          1            2           19
delta           0          1           32            6
delta           4          1           10            8
all                       10           96          124

breaks off at byte 124, where row 96 would begin
  refusal 14: the patch list that begins at byte 150 is cut
  before it:  96 rows in 10 runs, 124 bytes, all read
  from it on: 27 of 151 bytes, not read
  what to do: bytes are missing at the end: fetch the file again, and compare its length. If the
              length is right, a byte is damaged, in this run or in a length before it, and claims
              more than there is. If there is no good copy, menakovitsy salvage keeps the row groups
              that are still good
";

#[test]
fn the_sample() {
    let bytes = running::sample::bytes();
    assert_eq!(bytes, EVERY_KIND, "sample/every-kind.rle is what examples/sample.rs writes");
    let folder = scratch("sample");
    let file = folder.holding("every-kind.rle", &bytes);
    assert_eq!(menakovitsy(&["annotate", &file], &[]), Ran::refused(SAID));
    // Before its damaged end it is whole; the flag changes rows.
    let file = folder.holding("whole.rle", &bytes[..BEFORE_THE_END]);
    let whole = menakovitsy(&["annotate", "--signed", &file], &[]);
    assert_eq!((whole.status, whole.error.as_str()), (0, ""));
    assert!(whole.output.ends_with("\nwhole: 96 rows in 10 runs, 124 bytes\n"), "{}", whole.output);
    assert!(whole.output.contains(" direct          4     3     4  -2 to 1\n"), "{}", whole.output);
}

#[test]
fn standard_input() {
    assert_eq!(menakovitsy(&["annotate", "-"], EVERY_KIND), Ran::refused(SAID));
    let empty = menakovitsy(&["annotate", "-"], &[]);
    assert_eq!(empty, Ran { status: 0, output: "whole: the file is empty\n".into(), error: String::new() });
    // What is after a refusal is counted, and no more of it is held than a window.
    let long = [&[0xC2, 0x00][..], &vec![0x55; 3_000_000]].concat();
    let said = menakovitsy(&["annotate", "-"], &long);
    assert_eq!(said.status, 1);
    assert!(said.output.starts_with("breaks off at byte 0, where row 0 would begin\n  refusal 4: "));
    assert!(said.output.contains("\n  from it on: 3000002 of 3000002 bytes, not read\n"), "{}", said.output);
}

#[test]
fn an_empty_file() {
    let folder = scratch("empty");
    let (file, picture) = (folder.holding("empty", &[]), folder.path("empty.svg"));
    let said = menakovitsy(&["annotate", &file, "--svg", &picture], &[]);
    assert_eq!(said, Ran { status: 0, output: "whole: the file is empty\n".into(), error: String::new() });
    assert!(folder.text("empty.svg").contains(">0 bytes; 0 runs, 0 rows; read whole</text>"));
}

/// Every kind, cut at every byte: the runs that are left and what breaks off are the model's.
#[test]
fn every_cut() {
    let folder = scratch("cuts");
    for end in 0..=EVERY_KIND.len() {
        held_to_the_model(
            &menakovitsy(&["annotate", &folder.holding("cut", &EVERY_KIND[..end])], &[]),
            &EVERY_KIND[..end],
        );
    }
}

#[test]
fn a_damaged_end() {
    let folder = scratch("damaged");
    let whole = &EVERY_KIND[..BEFORE_THE_END];
    // No run begins like these: a delta with one row and a width, a patch entry of 65 bits, a varint that
    // goes on after its tenth byte, one that says too much there, a patch outside the run.
    let ends: [(&[u8], u8); 5] = [
        (&[0xC2, 0x00], 4),
        (&[0x86, 0x03, 0x1F, 0x21], 2),
        (&[0xC0, 0x04, 0xFF, 0xFF, 0xFF, 0xFF, 0xFF, 0xFF, 0xFF, 0xFF, 0xFF, 0xFF, 0x00], 5),
        (&[0xC0, 0x04, 0xFF, 0xFF, 0xFF, 0xFF, 0xFF, 0xFF, 0xFF, 0xFF, 0xFF, 0x7F, 0x00], 5),
        (&[0x86, 0x03, 0x03, 0x41, 0x64, 0x12, 0x34, 0x8A], 7),
    ];
    for (end, number) in ends {
        let bytes = [whole, end, whole].concat();
        let said = menakovitsy(&["annotate", &folder.holding("damaged", &bytes)], &[]);
        held_to_the_model(&said, &bytes);
        assert!(said.output.contains(&format!("\n  refusal {number}: ")), "{}", said.output);
        assert!(said.output.contains("\n  what to do: no run begins like this: "), "{}", said.output);
        assert!(!said.output.contains(" is cut"), "{}", said.output);
    }
}

/// Runs of every length up to the longest, so that the windows end inside many of them.
#[test]
fn a_file_larger_than_the_window() {
    let mut longest = vec![0xBF, 0xFF, 0xFE, 0xFF];
    longest.extend([7; 8 + 512 * 8]);
    longest.extend((0..31u64).flat_map(|entry| (u64::from(entry > 0) << 56).to_be_bytes()));
    let direct = [&[0x7F, 0xFF][..], &[0x11; 4096]].concat();
    let mut bytes = Vec::new();
    for k in 0..750 {
        bytes.extend(if k % 3 == 0 { &direct } else { &longest });
        bytes.extend(&EVERY_KIND[..if k % 5 == 0 { BEFORE_THE_END } else { 6 + k % 2 * 3 }]);
    }
    assert!(bytes.len() > 3 << 20);
    let folder = scratch("large");
    held_to_the_model(&menakovitsy(&["annotate", &folder.holding("large", &bytes)], &[]), &bytes);
    // Through a pipe, with its last byte cut; and with a picture of it, in which runs are no longer apart.
    bytes.pop();
    let picture = folder.path("large.svg");
    let said = menakovitsy(&["annotate", "-", "--svg", &picture], &bytes);
    held_to_the_model(&said, &bytes);
    let svg = folder.text("large.svg");
    assert!(svg.contains("<title>") && svg.contains(">a bar: the mean width"), "{}", svg.len());
    assert!(svg.len() < 100_000, "{} bytes", svg.len());
}

/// The lines, the end and the status are what the model says of the bytes.
fn held_to_the_model(said: &Ran, bytes: &[u8]) {
    let mut lines = said.output.lines().skip(1);
    let (mut at, mut first, mut refused) = (0, 0, None);
    loop {
        match model::read_run(bytes, at, false, 512) {
            model::Answer::End => break,
            model::Answer::Refused(refusal) => {
                refused = Some(refusal);
                break;
            }
            model::Answer::Run(run) => {
                let line = lines.next().unwrap_or_default();
                assert_eq!(fields(line), running::expected(at, first, &run), "{line}");
                at += run.consumed;
                first += run.rows.len();
            }
        }
    }
    assert_eq!((said.status, said.error.as_str()), (i32::from(refused.is_some()), ""));
    let Some(refusal) = refused else {
        return assert!(said.output.lines().last().is_some_and(|line| line.starts_with("whole: ")));
    };
    let broke_off =
        format!("breaks off at byte {at}, where row {first} would begin\n  refusal {}: ", refusal.number);
    assert!(said.output.contains(&broke_off), "{}", said.output);
    let cut = refusal.cut.map(|byte| format!(" that begins at byte {byte} is cut\n"));
    assert!(cut.is_none_or(|cut| said.output.contains(&cut)), "{}", said.output);
    let left = format!("  from it on: {} of {} bytes, not read\n", bytes.len() - at, bytes.len());
    assert!(said.output.contains(&left), "{}", said.output);
}
