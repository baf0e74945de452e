//! Files that are not the bytes of one stream are told apart from a stream that is cut.
mod running;

use running::{json, menakovitsy, scratch, BEFORE_THE_END, EVERY_KIND};

const ORC_FILE: &str = "the file begins with ORC, as whole ORC files do";
const CUT: &str = "bytes are missing at the end: fetch the file again";
const DAMAGED: &str = "no run begins like this: ";
const FIRST_RUN: &str = "the file ends inside its first run, so no row of it can be read";
const SALVAGE: &str = "menakovitsy salvage keeps the row groups that are still good";

/// What to do about some bytes, by each subcommand that says it, as one line each.
fn advice(name: &str, bytes: &[u8], options: &[&str]) -> String {
    let folder = scratch(name);
    let file = folder.holding("file", bytes);
    let with = |first: &[&str], last: &[&str]| menakovitsy(&[first, options, last].concat(), bytes);
    let line = |text: &str| {
        let (_, advice) = text.split_once("what to do: ").unwrap_or_else(|| panic!("{text}"));
        advice.split_whitespace().collect::<Vec<_>>().join(" ")
    };
    let said = line(&with(&["annotate", &file], &[]).output);
    assert_eq!(line(&with(&["annotate", "-"], &[]).output), said, "through a pipe");
    let values = with(&["values", &file], &[]);
    assert_eq!((values.status, line(&values.error)), (1, said.clone()));
    for subcommand in [&["annotate", &file][..], &["values", "-"]] {
        let objects = json::objects(&with(subcommand, &["--json"]).output);
        let last = objects.last().expect("a line");
        assert_eq!((last.kind(), last.get("advice")), ("refused", Some(said.as_str())));
    }
    if options.is_empty() {
        let convert = menakovitsy(&["convert", &file, "--out", &folder.path("new")], &[]);
        let wanted = format!("only a whole stream is converted. {}{}", said[..1].to_uppercase(), &said[1..]);
        assert_eq!((convert.status, line(&convert.error)), (1, wanted));
    }
    said
}

#[test]
fn an_orc_file() {
    // `O` and `R` are the header of 339 rows of 8 bits, so a longer file has a run before it is refused.
    let long = [&b"ORC"[..], &[0x0A; 338], &EVERY_KIND[124..]].concat();
    for bytes in [&b"ORC"[..], b"ORC\x0A\x01\x2C and more", &long] {
        let said = advice("an_orc_file", bytes, &[]);
        assert!(said.starts_with(ORC_FILE) && !said.contains("salvage"), "{said}");
    }
    // A stream may begin so and be whole: that is noted all the same.
    let whole = [&b"ORC"[..], &[0x0A; 338]].concat();
    let said = menakovitsy(&["annotate", "-"], &whole);
    assert_eq!(said.status, 0);
    assert!(said.output.contains(&format!("\n  note:       {}", &ORC_FILE[..30])), "{}", said.output);
    let said = menakovitsy(&["values", "--count", "2", "-"], &whole);
    assert_eq!((said.status, said.output.as_str()), (0, "67\n10\n"));
    assert!(said.error.starts_with("menakovitsy: note: the file begins with ORC"), "{}", said.error);
}

/// A chunk's header is three bytes, little-endian: twice the length, and 1 if the chunk is not compressed.
fn chunk(bytes: &[u8], original: bool) -> Vec<u8> {
    let header = (2 * bytes.len() as u32 + u32::from(original)).to_le_bytes();
    [&header[..3], bytes].concat()
}

#[test]
fn compressed_chunks() {
    let body: Vec<u8> = (0..700u32).map(|k| (k * k % 251) as u8).collect();
    for (count, bytes) in [
        (1, chunk(&body, false)),
        (1, chunk(EVERY_KIND, true)),
        (3, [chunk(&body, false), chunk(EVERY_KIND, true), chunk(&body[..300], false)].concat()),
    ] {
        let said = advice("compressed_chunks", &bytes, &[]);
        let many = if count == 1 { "1 chunk lead" } else { "3 chunks lead" };
        assert!(said.starts_with("this is a stream that is still compressed: "), "{said}");
        assert!(said.contains(many) && said.contains("Decompress the chunks"), "{said}");
        assert!(!said.contains("salvage"), "{said}");
    }
    // A first chunk that is inside the file, and more after it that is none: it may be one, and is cut, too.
    let said =
        advice("compressed_chunks", &[chunk(&[0x5E; 20], false), vec![0x7F, 0xFF, 0x01]].concat(), &[]);
    assert!(said.contains("its first three bytes would be the header of a chunk of 20 bytes"), "{said}");
}

/// Larger than what is held of a file at a time: the headers are followed in the file itself.
#[test]
fn many_chunks() {
    let body: Vec<u8> = (0..200_000u32).map(|k| (k % 251) as u8).collect();
    let bytes = chunk(&body, false).repeat(12);
    let folder = scratch("chunks");
    let said = menakovitsy(&["annotate", &folder.holding("file", &bytes)], &[]);
    assert_eq!(said.status, 1);
    assert!(said.output.contains("the headers of 12 chunks lead to its end"), "{}", said.output);
}

/// A stream that ends in its first run has no row to save.
#[test]
fn the_first_run() {
    for end in [1, 2, 5] {
        let said = advice("the_first_run", &EVERY_KIND[..end], &[]);
        assert!(said.starts_with(FIRST_RUN) && said.contains("--flags and --bytes"), "{said}");
        assert!(!said.contains("salvage"), "{said}");
    }
    let said = advice("the_first_run", &[0x80, 0x01, 0x02], &["--bytes"]);
    assert!(said.starts_with(FIRST_RUN) && said.contains("no stream of bytes"), "{said}");
}

/// One that is cut or damaged after some runs can be salvaged.
#[test]
fn cut_and_damaged() {
    for end in [7, 100, EVERY_KIND.len()] {
        let said = advice("cut_and_damaged", &EVERY_KIND[..end], &[]);
        assert!(said.starts_with(CUT) && said.ends_with(SALVAGE), "{said}");
    }
    for before in [0, BEFORE_THE_END] {
        let said = advice("cut_and_damaged", &[&EVERY_KIND[..before], &[0xC2, 0x00]].concat(), &[]);
        assert!(said.starts_with(DAMAGED) && said.ends_with(SALVAGE), "{said}");
    }
    // Flags have no row groups that salvage could keep.
    let said = advice("cut_and_damaged", &[0x00, 0xFF, 0x80, 0x01], &["--flags"]);
    assert!(said.starts_with(CUT) && !said.contains("salvage"), "{said}");
}
