//! The picture of `menakovitsy annotate --svg`, by running it.
mod running;

use std::fs;
use std::io::{BufRead, BufReader};
use std::process::{Command, Stdio};

use running::{menakovitsy, scratch, EVERY_KIND};

#[path = "../examples/uniform.rs"]
mod uniform;

/// Where the file is drawn.
const LEFT: f64 = 180.0;
const RIGHT: f64 = 1060.0;
const DIRECT: &str = "#0072b2";

/// A bar: its left edge, its width and height, in pixels, and its colour.
#[derive(Debug, Clone, PartialEq)]
struct Bar {
    x: f64,
    wide: f64,
    high: f64,
    fill: String,
}

/// The bars of a picture, without its frame and the squares beside the names.
fn bars(svg: &str) -> Vec<Bar> {
    let attribute = |line: &str, name: &str| {
        let (_, value) = line.split_once(&format!(" {name}=\"")).unwrap_or_else(|| panic!("{line}"));
        value.split_once('"').expect("a closing mark").0.to_string()
    };
    let number = |line: &str, name: &str| attribute(line, name).parse().expect("a number");
    let rects = svg.lines().filter(|line| line.starts_with("<rect x=") && !line.contains("damage"));
    rects
        .map(|line| Bar {
            x: number(line, "x"),
            wide: number(line, "width"),
            high: number(line, "height"),
            fill: attribute(line, "fill"),
        })
        .filter(|bar| bar.x >= LEFT)
        .collect()
}

/// The picture of some bytes.
fn picture(name: &str, bytes: &[u8], options: &[&str]) -> String {
    let folder = scratch(name);
    let (file, picture) = (folder.holding("file", bytes), folder.path("picture.svg"));
    let said = menakovitsy(&[&["annotate", &file, "--svg", &picture], options].concat(), &[]);
    assert!(said.status < 2 && said.error.is_empty(), "{said:?}");
    folder.text("picture.svg")
}

/// The picture of the sample: a bar for each run, the damage and the cut field.
#[test]
fn the_sample() {
    let svg = picture("a<b", EVERY_KIND, &[]);
    assert!(svg.starts_with("<svg ") && svg.ends_with("</svg>\n"));
    assert_eq!(svg.matches("<title>byte ").count(), 10);
    for part in [
        "a&lt;b",
        "<title>byte 87, row 92: patched base, 30 bits, 2 rows, 19 bytes</title>",
        ">refusal 14 at byte 124</text>",
        ">the patch list that begins at byte 150 is cut</text>",
        ">151 bytes; 10 runs, 96 rows; breaks off at byte 124</text>",
    ] {
        assert!(svg.contains(part), "{part}");
    }
}

/// Runs that come again and again in one order: one bar a kind, from the left to the right, at any size.
#[test]
fn a_uniform_file_looks_uniform() {
    let runs = uniform::runs();
    let long = [&[0x7F, 0xFF][..], &[0x11; 4096], &[0x5E, 0x03, 1, 2, 3, 4, 5, 6, 7, 8]].concat();
    for (name, bytes) in
        [("uniform-short", runs.repeat(1000)), ("uniform", runs.repeat(5000)), ("long", long.repeat(700))]
    {
        let svg = picture(name, &bytes, &[]);
        let bars = bars(&svg);
        let colours: Vec<&str> = bars.iter().map(|bar| bar.fill.as_str()).collect();
        let kinds = if name == "long" { vec![DIRECT] } else { vec!["#e69f00", DIRECT, "#a05195"] };
        assert_eq!(colours, kinds, "{name}: {bars:?}");
        assert!(bars.iter().all(|bar| (bar.x, bar.wide) == (LEFT, RIGHT - LEFT)), "{name}: {bars:?}");
        assert!(svg.len() < 6000, "{} bytes", svg.len());
    }
}

/// A file that changes: bars that end where it does, at whole pixels.
#[test]
fn a_change_is_seen() {
    let narrow = [&[0x4F, 0xFF][..], &[7; 512]].concat().repeat(2000);
    let wide = [&[0x7F, 0xFF][..], &[0x11; 4096]].concat().repeat(narrow.len() / 4098);
    let bars = bars(&picture("changes", &[narrow, wide].concat(), &[]));
    assert!(bars.iter().all(|bar| [bar.x, bar.wide, bar.high].iter().all(|pixels| pixels.fract() == 0.0)));
    let (first, last) = (bars.first().expect("a bar"), bars.last().expect("a bar"));
    assert_eq!((first.x, first.high, last.high), (LEFT, 8.0, 64.0), "{bars:?}");
    let middle = (LEFT + RIGHT) / 2.0;
    assert!((first.x + first.wide - middle).abs() < 30.0 && (last.x - middle).abs() < 30.0, "{bars:?}");
    assert_eq!(last.x + last.wide, RIGHT);
}

/// The same widths all along, and in the second half another kind beside them: the first is paler there.
#[test]
fn a_changed_part_is_seen() {
    let direct = [&[0x4F, 0xFF][..], &[7; 512]].concat();
    let repeats = [0x0A, 0x01, 0x2C].repeat(171);
    let both = [&direct[..], &repeats].concat();
    let bytes = [direct.repeat(4000), both.repeat(2000)].concat();
    let bars = bars(&picture("parts", &bytes, &[]));
    let direct: Vec<&Bar> = bars.iter().filter(|bar| bar.fill == DIRECT).collect();
    assert!(direct.len() > 1 && direct.iter().all(|bar| bar.high == 8.0), "{bars:?}");
    let middle = (LEFT + RIGHT) / 2.0;
    assert!((direct[0].x + direct[0].wide - middle).abs() < 10.0, "{bars:?}");
    let repeats = bars.iter().find(|bar| bar.fill != DIRECT).expect("a bar");
    assert!((repeats.x - middle).abs() < 10.0, "{bars:?}");
}

#[test]
fn numbers_and_edges() {
    let svg = picture("numbers", &uniform::runs().repeat(5000), &[]);
    for part in [
        ">9,245,000 bytes; 20,000 runs, 4,245,000 rows; read whole</text>",
        ">5,000 runs</text>",
        ">2,000,000</text>",
    ] {
        assert!(svg.contains(part), "{part}");
    }
    let root = svg.lines().next().expect("a line");
    assert!(root.starts_with("<svg ") && root.contains(" shape-rendering=\"crispEdges\">"), "{root}");
    // The byte and the row of a run, too.
    let svg = picture("titles", &EVERY_KIND[..6].repeat(300), &[]);
    assert!(svg.contains("<title>byte 1,794, row 9,568: delta, 0 bits, 32 rows, 6 bytes</title>"), "{svg}");
}

/// Flags and bytes have lanes of their own.
#[test]
fn byte_runs() {
    let bytes = [0x00, 0xFF, 0xFE, 0x01, 0x02, 0x7F, 0x00];
    for option in ["--flags", "--bytes"] {
        let svg = picture("bytes", &bytes, &[option]);
        assert_eq!((bars(&svg).len(), svg.matches(">repeat</text>").count()), (3, 1));
        assert_eq!((svg.matches(">literals</text>").count(), svg.matches(">direct</text>").count()), (1, 0));
    }
}

/// Whoever reads the lines may stop: the picture is written all the same, and is the same.
#[test]
fn a_closed_output() {
    let folder = scratch("head");
    let file = folder.holding("file", &uniform::runs().repeat(5000));
    let (all, cut) = (folder.path("all.svg"), folder.path("cut.svg"));
    assert_eq!(menakovitsy(&["annotate", &file, "--svg", &all], &[]).status, 0);
    for lines in [0, 3] {
        let _ = fs::remove_file(&cut);
        let mut child = Command::new(env!("CARGO_BIN_EXE_menakovitsy"))
            .args(["annotate", &file, "--svg", &cut])
            .stdout(Stdio::piped())
            .stderr(Stdio::piped())
            .spawn()
            .expect("the command can be started");
        let mut output = BufReader::new(child.stdout.take().expect("it is piped"));
        let mut read = String::new();
        (0..lines).for_each(|_| assert!(output.read_line(&mut read).expect("text") > 0));
        drop(output);
        let ended = child.wait_with_output().expect("the command ends");
        assert_eq!((ended.status.code(), ended.stderr.len()), (Some(0), 0));
        assert_eq!(folder.text("cut.svg"), folder.text("all.svg"));
    }
}

/// `-` is standard output, and the picture is all that goes there.
#[test]
fn on_standard_output() {
    let folder = scratch("dash");
    let (file, picture) = (folder.holding("file", EVERY_KIND), folder.path("picture.svg"));
    let said = menakovitsy(&["annotate", &file, "--svg=-"], &[]);
    assert_eq!(menakovitsy(&["annotate", &file, "--svg", &picture], &[]).status, 1);
    assert_eq!((said.status, said.output, said.error), (1, folder.text("picture.svg"), String::new()));
}

/// The pictures of the pages are what the command makes.
#[test]
fn the_pictures_of_the_pages() {
    let rust = concat!(env!("CARGO_MANIFEST_DIR"), "/..");
    let folder = scratch("pages");
    let runs = uniform::runs();
    folder.holding("uniform.rle", &runs.repeat(uniform::LENGTH.div_ceil(runs.len())));
    for (page, folder, file) in [
        ("uniform.svg", folder.path(""), "uniform.rle"),
        ("annotate.svg", rust.into(), "desk/sample/every-kind.rle"),
    ] {
        let ended = Command::new(env!("CARGO_BIN_EXE_menakovitsy"))
            .args(["annotate", file, "--svg", "-"])
            .current_dir(folder)
            .output()
            .expect("the command runs");
        let page = fs::read(format!("{rust}/../docs/{page}")).expect("the picture is there");
        assert!(ended.stdout == page, "{file}: make its picture anew, as examples/uniform.rs says");
    }
}
