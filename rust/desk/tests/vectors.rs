//! `menakovitsy vectors`, by running it: the linked library is held to the files that it writes.
mod running;

use std::collections::BTreeMap;
use std::fs;
use std::os::unix::fs::symlink;
use std::path::Path;

use menakovitsy::{ByteOffset, Sign};
use running::{menakovitsy, scratch, Ran};

const FAMILIES: [&str; 4] = ["widths", "patches", "sums", "cuts"];

/// All files of a folder.
fn files(folder: &str) -> BTreeMap<String, Vec<u8>> {
    let name = |path: &Path| path.file_name().unwrap().to_str().unwrap().to_owned();
    let entries = fs::read_dir(folder).unwrap().map(|entry| entry.unwrap().path());
    entries.map(|path| (name(&path), fs::read(&path).unwrap())).collect()
}

fn bytes(line: &str) -> Vec<u8> {
    (0..line.len())
        .step_by(2)
        .map(|at| u8::from_str_radix(&line[at..at + 2], 16).expect("hexadecimal"))
        .collect()
}

/// The linked library's answer to a line.
fn answer(line: &str) -> String {
    let frame = bytes(line);
    let sign = if frame[0] == 0 { Sign::Unsigned } else { Sign::Signed };
    let mut rows = [0; 512];
    match menakovitsy::read_run(&frame[1..], ByteOffset(0), sign, &mut rows) {
        Ok(None) => "end".into(),
        Ok(Some(run)) => {
            let rows: String = rows[..run.rows.0].iter().map(|row| format!(" {row}")).collect();
            format!("run {} {}{rows}", run.rows.0, run.bytes.0)
        }
        Err(refused) => format!("refused {}", refused.refusal.number()),
    }
}

#[test]
fn the_files() {
    let folder = scratch("vectors");
    let out = folder.path("new");
    let said = menakovitsy(&["vectors", "--out", &out], &[]);
    assert_eq!((said.status, said.error.as_str()), (0, ""), "{}", said.output);
    let written = files(&out);
    let mut names: Vec<String> =
        FAMILIES.iter().flat_map(|name| [format!("{name}.expected"), format!("{name}.in")]).collect();
    names.push("README.txt".into());
    names.sort();
    assert_eq!(written.keys().cloned().collect::<Vec<_>>(), names);
    for name in FAMILIES {
        let [input, expected] =
            ["in", "expected"].map(|end| std::str::from_utf8(&written[&format!("{name}.{end}")]).unwrap());
        assert_eq!(input.lines().count(), expected.lines().count(), "{name}");
        for (number, (line, expected)) in input.lines().zip(expected.lines()).enumerate() {
            assert!(answer(line) == expected, "{name}, line {}: {line} must be {expected}", number + 1);
        }
        let lines = format!("{name:<8} {:>6} lines: ", input.lines().count());
        assert!(said.output.contains(&lines), "{lines} in {}", said.output);
        // README.txt has the number of the last line, too.
        let text = std::str::from_utf8(&written["README.txt"]).unwrap();
        assert!(text.contains(&format!(" to {}: ", input.lines().count())), "{name}: {text}");
    }
    // Once more, over what was there, a file altered and another missing: the same bytes, and nothing beside them.
    fs::write(folder.path("new/cuts.in"), "old").unwrap();
    fs::remove_file(folder.path("new/sums.in")).unwrap();
    assert_eq!(menakovitsy(&["vectors", "--out", &out], &[]), said);
    assert!(files(&out) == written, "other bytes at the second call");
}

/// Nothing in a folder that is another's is touched.
#[test]
fn folders_of_others() {
    let folder = scratch("vectors-others");
    fs::create_dir(folder.path("link")).unwrap();
    for (name, what) in
        [("notes", "my notes"), ("readme/README.txt", "my page"), ("in/widths.in", "my lines")]
    {
        if let Some((inner, _)) = name.split_once('/') {
            fs::create_dir(folder.path(inner)).unwrap();
        }
        folder.holding(name, what.as_bytes());
    }
    symlink(folder.path("notes"), folder.path("link/sums.in")).unwrap();
    for (out, what) in [
        ("", " holds "),
        ("readme", " holds files, but not the README.txt of an earlier call"),
        ("in", " holds files, but not the README.txt of an earlier call"),
        ("link", " holds sums.in, which is not a file of an earlier call"),
        ("notes", " is not a folder"),
    ] {
        let said = menakovitsy(&["vectors", "--out", &folder.path(out)], &[]);
        assert_eq!((said.status, said.output.as_str()), (2, ""), "{out}");
        assert!(said.error.contains(what), "{}", said.error);
        assert!(said.error.contains("nothing is written: name a new or an empty folder"), "{}", said.error);
    }
    assert_eq!(
        ["notes", "readme/README.txt", "in/widths.in"].map(|name| folder.text(name)),
        ["my notes", "my page", "my lines"]
    );
    assert_eq!(files(&folder.path("link")).len() + files(&folder.path("in")).len(), 2);
}

#[test]
fn how_it_is_called() {
    let folder = scratch("vectors-usage");
    let said = menakovitsy(&["vectors", "--help"], &[]);
    assert_eq!((said.status, said.error.as_str()), (0, ""));
    assert!(said.output.starts_with("usage: menakovitsy vectors --out FOLDER\n"), "{}", said.output);
    for (arguments, what) in [
        (&["vectors"][..], "option --out is missing"),
        (&["vectors", "--out", "-"], "option --out needs a folder, and not standard output"),
        (&["vectors", "--out", &folder.path("a"), "b"], "b"),
        (&["vectors", "--out", &folder.path("a"), "--signed"], "--signed"),
        (&["vectors", "--out", &folder.path("missing/a")], "missing/a cannot be written: "),
    ] {
        let Ran { status, output, error } = menakovitsy(arguments, &[]);
        assert_eq!((status, output.as_str(), error.lines().count()), (2, "", 1), "{arguments:?}: {error}");
        assert!(error.contains(what), "{arguments:?}: {error}");
    }
    assert_eq!(files(&folder.path("")).len(), 0);
}
