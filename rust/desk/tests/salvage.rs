//! `menakovitsy salvage`, by running it.
mod running;

use std::fs;

use running::{menakovitsy, scratch, Ran, Scratch};

#[path = "../examples/groups.rs"]
mod groups;

/// The sample, as it stands in the repository.
const DAMAGED: &[u8] = include_bytes!("../sample/damaged.rle");
const GROUPS: &str = include_str!("../sample/damaged.groups");

/// The report of the sample, or of one with another damaged group, or none.
fn report(replaced: Option<usize>) -> String {
    let word = |group| if Some(group) == replaced { "replaced" } else { "kept" };
    (0..20).map(|group| format!("{} {group} 25\n", word(group))).collect()
}

/// Salvages some bytes by the sample's groups into `new`.
fn salvaged(folder: &Scratch, bytes: &[u8], fill: &str) -> Ran {
    let (stream, groups) = (folder.holding("stream", bytes), folder.holding("groups", GROUPS.as_bytes()));
    menakovitsy(&["salvage", &stream, "--groups", &groups, "--fill", fill, "--out", &folder.path("new")], &[])
}

fn rows(bytes: &[u8]) -> Vec<i64> {
    match model::read_stream(bytes, 0, false, usize::MAX) {
        model::Stream::Whole { rows, .. } => rows,
        refused => panic!("{refused:?}"),
    }
}

#[test]
fn the_sample() {
    let (damaged, listed) = groups::damaged();
    assert_eq!(
        (DAMAGED, GROUPS),
        (&damaged[..], groups::lines(&listed).as_str()),
        "as examples/groups.rs writes them"
    );
    let folder = scratch("salvage");
    let said = salvaged(&folder, DAMAGED, "-1");
    // Standard output has exactly a line a group; what it comes to is said beside it.
    let last = "rows: 475 kept, 25 lost\n";
    assert_eq!(said, Ran { status: 0, output: report(Some(groups::DAMAGED)), error: last.into() });
    let (whole, new) = (rows(&groups::sample().0), rows(&fs::read(folder.path("new")).unwrap()));
    assert_eq!((new.len(), &new[..175], &new[200..]), (500, &whole[..175], &whole[200..]));
    assert_eq!(new[175..200], [-1; 25]);
    // The damaged stream stays as it was, and nothing stands beside the new one.
    assert_eq!(fs::read(folder.path("stream")).unwrap(), DAMAGED);
    assert_eq!(fs::read_dir(folder.path("")).unwrap().count(), 3);
    // A whole stream comes out byte for byte, over an older file, too; and from standard input.
    let said = salvaged(&folder, &groups::sample().0, "7");
    assert_eq!(said, Ran { status: 0, output: report(None), error: "rows: 500 kept, 0 lost\n".into() });
    assert_eq!(fs::read(folder.path("new")).unwrap(), groups::sample().0);
    let arguments =
        ["salvage", "-", "--groups", &folder.path("groups"), "--fill", "7", "--out", &folder.path("new")];
    assert_eq!(menakovitsy(&arguments, DAMAGED).output, report(Some(groups::DAMAGED)));
}

/// Bytes all along the sample damaged: the result reads whole with the listed rows, and a group that is
/// replaced held the damaged byte. (The wrapper's test damages every byte, by every value.)
#[test]
fn damaged_bytes() {
    let (column, listed) = groups::sample();
    let folder = scratch("salvage-every");
    let mut replaced = 0;
    for at in (0..column.len()).step_by(3) {
        let holder = listed.iter().rposition(|(start, _)| *start <= at).unwrap();
        let mut damaged = column.clone();
        damaged[at] ^= 1 << (at % 8) | 0x40;
        let said = salvaged(&folder, &damaged, "0");
        let may = [report(None), report(Some(holder))];
        assert!(may.contains(&said.output), "byte {at}: {}", said.output);
        let lost = said.output == may[1];
        replaced += usize::from(lost);
        let last = if lost { "rows: 475 kept, 25 lost\n" } else { "rows: 500 kept, 0 lost\n" };
        assert_eq!((said.status, said.error.as_str()), (0, last));
        assert_eq!(rows(&fs::read(folder.path("new")).unwrap()).len(), 500);
    }
    assert!(replaced > 15, "{replaced} of {} damages are seen", column.len());
}

/// The new starts, which are elsewhere after a group that was replaced: the new stream is good by them.
#[test]
fn new_starts() {
    let folder = scratch("salvage-starts");
    let (stream, groups) = (folder.holding("stream", DAMAGED), folder.holding("groups", GROUPS.as_bytes()));
    let (new, starts) = (folder.path("new"), folder.path("starts"));
    let arguments = ["salvage", &stream, "--groups", &groups, "--fill", "7", "--out", &new];
    let said = menakovitsy(&[&arguments[..], &["--new-positions", &starts]].concat(), &[]);
    assert_eq!((said.status, said.output), (0, report(Some(groups::DAMAGED))));
    // A group of 77 bytes became a fixed delta of four.
    let (_, listed) = groups::sample();
    let end = listed[groups::DAMAGED + 1].0;
    let moved = |(start, rows): &(usize, usize)| (if *start < end { *start } else { start - 77 + 4 }, *rows);
    assert_eq!(end - listed[groups::DAMAGED].0, 77);
    assert_eq!(folder.text("starts"), groups::lines(&listed.iter().map(moved).collect::<Vec<_>>()));
    let arguments = ["salvage", &new, "--groups", &starts, "--fill", "7", "--out", &folder.path("again")];
    assert_eq!(menakovitsy(&arguments, &[]).output, report(None));
    assert_eq!(fs::read(folder.path("again")).unwrap(), fs::read(new).unwrap());
}

#[test]
fn refusals_say_what_to_do() {
    let folder = scratch("salvage-refused");
    let stream = folder.holding("stream", DAMAGED);
    let length = DAMAGED.len();
    folder.holding("new", b"old");
    for (lines, number, advice) in [
        ("1 25\n".into(), 17, format!("none may be above {length}, ")),
        ("0 25\n0 25\n".into(), 17, "rise from line to line".into()),
        (format!("0 25\n{} 25\n", length + 1), 17, "compare the groups with the file's index".into()),
        (String::new(), 17, "must begin at 0".into()),
        (format!("0 {}\n", u64::MAX), 8, "a count of theirs is wrong".into()),
    ] {
        let groups = folder.holding("groups", lines.as_bytes());
        let new = folder.path("new");
        let said = menakovitsy(&["salvage", &stream, "--groups", &groups, "--fill", "7", "--out", &new], &[]);
        assert_eq!((said.status, said.output.as_str()), (1, ""), "{lines:?}");
        assert!(said.error.starts_with(&format!("menakovitsy: refusal {number}: ")), "{}", said.error);
        assert!(said.error.contains("; nothing is written\nwhat to do: "), "{}", said.error);
        assert!(said.error.contains(&advice), "{}", said.error);
        assert_eq!(folder.text("new"), "old");
    }
    assert_eq!(fs::read_dir(folder.path("")).unwrap().count(), 3);
}

#[test]
fn what_it_does_not_write_over() {
    let folder = scratch("salvage-over");
    let (stream, groups) = (folder.holding("stream", DAMAGED), folder.holding("groups", GROUPS.as_bytes()));
    fs::hard_link(&stream, folder.path("link")).unwrap();
    for (out, what) in
        [("stream", "STREAM"), ("./stream", "STREAM"), ("link", "STREAM"), ("groups", "the groups")]
    {
        let out = folder.path(out);
        let said = menakovitsy(&["salvage", &stream, "--groups", &groups, "--fill", "7", "--out", &out], &[]);
        assert_eq!((said.status, said.output.as_str()), (2, ""));
        let told = format!("menakovitsy: the new stream would be written over {what} (");
        assert!(said.error.starts_with(&told), "{}", said.error);
    }
    assert_eq!((fs::read(&stream).unwrap(), folder.text("groups")), (DAMAGED.to_vec(), GROUPS.into()));
}

#[test]
fn files_that_cannot_be_read_or_written() {
    let folder = scratch("salvage-files");
    let (stream, groups) = (folder.holding("stream", DAMAGED), folder.holding("groups", GROUPS.as_bytes()));
    let run = |stream: &str, groups: &str, out: &str| {
        let said = menakovitsy(&["salvage", stream, "--groups", groups, "--fill", "7", "--out", out], &[]);
        assert_eq!((said.status, said.output.as_str()), (2, ""));
        said.error
    };
    let (missing, new) = (folder.path("missing"), folder.path("new"));
    assert!(run(&missing, &groups, &new).starts_with(&format!("menakovitsy: {missing} cannot be read: ")));
    assert!(run(&stream, &missing, &new).starts_with(&format!("menakovitsy: {missing} cannot be read: ")));
    for nowhere in [folder.path("missing/new"), folder.path("")] {
        let said = run(&stream, &groups, &nowhere);
        assert!(said.starts_with(&format!("menakovitsy: {nowhere} cannot be written: ")), "{said}");
    }
    for (lines, line) in [("0 25\n\n26\n", 3), ("0 25 7\n", 1), ("0 x\n", 1), ("0 -1\n", 1)] {
        let groups = folder.holding("wrong", lines.as_bytes());
        let told = format!(
            "menakovitsy: {groups}, line {line}: two numbers are wanted, a group's start and its rows\n"
        );
        assert_eq!(run(&stream, &groups, &new), told);
    }
    assert_eq!(fs::read_dir(folder.path("")).unwrap().count(), 3);
}
