//! `menakovitsy salvage --positions`, by running it; and what `--groups` says of groups that begin inside runs.
mod indexed;
mod running;

use std::fs;
use std::process::Command;

use indexed::{lines, patterned, positions, rows, runs, written, Listed};
use running::{menakovitsy, scratch, Ran, Scratch};

#[path = "../examples/groups.rs"]
mod groups;

/// Three groups of 10,000 rows, as the Apache writers make them.
const ROWS: usize = 30_000;
const GROUP: usize = 10_000;

/// What stands for a row that is lost.
const FILL: i64 = 424_242;

/// A column of 30,000 rows, and its groups. All but the first begin inside a run.
fn column() -> (Vec<u8>, Vec<Listed>) {
    let bytes = written(&patterned(ROWS as i64));
    let groups = positions(&bytes, GROUP);
    assert_eq!(groups.len(), 3);
    assert!(groups[1..].iter().all(|[_, skip, _]| *skip > 0), "{groups:?}");
    (bytes, groups)
}

/// Salvages a stream by a list: the new stream is `new`, and its groups are `new-list`.
fn salvaged(folder: &Scratch, option: &str, bytes: &[u8], list: &str) -> Ran {
    let (stream, list) = (folder.holding("stream", bytes), folder.holding("list", list.as_bytes()));
    let (new, new_list, fill) = (folder.path("new"), folder.path("new-list"), FILL.to_string());
    let arguments = ["salvage", &stream, option, &list, "--fill", &fill, "--out", &new];
    menakovitsy(&[&arguments[..], &["--new-positions", &new_list]].concat(), &[])
}

/// What is said if these groups are replaced.
fn report(replaced: &[usize]) -> String {
    let word = |group| if replaced.contains(&group) { "replaced" } else { "kept" };
    let lost = GROUP * replaced.len();
    let groups: String = (0..3).map(|group| format!("{} {group} {GROUP}\n", word(group))).collect();
    format!("{groups}rows: {} kept, {lost} lost\n", ROWS - lost)
}

/// Salvages a column of 30,000 rows by its positions, and holds the new stream to the rows: those of these groups
/// are the fill row. The new positions are the new stream's.
fn holds(folder: &Scratch, bytes: &[u8], groups: &[Listed], replaced: &[usize]) {
    let said = salvaged(folder, "--positions", bytes, &lines(groups));
    assert_eq!(said, Ran { status: 0, output: report(replaced), error: String::new() });
    let mut expected = patterned(ROWS as i64);
    replaced.iter().for_each(|group| expected[group * GROUP..][..GROUP].fill(FILL));
    let new = fs::read(folder.path("new")).unwrap();
    assert_eq!(rows(&new), expected);
    assert_eq!(folder.text("new-list"), lines(&positions(&new, GROUP)));
}

/// The sample: the damaged run is that of rows 175 to 199, and groups 2 and 3 share it.
#[test]
fn the_sample() {
    let (bytes, listed) =
        (include_bytes!("../sample/damaged.rle"), include_str!("../sample/damaged.positions"));
    let whole = groups::sample().0;
    assert_eq!(listed, lines(&positions(&whole, 60)), "the positions are the column's");
    assert_eq!(listed, groups::position_lines(&groups::positions()), "as examples/groups.rs writes them");
    let folder = scratch("positions-sample");
    let said = salvaged(&folder, "--positions", bytes, listed);
    let verdicts = ["kept", "kept", "replaced", "replaced", "kept", "kept", "kept", "kept", "kept"];
    let report: String =
        (0..9).map(|k| format!("{} {k} {}\n", verdicts[k], if k < 8 { 60 } else { 20 })).collect();
    let output = report + "rows: 380 kept, 120 lost\n";
    assert_eq!(said, Ran { status: 0, output, error: String::new() });
    let mut expected = rows(&whole);
    expected[120..240].fill(FILL);
    assert_eq!(rows(&fs::read(folder.path("new")).unwrap()), expected);
}

#[test]
fn thirty_thousand_rows() {
    let (bytes, groups) = column();
    let folder = scratch("positions");
    holds(&folder, &bytes, &groups, &[]);
    // By positions whose skips pass runs, too, as the Apache writers may list them; and the new stream by its own.
    let from_the_start: Vec<Listed> = (0..3).map(|group| [0, group * GROUP, GROUP]).collect();
    holds(&folder, &bytes, &from_the_start, &[]);
    let (new, new_groups) = (fs::read(folder.path("new")).unwrap(), folder.text("new-list"));
    let said = salvaged(&folder, "--positions", &new, &new_groups);
    assert_eq!((said.status, said.output), (0, report(&[])));
    // The stream stays as it was, and nothing is left beside the new files.
    assert_eq!(
        (fs::read(folder.path("stream")).unwrap(), fs::read_dir(folder.path("")).unwrap().count()),
        (new, 4)
    );
}

/// A damaged run costs the groups that have rows of it: one, or two that share it.
#[test]
fn damaged_runs() {
    let (bytes, groups) = column();
    let folder = scratch("positions-damaged");
    for (row, replaced) in
        [(4_000, &[0][..]), (9_999, &[0, 1]), (10_000, &[0, 1]), (15_000, &[1]), (29_999, &[2])]
    {
        let run = runs(&bytes).into_iter().find(|run| run.rows.contains(&row)).unwrap();
        let mut damaged = bytes.clone();
        damaged[run.bytes].fill(0xFF);
        holds(&folder, &damaged, &groups, replaced);
    }
}

/// A stream that is cut has positions after its end, which are refused; listed at its end, their groups are
/// replaced, and no byte has to be made up.
#[test]
fn a_cut_stream() {
    let (bytes, groups) = column();
    let folder = scratch("positions-cut");
    // Inside a run of the second group, and inside the one that it shares with the first.
    for (row, replaced) in [(15_000, &[1, 2][..]), (GROUP, &[0, 1, 2])] {
        let run = runs(&bytes).into_iter().find(|run| run.rows.contains(&row)).unwrap();
        let cut = run.bytes.end - 1;
        let said = salvaged(&folder, "--positions", &bytes[..cut], &lines(&groups));
        assert_eq!((said.status, said.output.as_str()), (1, ""));
        let advice = format!(
            "a position is after byte {cut}, where the stream ends. If the stream is cut, write {cut} 0 in the \
             place of"
        );
        assert!(said.error.contains(&advice), "{}", said.error);
        let at_the_end =
            |[byte, skip, rows]: Listed| if byte > cut { [cut, 0, rows] } else { [byte, skip, rows] };
        let listed: Vec<Listed> = groups.iter().copied().map(at_the_end).collect();
        assert_ne!(listed, groups);
        holds(&folder, &bytes[..cut], &listed, replaced);
    }
}

/// The groups of a whole column by their bytes alone: `--groups` replaces them, as its groups begin where runs do.
/// It says that the column is whole, and what to use instead.
#[test]
fn groups_that_begin_inside_runs() {
    let (bytes, groups) = column();
    let folder = scratch("positions-groups");
    let starts: Vec<[usize; 2]> = groups.iter().map(|[start, _, rows]| [*start, *rows]).collect();
    let said = salvaged(&folder, "--groups", &bytes, &lines(&starts));
    let output = "replaced 0 10000\nreplaced 1 10000\nreplaced 2 10000\n";
    assert_eq!((said.status, said.output.as_str()), (0, output));
    let new = folder.path("new");
    let told = format!(
        "rows: 0 kept, 30000 lost\n\
         menakovitsy: the column is whole: STREAM reads to its end, with the 30000 rows that are listed. Groups that \
         are replaced: 3, only because the groups do not begin where runs begin, as those of --groups must\n\
         what to do: keep STREAM, and do not use {new}, which is written but lacks good rows. If the file's row index \
         has rows to skip beside each byte, list byte, rows to skip and rows of each group, and use --positions \
         instead of --groups\n"
    );
    assert_eq!(said.error, told);
    // One with a damaged byte, or another total, is not whole.
    let mut damaged = bytes.clone();
    damaged[starts[1][0]] = 0xFF;
    for (bytes, starts) in
        [(&damaged, starts.clone()), (&bytes, [&starts[..2], &[[starts[2][0], 9_999]]].concat())]
    {
        let said = salvaged(&folder, "--groups", bytes, &lines(&starts));
        assert_eq!((said.status, said.output.lines().count()), (0, 3));
        assert_eq!(said.error.lines().count(), 1, "{}", said.error);
    }
    // Several groups inside one run have one byte.
    let said = salvaged(&folder, "--groups", &bytes, "0 10\n0 29990\n");
    assert_eq!(said.status, 1);
    assert!(said
        .error
        .contains("Groups that begin inside runs, several at one byte, are listed for --positions"));
}

/// Positions that are not a whole column's.
#[test]
fn positions_of_another_column() {
    let (bytes, mut groups) = column();
    let folder = scratch("positions-other");
    groups[1][1] += 1;
    let said = salvaged(&folder, "--positions", &bytes, &lines(&groups));
    assert_eq!((said.status, said.output), (0, report(&[0, 1])));
    let told =
        "menakovitsy: the column is whole: STREAM reads to its end, with the 30000 rows that are listed. \
                Groups that are replaced: 2, only because the positions are not those of its groups\n";
    assert!(said.error.starts_with(told), "{}", said.error);
    assert!(said.error.contains("Compare them with the file's row index"), "{}", said.error);
}

#[test]
fn refusals_say_what_to_do() {
    let folder = scratch("positions-refused");
    let stream = [0x0A, 0x01, 0x2C, 0x46, 0x02, 0x12, 0x30];
    folder.holding("new", b"old");
    folder.holding("new-list", b"old");
    for (list, number, advice) in [
        ("1 0 8\n", 17, "the first position must be byte 0 with 0 rows to skip"),
        ("0 1 8\n", 17, "the first position must be byte 0 with 0 rows to skip"),
        ("0 0 5\n3 0 1\n0 0 2\n", 17, "no byte may be below the one before it"),
        ("0 0 5\n3 1 1\n3 0 2\n", 17, "at the same byte the rows to skip may not fall"),
        ("0 0 5\n8 0 3\n", 17, "a position is after byte 7, where the stream ends"),
        ("", 17, "compare the positions with the file's row index"),
        ("0 0 18446744073709551615\n", 8, "a count of theirs is wrong"),
    ] {
        let said = salvaged(&folder, "--positions", &stream, list);
        assert_eq!((said.status, said.output.as_str()), (1, ""), "{list:?}");
        assert!(said.error.starts_with(&format!("menakovitsy: refusal {number}: ")), "{}", said.error);
        assert!(said.error.contains("; nothing is written\nwhat to do: "), "{}", said.error);
        assert!(said.error.contains(advice), "{}", said.error);
        assert_eq!((folder.text("new"), folder.text("new-list")), ("old".into(), "old".into()));
    }
    for (list, line) in [("0 0 5\n\n3 3\n", 3), ("0 0 5 7\n", 1), ("0 x 5\n", 1), ("0 0 -1\n", 1)] {
        let said = salvaged(&folder, "--positions", &stream, list);
        assert_eq!((said.status, said.output.as_str()), (2, ""));
        let told = format!(
            "menakovitsy: {}, line {line}: three numbers are wanted, the byte of a run, the rows to skip from there, \
             and the group's rows\n",
            folder.path("list")
        );
        assert_eq!(said.error, told);
    }
    assert_eq!(fs::read_dir(folder.path("")).unwrap().count(), 4);
}

/// An empty stream has no groups, or groups of no rows; signed rows, from standard input.
#[test]
fn small_streams() {
    let folder = scratch("positions-small");
    for (list, output) in [("", "rows: 0 kept, 0 lost\n"), ("0 0 0\n", "kept 0 0\nrows: 0 kept, 0 lost\n")] {
        let said = salvaged(&folder, "--positions", &[], list);
        assert_eq!(said, Ran { status: 0, output: output.into(), error: String::new() });
        assert_eq!((folder.text("new"), folder.text("new-list")), (String::new(), list.into()));
    }
    let list = folder.holding("list", b"0 0 2\n0 2 4\n3 1 2\n7 0 3\n");
    let arguments =
        ["salvage", "-", "--positions", &list, "--fill", "-7", "--signed", "--out", &folder.path("new")];
    // 150 five times, then -1, 1 and -2; three rows are listed that are gone.
    let said = menakovitsy(&arguments, &[0x0A, 0x01, 0x2C, 0x46, 0x02, 0x12, 0x30]);
    let output = "kept 0 2\nkept 1 4\nkept 2 2\nreplaced 3 3\nrows: 8 kept, 3 lost\n";
    assert_eq!(said, Ran { status: 0, output: output.into(), error: String::new() });
    let new = fs::read(folder.path("new")).unwrap();
    match model::read_stream(&new, 0, true, 100) {
        model::Stream::Whole { rows, .. } => {
            assert_eq!(rows, [150, 150, 150, 150, 150, -1, 1, -2, -7, -7, -7])
        }
        refused => panic!("{refused:?}"),
    }
}

#[test]
fn what_it_does_not_write_over() {
    let folder = scratch("positions-over");
    let (bytes, groups) = column();
    let (stream, list) =
        (folder.holding("stream", &bytes), folder.holding("list", lines(&groups).as_bytes()));
    fs::hard_link(&list, folder.path("link")).unwrap();
    let over = |out: &str, new_list: &str, what: &str| {
        let (out, new_list) = (folder.path(out), folder.path(new_list));
        let arguments = ["salvage", &stream, "--positions", &list, "--fill", "7", "--out", &out];
        let said = menakovitsy(&[&arguments[..], &["--new-positions", &new_list]].concat(), &[]);
        assert_eq!((said.status, said.output.as_str()), (2, ""));
        assert!(said.error.starts_with(&format!("menakovitsy: the new {what} (")), "{}", said.error);
    };
    over("stream", "other", "stream would be written over STREAM");
    over("link", "other", "stream would be written over the positions");
    over("new", "./stream", "positions would be written over STREAM");
    over("new", "link", "positions would be written over the positions");
    // Neither is there yet.
    over("new", "./new", "positions would be written over the new stream");
    assert_eq!((fs::read(&stream).unwrap(), folder.text("list")), (bytes, lines(&groups)));
    assert_eq!(fs::read_dir(folder.path("")).unwrap().count(), 3);
    // A folder that is not there: the new stream is written before its positions, and it says so.
    let (new, nowhere) = (folder.path("new"), folder.path("missing/list"));
    let arguments = ["salvage", &stream, "--positions", &list, "--fill", "7", "--out", &new];
    let said = menakovitsy(&[&arguments[..], &["--new-positions", &nowhere]].concat(), &[]);
    assert_eq!((said.status, said.output.as_str()), (2, ""));
    assert!(said.error.starts_with(&format!("menakovitsy: {nowhere} cannot be written: ")), "{}", said.error);
    assert!(said.error.ends_with(&format!("; {new} is written\n")), "{}", said.error);
}

/// The new stream on standard output, and what is said beside it.
#[test]
fn to_standard_output() {
    let folder = scratch("positions-output");
    let stream = folder.holding("stream", &[0x0A, 0x01, 0x2C, 0x46, 0x02, 0x12, 0x30]);
    let list = folder.holding("list", b"0 0 2\n0 2 5\n3 2 1\n");
    let output = Command::new(env!("CARGO_BIN_EXE_menakovitsy"))
        .args(["salvage", &stream, "--positions", &list, "--fill", "7", "--out", "-"])
        .current_dir(folder.path(""))
        .output()
        .expect("the command runs");
    assert_eq!(
        (output.status.code(), rows(&output.stdout)),
        (Some(0), vec![300, 300, 300, 300, 300, 1, 2, 3])
    );
    let said = "kept 0 2\nkept 1 5\nkept 2 1\nrows: 8 kept, 0 lost\n";
    assert_eq!(String::from_utf8_lossy(&output.stderr), said);
    assert_eq!(fs::read_dir(folder.path("")).unwrap().count(), 2);
}

#[test]
fn bad_usage() {
    for (arguments, what) in [
        (&["salvage", "a", "--out", "c", "--fill", "7"][..], "option --groups or --positions is missing ("),
        (
            &["salvage", "a", "--groups", "b", "--positions", "b", "--out", "c", "--fill", "7"],
            "options --groups and --positions exclude each other (",
        ),
        (&["salvage", "a", "--positions", "b", "--fill", "7"], "option --out is missing ("),
        (&["salvage", "a", "--positions", "b", "--out", "c"], "option --fill is missing ("),
        (
            &["salvage", "a", "--positions", "b", "--fill", "7", "--out", "-", "--new-positions", "-"],
            "the new positions would be written over the new stream (",
        ),
    ] {
        let said = menakovitsy(arguments, &[]);
        assert_eq!((said.status, said.output.as_str()), (2, ""), "{arguments:?}");
        assert!(said.error.starts_with(&format!("menakovitsy: {what}")), "{arguments:?}: {}", said.error);
    }
    let help = menakovitsy(&["salvage", "--help"], &[]).output;
    assert!(help.contains("--groups FILE     groups that begin where runs begin"), "{help}");
}
