//! A few million calls behind fences, in as many threads as there are tests of them; and the fences hold.
use std::os::unix::process::ExitStatusExt;
use std::process::Command;

use fuzz::{watch, Session};

const CALLS: u64 = 1_000_000;

/// A million calls under a seed.
fn a_million_calls(seed: u64) {
    watch::start();
    let mut session = Session::default();
    for number in 0..CALLS {
        session.call(seed, number).unwrap_or_else(|wrong| panic!("{wrong}"));
    }
    // Each function gave each answer that it can give.
    let readers = [0, 1, 2, 3, 4, 5, 6, 7, 8, 12, 13, 14];
    let too_few = u64::MAX;
    let answers: [(&str, &[u64]); 31] = [
        ("orc_read_run", &readers),
        ("orc_read_run_at", &[&readers[..], &[too_few]].concat()),
        ("orc_read_stream", &[&readers[..], &[too_few]].concat()),
        ("orc_read_booleans", &[0, 6, 8, 13, too_few]),
        ("orc_byte_value", &[0, 6, too_few]),
        ("orc_write_run", &[0, 8, 9, 10, 11, too_few]),
        ("orc_write_patched", &[0, 8, 9, 10, too_few]),
        ("orc_narrowest_code", &[0]),
        ("orc_label", &[0, 16, 18, 19, too_few]),
        ("orc_part_start", &[0, too_few]),
        ("orc_part_take", &[&readers[..], &[too_few]].concat()),
        ("orc_part_close", &[&readers[..], &[too_few]].concat()),
        ("orc_count_true", &[0, 6, too_few]),
        ("orc_build_index", &[&readers[..], &[15, too_few]].concat()),
        ("orc_look_up", &[0, 15, 16, too_few]),
        ("orc_read_from", &[0, 8, 15, 16, too_few]),
        ("orc_salvage", &[0, 8, 17, too_few]),
        ("orc_convert", &[&readers[..], &[too_few]].concat()),
        ("orc_write_column", &[0, 8, too_few]),
        ("orc_check_column", &[0, too_few]),
        ("orc_plan", &[0]),
        // Of the readers' refusals all but the want of places: a batch has as many rows as there are places.
        ("orc_read_rows", &[0, 1, 2, 3, 4, 5, 6, 7, 12, 13, 14, 16, too_few]),
        ("orc_read_flags", &[0, 6, 8, 13, too_few]),
        ("orc_read_bytes", &[0, 6, 8, 13, too_few]),
        ("orc_spread", &[0, 8, 21, too_few]),
        ("orc_label_column", &[0, 8, 18, 19, too_few]),
        ("orc_write_booleans", &[0, 8, too_few]),
        ("orc_write_bytes", &[0, 8, too_few]),
        ("orc_size_of_booleans", &[0]),
        ("orc_size_of_bytes", &[0]),
        ("orc_rescue", &[0, 8, 17, too_few]),
    ];
    for (function, numbers) in answers {
        let given: Vec<u64> =
            session.tally.keys().filter(|(name, _)| *name == function).map(|(_, number)| *number).collect();
        assert_eq!(given, numbers, "{function}");
    }
}

#[test]
fn the_first_million() {
    a_million_calls(1);
}

#[test]
fn the_second_million() {
    a_million_calls(2);
}

const SIGSEGV: i32 = 11;

#[test]
fn the_fences_hold() {
    for side in ["before", "behind"] {
        let output = Command::new(env!("CARGO_BIN_EXE_fuzz")).args(["--touch", side]).output().unwrap();
        let said = String::from_utf8_lossy(&output.stderr);
        // An emulator may lose the handler's stack: then the process has begun to say it, and dies.
        if output.status.signal() != Some(SIGSEGV) {
            assert_eq!(output.status.code(), Some(watch::TOUCHED), "{side}");
            assert_eq!(said, "a call touched a fence: make it again with --seed 0 --from 0 --calls 1\n");
        }
        assert!(said.starts_with("a call touched a fence"), "{side}: {said}");
    }
}
