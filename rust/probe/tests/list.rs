//! The fixed list, replayed; and what counts as a line.
//!
//! `list.in` and `list.out` are written by the model (`probe_list` of the crate `differential`).
use std::io::Write;
use std::process::{Command, Stdio};
use std::thread;

fn answers(input: &[u8]) -> String {
    let mut child = Command::new(env!("CARGO_BIN_EXE_probe"))
        .stdin(Stdio::piped())
        .stdout(Stdio::piped())
        .spawn()
        .expect("the probe runs");
    let mut stdin = child.stdin.take().expect("stdin is piped");
    let output = thread::scope(|scope| {
        scope.spawn(move || stdin.write_all(input));
        child.wait_with_output()
    });
    let output = output.expect("the probe ends");
    assert!(output.status.success(), "{:?}", output.status);
    String::from_utf8(output.stdout).expect("the answers are text")
}

#[test]
fn the_fixed_list() {
    let (asked, expected) = (include_str!("list.in"), include_str!("list.out"));
    let answers = answers(asked.as_bytes());
    let mut wrong = String::new();
    for ((line, answer), expected) in asked.lines().zip(answers.lines()).zip(expected.lines()) {
        if answer != expected {
            wrong += &format!("{line}\n  answer:   {answer}\n  expected: {expected}\n");
        }
    }
    assert!(wrong.is_empty(), "{wrong}");
    assert_eq!(answers, expected);
    assert!(expected.lines().count() > 1000);
}

#[test]
fn lines() {
    assert_eq!(answers(b""), "");
    assert_eq!(answers(b"060000000000000001"), "code 0\n");
    assert_eq!(answers(b"\n060000000000000001\r\n"), "bad line\nbad line\n");
    let long = [vec![b'0'; 1_000_000], b"\n0600000000000000FF\n".to_vec()].concat();
    assert_eq!(answers(&long), "bad line\ncode 7\n");
}
