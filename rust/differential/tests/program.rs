//! The program itself, held to the model: its input in pieces of odd sizes, and what it says where it
//! cannot go on.
use std::fs::File;
use std::io::Write;
use std::os::fd::OwnedFd;
use std::os::unix::net::{UnixDatagram, UnixStream};
use std::process::{ChildStdin, Command, Output, Stdio};
use std::thread::{scope, sleep};
use std::time::Duration;

use differential::program;

const SAMPLE: &[u8] = include_bytes!("../../../crates/runs/stdin");

/// Small pieces take long: they get a part of the sample, with long lines in it.
fn sample(piece: usize) -> &'static [u8] {
    if piece < 1_000 {
        &SAMPLE[50_000..90_000]
    } else {
        SAMPLE
    }
}

fn command() -> Command {
    Command::new(program::find().unwrap_or_else(|missing| panic!("{missing}")))
}

/// What the program does with that standard input while it is fed: through a pipe, or by other means.
fn run(stdin: impl Into<Stdio>, feed: impl FnOnce(Option<ChildStdin>) + Send) -> Output {
    let child = command().stdin(stdin).stdout(Stdio::piped()).stderr(Stdio::piped()).spawn();
    let mut child = child.expect("the program can be started");
    let pipe = child.stdin.take();
    scope(|scope| {
        scope.spawn(|| feed(pipe));
        child.wait_with_output().expect("the program ends")
    })
}

/// All that the model says is written, and no word more.
fn whole(output: &Output, input: &[u8], how: &str) {
    let expected = program::text(input);
    let same = output.stdout.iter().zip(&expected).take_while(|(one, other)| one == other).count();
    let lengths = (output.stdout.len(), expected.len());
    assert_eq!((same, same), lengths, "{how}: the first byte that differs, and how many there are");
    assert_eq!(
        (String::from_utf8_lossy(&output.stderr), output.status.success()),
        ("".into(), true),
        "{how}"
    );
}

/// The line on standard error says what failed and that the output is cut.
fn cut(output: &Output, what: &str) {
    let line = String::from_utf8_lossy(&output.stderr);
    let begin = format!("runs: the output is cut, {what}: ");
    assert!(line.starts_with(&begin) && line.ends_with('\n') && line.matches('\n').count() == 1, "{line:?}");
}

#[test]
fn pieces_through_a_pipe() {
    for piece in [1, 7, 4_095, 65_535, 65_537] {
        let input = sample(piece);
        let output = run(Stdio::piped(), |pipe| {
            // A program that ends early closes its end: its missing lines say so.
            let mut pipe = pipe.expect("a pipe");
            drop(input.chunks(piece).try_for_each(|piece| pipe.write_all(piece)));
        });
        whole(&output, input, &format!("a pipe, in pieces of {piece}"));
    }
}

/// A read gives one datagram: here each piece is a block. An empty one ends the input.
#[test]
fn pieces_that_are_the_blocks() {
    for piece in [1, 7, 4_095, 8_801, 65_535, 65_536] {
        let input = sample(piece);
        let (send, receive) = UnixDatagram::pair().expect("two sockets");
        let output = run(OwnedFd::from(receive), move |_| {
            drop(input.chunks(piece).chain([&[][..]]).try_for_each(|piece| send.send(piece).map(drop)));
        });
        whole(&output, input, &format!("blocks of {piece}"));
    }
}

#[test]
fn an_input_that_is_not_ready_is_no_end() {
    let (mut write, read) = UnixStream::pair().expect("two sockets");
    read.set_nonblocking(true).expect("a socket can be so");
    let input: &[u8] = b"000A012C\n0046021230\n00";
    let output = run(OwnedFd::from(read), move |_| {
        for piece in input.chunks(9) {
            sleep(Duration::from_millis(30));
            drop(write.write_all(piece));
        }
    });
    whole(&output, input, "an input that is not ready");
}

#[test]
fn an_input_that_cannot_be_read_is_told() {
    let output = run(File::open("/").expect("a folder"), |_| ());
    cut(&output, "standard input cannot be read");
    assert!(output.stdout.is_empty());
    cut(&closed("<&-"), "standard input cannot be read");
}

#[test]
fn an_output_that_cannot_be_written_is_told() {
    let full = File::options().write(true).open("/dev/full").expect("/dev/full");
    let sample = File::open(concat!(env!("CARGO_MANIFEST_DIR"), "/../../crates/runs/stdin"));
    let child = command().stdin(sample.expect("the sample")).stdout(full).stderr(Stdio::piped()).spawn();
    let output = child.expect("the program can be started").wait_with_output().expect("the program ends");
    cut(&output, "standard output cannot be written");
    cut(&closed(">&-"), "standard output cannot be written");
}

/// The program with a descriptor closed.
fn closed(which: &str) -> Output {
    let program = command().get_program().to_owned();
    Command::new("sh").arg("-c").arg(format!("echo 00 | \"$0\" {which}")).arg(program).output().expect("sh")
}
