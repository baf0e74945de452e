//! The program `totals`, held to the model: its input in pieces of odd sizes, millions of lines, sums far
//! beyond 64 bits, and what it says where it cannot go on.
use std::fs::File;
use std::io::Write;
use std::os::fd::OwnedFd;
use std::os::unix::net::UnixDatagram;
use std::process::{ChildStdin, Command, Output, Stdio};
use std::thread::scope;

use differential::program;
use model::Totals;

const SAMPLE: &[u8] = include_bytes!("../../../crates/totals/stdin");

/// The program's own sample, as the gate holds it to.
const REPORT: &str = include_str!("../../../crates/totals/stdout");

/// A line of ten rows of 2^63 - 1, and one of ten rows of -2^63.
const HIGH: &[u8] = b"003F7FFFFFFFFFFFFFFF\n";
const LOW: &[u8] = b"013FFFFFFFFFFFFFFFFF\n";

fn command() -> Command {
    Command::new(program::find_totals().unwrap_or_else(|missing| panic!("{missing}")))
}

/// What the program does with that standard input while it is fed: through a pipe, or by other means.
fn run(stdin: impl Into<Stdio>, feed: impl FnOnce(Option<ChildStdin>) + Send) -> Output {
    let child = command().stdin(stdin).stdout(Stdio::piped()).stderr(Stdio::piped()).spawn();
    let mut child = child.expect("the program can be started");
    let pipe = child.stdin.take();
    scope(|scope| {
        scope.spawn(|| feed(pipe));
        child.wait_with_output().expect("the program ends")
    })
}

/// Through a pipe, piece after piece. A program that ends early closes its end: its lines say so.
fn piped<'a>(pieces: impl Iterator<Item = &'a [u8]> + Send) -> Output {
    run(Stdio::piped(), |pipe| {
        let mut pipe = pipe.expect("a pipe");
        let mut pieces = pieces;
        drop(pieces.try_for_each(|piece| pipe.write_all(piece)));
    })
}

/// The report and no word more.
fn whole(output: &Output, report: &str, how: &str) {
    assert_eq!(String::from_utf8_lossy(&output.stdout), report, "{how}");
    assert_eq!(
        (String::from_utf8_lossy(&output.stderr), output.status.success()),
        ("".into(), true),
        "{how}"
    );
}

/// By the model.
fn report(input: &[u8]) -> String {
    let (totals, refusal) = Totals::default().over(input);
    totals.report(refusal)
}

#[test]
fn the_sample_is_the_models() {
    assert_eq!(report(SAMPLE), REPORT);
}

#[test]
fn pieces_through_a_pipe() {
    for piece in [7, 4_095, 65_535, 65_537] {
        whole(&piped(SAMPLE.chunks(piece)), REPORT, &format!("a pipe, in pieces of {piece}"));
    }
    let part = &SAMPLE[..20_000];
    whole(&piped(part.chunks(1)), &report(part), "a pipe, byte by byte");
}

/// A read gives one datagram: here each piece is a block. An empty one ends the input.
#[test]
fn pieces_that_are_the_blocks() {
    for piece in [7, 4_095, 8_801, 65_535, 65_536] {
        let (send, receive) = UnixDatagram::pair().expect("two sockets");
        let output = run(OwnedFd::from(receive), move |_| {
            drop(SAMPLE.chunks(piece).chain([&[][..]]).try_for_each(|piece| send.send(piece).map(drop)));
        });
        whole(&output, REPORT, &format!("blocks of {piece}"));
    }
}

/// Nothing, newlines alone, and the same lines with and without a carriage return and a last newline.
#[test]
fn lines_and_their_ends() {
    let inputs: [&[u8]; 8] = [
        b"",
        b"\n",
        b"\n\n\r\n",
        b"000A012C\r\n0046021230\r\n",
        b"000A012C\n0046021230\n",
        b"000A012C\n0046021230",
        b"00\n01\n02\n0\nzz",
        b"000A012C\n\n0046021230\n\n",
    ];
    for input in inputs {
        whole(&piped(input.chunks(3)), &report(input), &format!("{:?}", String::from_utf8_lossy(input)));
    }
    let empty = report(b"");
    assert!(empty.starts_with("lines 0\n") && empty.contains("\nsmallest none\nlargest none\nsum 0\n"));
    assert!(report(b"000A012C\r\n0046021230\r\n").starts_with("lines 2\nbad 2\n"));
}

/// A line and its beginning that is longer than any block.
#[test]
fn lines_of_any_length() {
    for length in [8_800, 8_801, 8_802, 65_536, 74_337, 300_001] {
        let mut input = b"0046021230\n".to_vec();
        input.extend(std::iter::repeat_n(b'0', length));
        input.extend(b"\n0046021230\n");
        whole(&piped(input.chunks(65_536)), &report(&input), &format!("a line of {length}"));
    }
}

/// Two million lines, by the totals of a thousand of them combined; the sum goes to 2^87 and back
/// below 0.
#[test]
fn millions_of_lines() {
    let thousand = |line: &[u8], other: &[u8]| [line.repeat(900), other.repeat(100)].concat();
    let blocks = [thousand(HIGH, b"0046021230\n"), thousand(LOW, b"00\n"), thousand(LOW, b"x\n")];
    let pieces: Vec<&[u8]> = (0..2_000).map(|k| blocks[k / 700].as_slice()).collect();
    let of = blocks.each_ref().map(|block| Totals::default().over(block).0);
    let both = |totals: Totals, k: usize| totals.and(&of[k / 700]).expect("within the limits");
    let totals = (0..2_000).fold(Totals::default(), both);
    assert!(totals.lines == 2_000_000 && totals.sum < -(1 << 80) && of[0].sum * 700 > 1 << 80, "{totals:?}");
    whole(&piped(pieces.into_iter()), &totals.report(None), "two million lines");
}

/// The line on standard error says what failed.
fn told(output: &Output, begin: &str) {
    let line = String::from_utf8_lossy(&output.stderr);
    assert!(line.starts_with(begin) && line.ends_with('\n') && line.matches('\n').count() == 1, "{line:?}");
}

#[test]
fn an_input_that_cannot_be_read_is_told() {
    let output = run(File::open("/").expect("a folder"), |_| ());
    told(&output, "totals: nothing is written, standard input cannot be read: ");
    assert!(output.stdout.is_empty());
}

#[test]
fn an_output_that_cannot_be_written_is_told() {
    let full = File::options().write(true).open("/dev/full").expect("/dev/full");
    let child = command().stdin(Stdio::null()).stdout(full).stderr(Stdio::piped()).spawn();
    let output = child.expect("the program can be started").wait_with_output().expect("the program ends");
    told(&output, "totals: the output is cut, standard output cannot be written: ");
}

/// 2^32 rows, 512 a line, are within the limit; a line more is refused with 20, and the lines after it
/// are not read. It takes a minute: `cargo test -- --ignored`.
#[test]
#[ignore = "reads 2^32 rows"]
fn the_limit_of_rows() {
    // A fixed delta of 512 rows: first -1, delta 0.
    let line = b"01C1FF0100\n";
    let thousand = line.repeat(1_024);
    let one = Totals::default().over(line).0;
    assert_eq!((one.rows, one.sum), (512, -512));
    let most = (0..23).fold(one.clone(), |totals, _| totals.and(&totals).expect("within the limits"));
    assert_eq!(most.rows, model::MOST);
    let full = || std::iter::repeat_n(thousand.as_slice(), 8_192);
    whole(&piped(full()), &most.report(None), "2^32 rows");
    let ended = b"00\n".as_slice();
    let (stopped, refusal) = most.clone().over(&[line.as_slice(), ended].concat());
    assert_eq!((&stopped, refusal.map(|refusal| refusal.number)), (&most, Some(20)));
    whole(&piped(full().chain([line.as_slice(), ended])), &stopped.report(refusal), "a line more");
    // A line without rows is within.
    let (more, none) = most.over(ended);
    whole(&piped(full().chain([ended])), &more.report(none), "a line without rows");
}
