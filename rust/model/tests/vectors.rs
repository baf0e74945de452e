//! The vectors of an independent bit-by-bit reader, in the form that a proved table takes:
//! `line FLAG (byte ∷ .. ∷ []) ANSWER`, the answer being `nothing`, `(refusal N)` or
//! `(run (row ∷ .. ∷ []) BYTES)`, rows as patterns of 64 bits.
//!
//! They were written before the changes of docs/CHANGES.md. Where they say 6, the first of these gives 6,
//! 12, 13 or 14; and three of the runs that they read have a varint whose tenth byte is above 1, which is
//! refused now.
use model::{read_run, Answer, Refusal};

const VECTORS: &str = include_str!("vectors.txt");

/// How those three begin, up to the tenth byte: 77 in the first row, 20 and 08 in the base delta.
const SAY_TOO_MUCH: [&[u8]; 3] = [
    &[0xE4, 0x06, 0x85, 0xA0, 0x88, 0xEC, 0xF9, 0xFD, 0x80, 0x92, 0xE4, 0x77],
    &[0xF8, 0x01, 0x21, 0x91, 0xB1, 0xF8, 0xB9, 0xA5, 0xDA, 0xE9, 0xF7, 0xCB, 0x20],
    &[
        0xD0, 0x05, 0x95, 0xB6, 0x8A, 0xF5, 0xAC, 0x99, 0xAE, 0x89, 0x6B, 0x99, 0x83, 0xDE, 0xA3, 0xCF, 0xC2,
        0xCD, 0xAF, 0xEB, 0x08,
    ],
];

/// The numbers between the bracket that opens here and its `[]`, and what follows it.
fn list(text: &str) -> (Vec<u64>, &str) {
    let (inside, rest) = text.split_once("[])").expect("a list ends with []");
    let inside = inside.trim_start().strip_prefix('(').expect("a list opens");
    let numbers = inside.split('∷').map(str::trim).filter(|word| !word.is_empty());
    (numbers.map(|word| word.parse().expect("a number")).collect(), rest)
}

#[test]
fn vectors() {
    let mut counts = [0; 4];
    for line in VECTORS.split("line ").skip(1) {
        let signed = line.starts_with("true");
        let (bytes, answer) = list(line.trim_start_matches(['t', 'r', 'u', 'e', 'f', 'a', 'l', 's']));
        let bytes: Vec<u8> = bytes.into_iter().map(|byte| byte as u8).collect();
        let read = read_run(&bytes, 0, signed, 512);
        let answer = answer.trim_start();
        if SAY_TOO_MUCH.iter().any(|begins| bytes.starts_with(begins)) {
            counts[3] += 1;
            assert_eq!(read, Answer::Refused(Refusal::whole(5, 0)), "{bytes:02X?}");
        } else if answer.starts_with("nothing") {
            counts[0] += 1;
            assert_eq!(read, Answer::End);
        } else if let Some(number) = answer.strip_prefix("(refusal ") {
            counts[1] += 1;
            let number: u8 = number[..number.find(')').unwrap()].parse().unwrap();
            let Answer::Refused(refusal) = read else { panic!("{bytes:02X?}: {read:?}") };
            let since = if number == 6 { &[6, 12, 13, 14][..] } else { &[number] };
            assert!(since.contains(&refusal.number), "{bytes:02X?}: {refusal:?}");
            assert_eq!((refusal.place, refusal.cut.is_some()), (0, number == 6), "{bytes:02X?}");
        } else {
            counts[2] += 1;
            let (rows, rest) = list(answer.strip_prefix("(run ").expect("an answer"));
            let consumed = rest[..rest.find(')').unwrap()].trim().parse().unwrap();
            let rows: Vec<i64> = rows.into_iter().map(|row| row as i64).collect();
            let Answer::Run(run) = read else { panic!("{bytes:02X?}: {read:?}") };
            assert_eq!((run.rows, run.consumed), (rows, consumed), "{bytes:02X?}");
        }
    }
    assert_eq!((counts.iter().sum::<usize>(), counts[3]), (127, 3));
    println!("end {}, refused {}, runs {}, refused since {}", counts[0], counts[1], counts[2], counts[3]);
}
