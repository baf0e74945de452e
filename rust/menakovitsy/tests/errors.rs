//! Refusals as errors: what they say, that nothing is said twice, and what they are for `std::io`.
use std::error::Error;
use std::io::{self, ErrorKind};

use menakovitsy::*;

/// Five rows of 300; then 1, 2, 3.
const BYTES: [u8; 7] = [0x0A, 0x01, 0x2C, 0x46, 0x02, 0x12, 0x30];

fn cut() -> StreamRefused {
    Column::new(&BYTES[..5], Sign::Unsigned).read_into(&mut [0; 8]).unwrap_err()
}

/// An error and its sources, as a program prints them that was told nothing of this crate.
fn report(error: &dyn Error) -> String {
    let mut text = error.to_string();
    let mut next = error.source();
    while let Some(source) = next {
        text += &format!(": {source}");
        next = source.source();
    }
    text
}

/// By the texts of FORMAT.md, "Refusals" and "Places and cut bytes".
#[test]
fn a_report_says_each_thing_once() {
    let names = Dictionary { block: b"drums", lengths: &[5], numbers: &[1], flags: &[1] };
    let no_name = Labels::new(names).unwrap_err();
    let reports = [
        report(&cut()),
        report(&cut().refused),
        report(&no_name),
        report(&no_name.refused),
        report(&Refusal::RowsCut),
        report(&io::Error::from(cut())),
    ];
    for said in reports {
        assert_eq!(said.matches("refusal ").count(), 1, "{said}");
    }
    assert!(report(&cut()).starts_with("the run at byte 3, after 5 rows: refusal 13: the block "));
    assert!(report(&cut().refused).starts_with("at byte 3: refusal 13: the block "));
    assert!(report(&no_name).starts_with("at row 0: refusal 19: "));
}

/// No byte is named if none is refused.
#[test]
fn no_place_that_means_nothing() {
    let group = Group { start: ByteOffset(1), rows: RowNumber(5) };
    let index = Index::build(&BYTES).unwrap();
    let all = RowNumber(0);
    let refused = [
        write_run(&[1; 3], Sign::Unsigned, Form::ShortRepeat, 1, &mut []).unwrap_err(),
        write_run(&[1; 2], Sign::Unsigned, Form::ShortRepeat, 1, &mut [0; 9]).unwrap_err(),
        write_run(&[1; 3], Sign::Unsigned, Form::ShortRepeat, 9, &mut [0; 9]).unwrap_err(),
        write_run(&[300; 3], Sign::Unsigned, Form::ShortRepeat, 1, &mut [0; 9]).unwrap_err(),
        write_patched(&[1; 3], 0, 8, &mut []).unwrap_err(),
        write_booleans(&[true], &mut []).unwrap_err(),
        write_bytes(&[1], &mut []).unwrap_err(),
        write_column(&[1], Sign::Unsigned, &mut []).unwrap_err(),
        spread(&[1], &[1], 0, &mut []).unwrap_err(),
        spread(&[1], &[], 0, &mut [0]).unwrap_err(),
        index.read_from(&BYTES, all, Sign::Unsigned, &mut []).unwrap_err(),
        index.look_up(&BYTES, RowNumber(8)).unwrap_err(),
        index.look_up(&BYTES[..3], all).unwrap_err(),
        salvage(&BYTES, &[group], 0, Sign::Unsigned).unwrap_err(),
        count_true(&[], RowNumber(1)).unwrap_err(),
        read_rows(
            &BYTES,
            RowPosition { skip: RowNumber(9), ..RowPosition::default() },
            Sign::Signed,
            &mut [],
        )
        .unwrap_err(),
    ];
    let numbers = refused.map(|refused| refused.refusal.number());
    assert_eq!(numbers, [8, 9, 10, 11, 8, 8, 8, 8, 8, 21, 8, 16, 15, 17, 6, 16]);
    for refused in refused {
        assert_eq!(refused.at, None, "{refused}");
        assert!(refused.to_string().starts_with("refusal "), "{refused}");
    }
    // A reader's want of places is of the run that lacks them.
    let lacking = Column::new(&BYTES, Sign::Unsigned).read_into(&mut [0; 7]).unwrap_err();
    assert_eq!((lacking.refused.refusal, lacking.refused.at), (Refusal::TooFewPlaces, Some(ByteOffset(3))));
}

/// In a function that reads files, `?` is enough.
#[test]
fn as_errors_of_input_and_output() {
    fn rows(bytes: &[u8]) -> io::Result<Vec<i64>> {
        let mut places = [0; 3];
        read_run(bytes, ByteOffset(0), Sign::Unsigned, &mut [0; MAX_ROWS])?;
        read_flags(&[0, 0xFF], FlagPosition::default(), RowNumber(3), &mut [0; 3])?;
        spread(&[1; 3], &[1; 3], 0, &mut places)?;
        Ok(Column::new(bytes, Sign::Unsigned).to_vec()?)
    }
    assert_eq!(rows(&BYTES).unwrap(), [300, 300, 300, 300, 300, 1, 2, 3]);
    let error = rows(&BYTES[..5]).unwrap_err();
    assert_eq!(error.kind(), ErrorKind::UnexpectedEof);
    let inner = error.get_ref().and_then(|inner| inner.downcast_ref());
    assert_eq!(inner, Some(&cut()));

    fn first(bytes: &[u8]) -> Result<i64, Refused> {
        let rows = Column::new(bytes, Sign::Unsigned).to_vec()?;
        let _ = Labels::new(Dictionary { block: b"", lengths: &[], numbers: &[], flags: &[] })?;
        Ok(rows[0])
    }
    assert_eq!(first(&BYTES), Ok(300));
    assert_eq!(first(&BYTES[..5]), Err(cut().refused));
}

/// Cut input, wrong input, wrong arguments, and what nobody knows.
#[test]
fn kinds_of_errors() {
    for refusal in Refusal::ALL {
        let kind = match refusal.number() {
            1 | 6 | 12 | 13 | 14 => ErrorKind::UnexpectedEof,
            8 | 9 | 10 | 11 | 16 | 17 => ErrorKind::InvalidInput,
            _ => ErrorKind::InvalidData,
        };
        assert_eq!(io::Error::from(refusal).kind(), kind, "{refusal}");
    }
    assert_eq!(io::Error::from(Refusal::Unknown(40)).kind(), ErrorKind::Other);
    let no_name =
        Labels::new(Dictionary { block: b"", lengths: &[], numbers: &[], flags: &[1] }).unwrap_err();
    assert_eq!(io::Error::from(no_name).kind(), ErrorKind::InvalidData);
    assert_eq!(io::Error::from(cut().refused).kind(), ErrorKind::UnexpectedEof);
}
