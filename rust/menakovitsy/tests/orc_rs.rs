//! The readers by the names of `orc-rs`: readers that fail, what is taken from them, and how the iterators end.
use std::io::{self, BufReader, ErrorKind, Read};

use menakovitsy::orc_rs::{BooleanIter, Error, RleReaderV2, UnsignedRleReaderV2, Values};
use menakovitsy::{ByteOffset, Refusal};

/// Five rows of 300; then 1, 2, 3; then 10, 12, 14, 16, 18.
const COLUMN: [u8; 11] = [0x0A, 0x01, 0x2C, 0x46, 0x02, 0x12, 0x30, 0xC0, 0x04, 0x0A, 0x04];
const ROWS: [i64; 13] = [300, 300, 300, 300, 300, 1, 2, 3, 10, 12, 14, 16, 18];

/// A reader that gives a byte at a time, is interrupted before each, and fails after some.
struct Failing<'a> {
    bytes: &'a [u8],
    with: ErrorKind,
    interrupted: bool,
}

fn failing(bytes: &[u8], with: ErrorKind) -> Failing<'_> {
    Failing { bytes, with, interrupted: false }
}

impl Read for Failing<'_> {
    fn read(&mut self, room: &mut [u8]) -> io::Result<usize> {
        self.interrupted = !self.interrupted;
        if self.interrupted {
            return Err(ErrorKind::Interrupted.into());
        }
        match self.bytes.split_first() {
            Some((byte, rest)) if !room.is_empty() => {
                (room[0], self.bytes) = (*byte, rest);
                Ok(1)
            }
            Some(_) => Ok(0),
            None => Err(self.with.into()),
        }
    }
}

fn kind(error: &Error) -> Option<ErrorKind> {
    error.io().map(io::Error::kind)
}

/// The error comes after the rows of the runs that are whole, and once. One of the end of the bytes is no end of
/// the column.
#[test]
fn what_a_reader_fails_with_is_handed_on() {
    for with in [ErrorKind::UnexpectedEof, ErrorKind::ConnectionReset] {
        for (bytes, whole) in [(0, 0), (2, 0), (3, 5), (4, 5), (7, 8), (10, 8), (11, 13)] {
            let mut rows = RleReaderV2::try_new(failing(&COLUMN[..bytes], with), false, true);
            let given: Vec<i64> = rows.by_ref().map_while(Result::ok).collect();
            assert_eq!(given, ROWS[..whole], "{bytes} bytes");
            assert!(rows.next().is_none() && rows.next().is_none());
            let mut rows = UnsignedRleReaderV2::try_new(failing(&COLUMN[..bytes], with), true);
            let error = rows.find_map(Result::err).unwrap();
            assert_eq!((kind(&error), error.refused()), (Some(with), None));
            assert_eq!(io::Error::from(error).kind(), with);
        }
        let mut flags = BooleanIter::new(failing(&[0x00, 0xFF, 0xFF], with), 25);
        assert!(flags.by_ref().take(24).all(|flag| flag.unwrap()));
        assert_eq!(kind(&flags.next().unwrap().unwrap_err()), Some(with));
        assert!(flags.next().is_none());
    }
}

/// A cut column is an error, with the places of the whole column.
#[test]
fn a_cut_column() {
    let cuts = [
        (1, Refusal::ValueCut, 0, Some(1)),
        (4, Refusal::HeaderCut, 3, None),
        (6, Refusal::RowsCut, 3, Some(5)),
        (10, Refusal::VarintCut, 7, Some(10)),
    ];
    for (bytes, refusal, at, cut) in cuts {
        let mut rows = RleReaderV2::try_new(&COLUMN[..bytes], false, false);
        let error = rows.find_map(Result::err).unwrap();
        let refused = error.refused().unwrap();
        let bytes = [refused.at, refused.cut].map(|byte| byte.map(usize::from));
        assert_eq!((refused.refusal, bytes), (refusal, [Some(at), cut]));
        assert_eq!(io::Error::from(error).kind(), ErrorKind::UnexpectedEof);
        assert!(rows.next().is_none());
    }
    // Damaged: an entry of a patch list over 64 bits.
    let error = RleReaderV2::try_new(&[0x80, 0x00, 0x1F, 0x00, 0x00, 0x00][..], false, true).next().unwrap();
    assert_eq!(io::Error::from(error.unwrap_err()).kind(), ErrorKind::InvalidData);
}

/// What is taken from a reader that is lent: the runs whose rows were asked for.
#[test]
fn nothing_is_read_ahead() {
    for (rows, left) in [(0, 11), (1, 8), (5, 8), (6, 4), (8, 4), (9, 0)] {
        let mut reader = &COLUMN[..];
        assert_eq!(RleReaderV2::try_new(&mut reader, false, true).take(rows).count(), rows);
        assert_eq!(reader.len(), left, "{rows} rows");
    }
    // Two columns in one stream, through a buffer.
    let bytes = [&[0x00, 0xFF, 0xFE, 0x0F, 0xF0][..], &COLUMN].concat();
    let flags = BooleanIter::new(BufReader::with_capacity(3, &bytes[..]), 30);
    let (given, upper) = (flags.size_hint(), Some(30));
    assert_eq!(given, (0, upper));
    let mut flags = flags.fuse();
    assert_eq!(flags.by_ref().filter(|flag| matches!(flag, Ok(true))).count(), 26);
    let mut reader = BufReader::with_capacity(3, &bytes[..]);
    BooleanIter::new(&mut reader, 30).for_each(drop);
    let rows: Vec<i64> = RleReaderV2::try_new(reader, false, true).collect::<Result<_, _>>().unwrap();
    assert_eq!(rows, ROWS);
}

/// One by one, by `fold`, and from the middle of a run on: the same rows, and the same refusal.
#[test]
fn all_ways_through_are_one() {
    let cut = &COLUMN[..10];
    for skipped in 0..=9 {
        let reader = || {
            let mut rows = RleReaderV2::try_new(cut, false, true);
            rows.by_ref().take(skipped).for_each(drop);
            rows
        };
        let mut one_by_one = Vec::new();
        for row in reader() {
            one_by_one.push(row.map_err(|error| error.refused()));
        }
        let folded = reader().fold(Vec::new(), |mut rows, row| {
            rows.push(row.map_err(|error| error.refused()));
            rows
        });
        assert_eq!(one_by_one, folded);
        assert_eq!(folded.len(), 9 - skipped);
        assert_eq!(folded.last().map(Result::is_err), (skipped < 9).then_some(true));
    }
    let mut rows = RleReaderV2::try_new(&COLUMN[..], false, true);
    assert_eq!(rows.size_hint(), (0, None));
    assert!(rows.read_values(false).unwrap() && rows.read_values(false).unwrap());
    assert_eq!(rows.size_hint(), (5, None));
    assert_eq!(rows.by_ref().count(), 13);
    let mut rows = RleReaderV2::try_new(&COLUMN[..3], false, true);
    assert_eq!(rows.by_ref().count(), 5);
    assert!(!rows.read_values(false).unwrap());
    assert_eq!(kind(&rows.read_values(true).unwrap_err()), Some(ErrorKind::UnexpectedEof));
}

/// More flags than any column has: an error, and no room made for them.
#[test]
fn a_length_that_is_damaged() {
    let mut flags = BooleanIter::new(&[0x00, 0xFF][..], usize::MAX);
    assert_eq!(flags.size_hint(), (0, Some(usize::MAX)));
    assert_eq!(flags.by_ref().map_while(Result::ok).count(), 24);
    assert!(flags.next().is_none());
    let mut names = Values::new(&b"drums"[..], vec![]);
    let refused = names.next(usize::MAX).unwrap_err().refused().unwrap();
    assert_eq!((refused.refusal, refused.at), (Refusal::ValueCut, Some(ByteOffset(0))));
}

/// After an error there is no value, since nobody knows where the next begins.
#[test]
fn values_end_with_an_error() {
    let mut names = Values::new(&b"drumsvocals"[..], Vec::with_capacity(64));
    assert_eq!(names.next(5).unwrap(), b"drums");
    assert_eq!(names.next(0).unwrap(), b"");
    for _ in 0..2 {
        let refused = names.next(7).unwrap_err().refused().unwrap();
        let at = Some(ByteOffset(5));
        assert_eq!((refused.refusal, refused.at, refused.cut), (Refusal::ValueCut, at, at));
    }
    assert!(names.next(0).is_err());
    assert_eq!(names.into_inner().capacity(), 64);

    let mut names = Values::new(failing(b"drumsvoc", ErrorKind::TimedOut), vec![]);
    assert_eq!(names.next(5).unwrap(), b"drums");
    for length in [6, 1, 0] {
        assert_eq!(kind(&names.next(length).unwrap_err()), Some(ErrorKind::TimedOut));
    }
}

/// A reader that says that it gave more than there is room for does no harm.
#[test]
fn a_reader_that_lies() {
    struct Lying;
    impl Read for Lying {
        fn read(&mut self, room: &mut [u8]) -> io::Result<usize> {
            room.fill(0x0A);
            Ok(room.len() + 1_000)
        }
    }
    let rows: Vec<i64> = RleReaderV2::try_new(Lying, false, true).take(7).map(Result::unwrap).collect();
    assert_eq!(rows, [0x0A0A; 7]);
}

#[test]
fn they_can_be_sent() {
    fn sent<T: Send>(_: &T) {}
    let rows = RleReaderV2::try_new(&COLUMN[..], false, true);
    sent(&rows);
    sent(&UnsignedRleReaderV2::try_new(&COLUMN[..], true));
    sent(&BooleanIter::new(&COLUMN[..], 3));
    sent(&Values::new(&COLUMN[..], vec![]));
    fn error<T: std::error::Error + Send + Sync + 'static>() {}
    error::<Error>();
}
