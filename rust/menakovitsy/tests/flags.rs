//! Flags and bytes in batches, from positions inside byte runs. Lines written out by hand.
use menakovitsy::{
    read_booleans, read_bytes, read_flags, ByteOffset, BytePosition, Bytes, FlagPosition, Flags, Refusal,
    RowNumber,
};

/// A repeat of three bytes FF, two literals, and a repeat of four bytes 00.
const COLUMN: [u8; 7] = [0x00, 0xFF, 0xFE, 0x44, 0x45, 0x01, 0x00];
const BYTES: [u8; 9] = [0xFF, 0xFF, 0xFF, 0x44, 0x45, 0x00, 0x00, 0x00, 0x00];

fn bits() -> Vec<bool> {
    BYTES.iter().flat_map(|byte| (0..8).rev().map(move |bit| byte >> bit & 1 == 1)).collect()
}

fn at(run: usize, bytes: usize, bits: usize) -> FlagPosition {
    FlagPosition { run: ByteOffset(run), bytes: ByteOffset(bytes), bits }
}

fn byte_at(run: usize, bytes: usize) -> BytePosition {
    BytePosition { run: ByteOffset(run), bytes: ByteOffset(bytes) }
}

/// Where a byte of what the runs stand for is, plain.
fn plain(byte: usize) -> BytePosition {
    match byte {
        0..=2 => byte_at(0, byte),
        3..=4 => byte_at(2, byte - 3),
        5..=8 => byte_at(5, byte - 5),
        _ => byte_at(7, 0),
    }
}

/// The users' damage: a flag that came eight rows late. Of `00 FF 00 00` the first 24 flags are true.
#[test]
fn ten_and_then_ten() {
    let column = [0x00, 0xFF, 0x00, 0x00];
    let mut flags = Flags::new(&column);
    assert_eq!(flags.next(RowNumber(10)).unwrap(), [true; 10]);
    assert_eq!(flags.position(), at(0, 1, 2));
    assert_eq!(flags.next(RowNumber(10)).unwrap(), [true; 10]);
    assert_eq!(flags.position(), at(0, 2, 4));
    assert_eq!(flags.next(RowNumber(5)).unwrap(), [true, true, true, true, false]);

    let (mut flags, mut places) = (Flags::new(&column), [7; 10]);
    for _ in 0..2 {
        flags.read_into(&mut places).unwrap();
        assert_eq!(places, [1; 10]);
    }
    // What `read_booleans` says is another thing: its runs are taken whole.
    let run = read_booleans(&column, ByteOffset(0), RowNumber(10), &mut places).unwrap();
    assert_eq!(run.bytes, ByteOffset(2));
    read_booleans(&column, run.bytes, RowNumber(10), &mut places).unwrap();
    assert_eq!(places, [0; 10]);
}

/// However the column is cut into batches, its flags and bytes are the column's.
#[test]
fn batches_of_any_size() {
    let bits = bits();
    for size in 1..=72 {
        let (mut flags, mut read) = (Flags::new(&COLUMN), Vec::new());
        while read.len() < 72 {
            let n = size.min(72 - read.len());
            read.extend(flags.next(RowNumber(n)).unwrap());
            let BytePosition { run, bytes } = plain(read.len() / 8);
            assert_eq!(flags.position(), FlagPosition { run, bytes, bits: read.len() % 8 });
            assert_eq!(flags.next(RowNumber(0)), Ok(vec![]));
        }
        assert_eq!(read, bits);
        assert_eq!(flags.next(RowNumber(1)).unwrap_err().refusal, Refusal::ValueCut);
    }
    for size in 1..=9 {
        let (mut bytes, mut read) = (Bytes::new(&COLUMN), Vec::new());
        while read.len() < 9 {
            let n = size.min(9 - read.len());
            read.extend(bytes.next(ByteOffset(n)).unwrap());
            assert_eq!(bytes.position(), plain(read.len()));
        }
        assert_eq!(read, BYTES);
        assert_eq!(bytes.next(ByteOffset(1)).unwrap_err().refusal, Refusal::ValueCut);
    }
}

/// Every flag by every position that names it, as bytes and bits in any way; readers start at each.
#[test]
fn every_position() {
    let bits = bits();
    for (run, before) in [(0, 0), (2, 24), (5, 40)] {
        for skipped in 0..=72 - before {
            for bytes in 0..=skipped / 8 {
                let position = at(run, bytes, skipped - 8 * bytes);
                let rest = &bits[before + skipped..];
                for n in [0, 1, 7, 8, 9].into_iter().filter(|n| *n <= rest.len()) {
                    let mut reader = Flags::new(&COLUMN).starting_at(position);
                    assert_eq!(reader.next(RowNumber(n)).unwrap(), rest[..n]);
                    let whole = (before + skipped + n) / 8;
                    let BytePosition { run: next, bytes } = plain(whole);
                    let after = at(next.0, bytes.0, (before + skipped + n) % 8);
                    // Of nothing at all, nothing is looked at.
                    let expected = if skipped + n == 0 { position } else { after };
                    assert_eq!(reader.position(), expected);
                }
                let mut reader = Flags::new(&COLUMN).starting_at(position);
                let refused = reader.next(RowNumber(rest.len() + 1)).unwrap_err();
                assert_eq!((refused.refusal, refused.at), (Refusal::ValueCut, Some(ByteOffset(run))));
                assert_eq!((refused.cut, reader.position()), (Some(ByteOffset(7)), position));
            }
        }
        for skipped in 0..=9 - before / 8 {
            let rest = &BYTES[before / 8 + skipped..];
            let mut places = [77; 9];
            let next = read_bytes(&COLUMN, byte_at(run, skipped), ByteOffset(rest.len()), &mut places);
            assert_eq!(next, Ok(plain(9)));
            assert_eq!((&places[..rest.len()], places[rest.len()..].iter().all(|b| *b == 77)), (rest, true));
        }
    }
}

/// Refusals change nothing, neither a place nor the reader: as `read_booleans` has them, and then 8.
#[test]
fn refusals() {
    // A literal run that is cut.
    let cut = [0x00, 0xFF, 0xFE, 0x44];
    let mut flags = Flags::new(&cut);
    assert_eq!(flags.next(RowNumber(24)).unwrap(), [true; 24]);
    let mut places = [7; 1];
    let refused = flags.read_into(&mut places).unwrap_err();
    assert_eq!((refused.refusal, refused.at), (Refusal::RowsCut, Some(ByteOffset(2))));
    assert_eq!((refused.cut, places, flags.position()), (Some(ByteOffset(3)), [7], at(2, 0, 0)));
    // The place is the position's run, though the cut run comes after it.
    let refused = Flags::new(&cut).next(RowNumber(25)).unwrap_err();
    assert_eq!((refused.refusal, refused.at), (Refusal::RowsCut, Some(ByteOffset(0))));

    let mut places = [7; 3];
    let refused = read_flags(&COLUMN, at(2, 0, 3), RowNumber(4), &mut places).unwrap_err();
    assert_eq!(
        (refused.refusal, refused.at, refused.cut),
        (Refusal::TooFewPlaces, Some(ByteOffset(2)), None)
    );
    let refused = read_bytes(&COLUMN, byte_at(5, 0), ByteOffset(4), &mut places).unwrap_err();
    assert_eq!((refused.refusal, refused.at, places), (Refusal::TooFewPlaces, Some(ByteOffset(5)), [7; 3]));

    // Numbers that no machine has the memory for, and sums that pass 64 bits.
    for n in [usize::MAX, 1 << 61, 73] {
        assert_eq!(Flags::new(&COLUMN).next(RowNumber(n)).unwrap_err().refusal, Refusal::ValueCut);
        assert_eq!(Bytes::new(&COLUMN).next(ByteOffset(n)).unwrap_err().refusal, Refusal::ValueCut);
    }
    for position in [at(0, usize::MAX, 0), at(0, 1 << 61, 0), at(0, 0, usize::MAX), at(usize::MAX, 0, 1)] {
        let refused = Flags::new(&COLUMN).starting_at(position).next(RowNumber(0)).unwrap_err();
        assert_eq!((refused.refusal, refused.at), (Refusal::ValueCut, Some(position.run)));
    }
    // Nothing of nothing is looked at, wherever it is.
    let nowhere = at(usize::MAX, 0, 0);
    let mut flags = Flags::new(&[]).starting_at(nowhere);
    assert_eq!((flags.next(RowNumber(0)), flags.position()), (Ok(vec![]), nowhere));
    let mut bytes = Bytes::new(&[]).starting_at(byte_at(9, 0));
    assert_eq!((bytes.next(ByteOffset(0)), bytes.position()), (Ok(vec![]), byte_at(9, 0)));
}
