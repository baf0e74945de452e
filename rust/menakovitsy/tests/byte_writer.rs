//! Flags and bytes written: what is written reads back, its size is known before, and a refused call changes
//! nothing.
use menakovitsy::*;

/// Bytes in stretches and literals of lengths about the ends of runs.
fn many() -> Vec<Vec<u8>> {
    let lengths = [0, 1, 2, 3, 4, 127, 128, 129, 130, 131, 132, 133, 256, 257, 260, 261, 262, 263];
    let different = |length: usize| (0..length).map(|k| (k % 251) as u8).collect::<Vec<u8>>();
    let mut many = Vec::new();
    for length in lengths {
        many.push(vec![5; length]);
        many.push(different(length));
        for other in lengths {
            many.push([different(length), vec![9; other], different(length)].concat());
        }
    }
    many
}

/// Eight flags for each byte, and `less` fewer.
fn flags_of(bytes: &[u8], less: usize) -> Vec<bool> {
    let mut flags: Vec<bool> =
        bytes.iter().flat_map(|byte| (0..8).map(move |bit| byte >> (7 - bit) & 1 == 1)).collect();
    flags.truncate(flags.len().saturating_sub(less));
    flags
}

#[test]
fn bytes_read_back() {
    for bytes in many() {
        let size = size_of_bytes(&bytes);
        assert!(size <= byte_room(bytes.len()));
        for room in [size, size + 1, byte_room(bytes.len()), byte_room(bytes.len()) + 9] {
            let mut out = vec![77; room];
            assert_eq!(write_bytes(&bytes, &mut out), Ok(ByteOffset(size)));
            assert!(out[size..].iter().all(|byte| *byte == 77));
            let mut reader = Bytes::new(&out[..size]);
            assert_eq!(reader.next(ByteOffset(bytes.len())), Ok(bytes.clone()));
            // All of it is taken: nothing is left of the last run.
            assert!(
                size == 0
                    || reader.position() == BytePosition { run: ByteOffset(size), ..Default::default() }
            );
        }
        if size > 0 {
            let mut out = vec![77; size - 1];
            let refused = write_bytes(&bytes, &mut out).unwrap_err();
            assert_eq!((refused.refusal, refused.at, refused.cut), (Refusal::TooFewPlaces, None, None));
            assert!(out.iter().all(|byte| *byte == 77));
        }
    }
}

#[test]
fn flags_read_back() {
    for (turn, bytes) in many().into_iter().enumerate() {
        let flags = flags_of(&bytes, turn % 8);
        let n = flags.len();
        let size = size_of_booleans(&flags);
        assert!(size <= boolean_room(n));
        let mut out = vec![77; boolean_room(n) + 3];
        let run = write_booleans(&flags, &mut out).unwrap();
        assert_eq!(
            (run.kind, run.width, run.rows, run.bytes),
            (Kind::Booleans, 1, RowNumber(n), ByteOffset(size))
        );
        assert!(out[size..].iter().all(|byte| *byte == 77));
        assert_eq!(Flags::new(&out[..size]).next(RowNumber(n)), Ok(flags.clone()));
        let mut back = vec![7; n];
        let read = read_booleans(&out[..size], ByteOffset(0), RowNumber(n), &mut back).unwrap();
        assert_eq!(read.bytes, ByteOffset(size));

        // What was read is written as it is; and any byte but 0 is true.
        for set in [1, 2, 128, 255] {
            let other: Vec<u8> = back.iter().map(|flag| flag * set).collect();
            let mut again = vec![77; size];
            assert_eq!(write_booleans(&other, &mut again), Ok(run));
            assert_eq!((again.as_slice(), size_of_booleans(&other)), (&out[..size], size));
        }
        if size > 0 {
            let mut few = vec![77; size - 1];
            let refused = write_booleans(&flags, &mut few).unwrap_err();
            assert_eq!((refused.refusal, refused.at), (Refusal::TooFewPlaces, None));
            assert!(few.iter().all(|byte| *byte == 77));
        }
    }
}

/// The runs at the edges, as docs/FORMAT.md chooses them.
#[test]
fn chosen_runs() {
    let written = |bytes: &[u8]| {
        let mut out = vec![0; byte_room(bytes.len())];
        let size = write_bytes(bytes, &mut out).unwrap().0;
        out.truncate(size);
        out
    };
    assert_eq!(written(&[]), []);
    assert_eq!(written(&[5, 5]), [0xFE, 5, 5]);
    assert_eq!(written(&[5; 3]), [0x00, 5]);
    assert_eq!(written(&[5; 130]), [0x7F, 5]);
    assert_eq!(written(&[5; 131]), [0x7F, 5, 0xFF, 5]);
    // 129 and 3: 130 and two literals are five bytes.
    assert_eq!(written(&[5; 132]), [0x7E, 5, 0x00, 5]);
    assert_eq!(written(&[5; 133]), [0x7F, 5, 0x00, 5]);
    // The byte that repeats of 130 would leave alone joins the literal before it.
    assert_eq!(written(&[&[1][..], &[5; 131]].concat()), [0xFE, 1, 5, 0x7F, 5]);
}

/// Room for what no machine has the memory for is a number, too.
#[test]
fn room() {
    assert_eq!([0, 1, 127, 128, 129, 256, 257].map(byte_room), [0, 2, 128, 129, 131, 258, 260]);
    assert_eq!([0, 1, 8, 9, 1016, 1024, 1025].map(boolean_room), [0, 2, 2, 3, 128, 129, 131]);
    assert_eq!(byte_room(usize::MAX), usize::MAX);
    assert!(boolean_room(usize::MAX) > usize::MAX / 8);
    // No flags alike for long: as many as fit are needed.
    let bytes: Vec<u8> = (0..1000).map(|k| (k * 7 % 251) as u8).collect();
    assert_eq!(size_of_bytes(&bytes), byte_room(1000));
    assert_eq!(size_of_booleans(&flags_of(&bytes, 0)), boolean_room(8000));
}
