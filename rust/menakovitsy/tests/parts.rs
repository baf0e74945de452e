//! FORMAT.md, "Reader in parts", through the safe reader: however a column is cut, the answers are the
//! same, and those of the whole column.
use menakovitsy::{ByteOffset, Column, PartReader, Refusal, Refused, Sign};

/// What a reading came to: each run's first byte and rows, and how it ended.
type Read = (Vec<(usize, Vec<i64>)>, Result<(), Refused>);

fn read<'a>(parts: impl IntoIterator<Item = &'a [u8]>, sign: Sign) -> Read {
    let mut reader = PartReader::new(sign);
    let mut runs = Vec::new();
    for mut part in parts {
        loop {
            match reader.next_run(&mut part) {
                Ok(Some(run)) => runs.push((run.at.0, run.rows.to_vec())),
                Ok(None) => break assert!(part.is_empty()),
                Err(refused) => {
                    // Repeated, by the closing call too, and nothing is taken.
                    let left = part.len();
                    assert_eq!(reader.next_run(&mut part).unwrap_err(), refused);
                    assert_eq!((reader.close(), part.len()), (Err(refused), left));
                    return (runs, Err(refused));
                }
            }
        }
    }
    let end = reader.close();
    assert_eq!(reader.close(), end);
    let mut later = &[0x0A, 0x01, 0x2C][..];
    match end {
        Ok(()) => assert_eq!(reader.next_run(&mut later), Ok(None)),
        Err(refused) => assert_eq!(reader.next_run(&mut later), Err(refused)),
    }
    assert_eq!(later.len(), 3);
    (runs, end)
}

fn whole(column: &[u8], sign: Sign) -> Read {
    let mut walk = Column::new(column, sign).runs();
    let mut runs = Vec::new();
    loop {
        match walk.next_run() {
            None => return (runs, Ok(())),
            Some(Ok(run)) => runs.push((run.at.0, run.rows.to_vec())),
            Some(Err(refused)) => return (runs, Err(refused.refused)),
        }
    }
}

const SAMPLES: [&[u8]; 6] = [
    &[],
    // A run of each kind.
    &[
        0x0A, 0x01, 0x2C, 0x46, 0x02, 0x12, 0x30, 0xC6, 0x03, 0x64, 0x05, 0x14, 0x86, 0x03, 0x03, 0x21, 0x64,
        0x12, 0x34, 0x94, 0xC0, 0x04, 0x0A, 0x04,
    ],
    // Refused after a run: 4, 7, 5, and an unfinished one.
    &[0x0A, 0x01, 0x2C, 0xC2, 0x00, 0x46, 0x02, 0x12, 0x30],
    &[0x0A, 0x01, 0x2C, 0x86, 0x03, 0x03, 0x41, 0x64, 0x12, 0x34, 0x8A, 0x0A],
    &[0xC0, 0x00, 0x80, 0x80, 0x80, 0x80, 0x80, 0x80, 0x80, 0x80, 0x80, 0x02, 0x00],
    &[0x0A, 0x01, 0x2C, 0x46, 0x02, 0x12],
];

#[test]
fn the_same_however_it_is_cut() {
    for column in SAMPLES {
        for sign in [Sign::Unsigned, Sign::Signed] {
            let expected = whole(column, sign);
            assert_eq!(read([column], sign), expected);
            assert_eq!(read(column.chunks(1), sign), expected);
            for one in 0..=column.len() {
                for other in one..=column.len() {
                    let parts = [&column[..one], &[], &column[one..other], &column[other..], &[]];
                    assert_eq!(read(parts, sign), expected, "{one} {other}");
                }
            }
        }
    }
}

#[test]
fn a_run_is_handed_out_with_its_last_byte() {
    let column = SAMPLES[1];
    let mut reader = PartReader::new(Sign::Unsigned);
    let mut ends = Vec::new();
    for (k, mut part) in column.chunks(1).enumerate() {
        if let Some(run) = reader.next_run(&mut part).unwrap() {
            ends.push((run.at.0, k + 1));
            assert_eq!(run.at.0 + run.run.bytes.0, k + 1);
        }
    }
    assert_eq!(ends, [(0, 3), (3, 7), (7, 12), (12, 20), (20, 24)]);
}

#[test]
fn an_unfinished_run_is_refused_by_the_closing_call_alone() {
    let mut reader = PartReader::new(Sign::Unsigned);
    let mut part = &[0x0A, 0x01, 0x2C, 0x46, 0x02, 0x12][..];
    assert_eq!(reader.next_run(&mut part).unwrap().unwrap().rows, [300; 5]);
    assert_eq!((reader.next_run(&mut part), part.len()), (Ok(None), 0));
    let refused = reader.clone().close().unwrap_err();
    assert_eq!(refused.refusal, Refusal::RowsCut);
    assert_eq!((refused.at, refused.cut), (Some(ByteOffset(3)), Some(ByteOffset(5))));
    // The reader that was not closed goes on.
    let run = reader.next_run(&mut &[0x30][..]).unwrap().map(|run| run.rows.to_vec());
    assert_eq!((run, reader.close()), (Some(vec![1, 2, 3]), Ok(())));
}
