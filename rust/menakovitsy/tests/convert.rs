//! FORMAT.md, "Converter": the converter, by the wrapper; and the widths that writers no longer make.
use menakovitsy::{convert, narrowest_code, write_run, ByteOffset, Column, Form, Kind, Refusal, Sign};

#[path = "../../desk/examples/widths.rs"]
mod widths;

const KEPT: [u64; 11] = [1, 2, 4, 8, 16, 24, 32, 40, 48, 56, 64];

/// Each run's kind, width and rows.
fn runs(column: &[u8]) -> Vec<(Kind, u64, Vec<i64>)> {
    let (mut runs, mut walk) = (Vec::new(), Column::new(column, Sign::Unsigned).runs());
    while let Some(run) = walk.next_run() {
        let run = run.expect("it reads whole");
        runs.push((run.run.kind, run.run.width, run.rows.to_vec()));
    }
    runs
}

#[test]
fn every_width() {
    let before = widths::bytes();
    for sign in [Sign::Unsigned, Sign::Signed] {
        let converted = convert(&before, sign).unwrap();
        let rows = |bytes: &[u8]| Column::new(bytes, sign).to_vec().unwrap();
        assert_eq!(rows(&converted.bytes), rows(&before));
        assert_eq!(converted.altered, 43);
        let again = convert(&converted.bytes, sign).unwrap();
        assert_eq!((again.altered, &again.bytes), (0, &converted.bytes));
    }
    // Run by run: the same kind and rows, at the next kept width; the others as they were.
    let after = convert(&before, Sign::Unsigned).unwrap().bytes;
    let (before, after) = (runs(&before), runs(&after));
    assert_eq!((before.len(), after.len()), (67, 67));
    for ((kind, width, rows), new) in before.into_iter().zip(after) {
        let packed = kind == Kind::Direct || kind == Kind::Delta && width != 0;
        let next = if packed { *KEPT.iter().find(|kept| **kept >= width).unwrap() } else { width };
        assert_eq!((kind, next, rows), new);
    }
}

/// Twice the bytes are room enough at every width and row count.
#[test]
fn room_for_every_run() {
    const WIDTHS: [usize; 32] = [
        1, 2, 3, 4, 5, 6, 7, 8, 9, 10, 11, 12, 13, 14, 15, 16, 17, 18, 19, 20, 21, 22, 23, 24, 26, 28, 30,
        32, 40, 48, 56, 64,
    ];
    for (code, width) in WIDTHS.into_iter().enumerate() {
        for rows in [1, 2, 3, 7, 8, 9, 63, 511, 512] {
            let [high, low] = [(rows - 1) >> 8, (rows - 1) & 0xFF];
            let header = [0x40 | (code << 1 | high) as u8, low as u8];
            let run = [&header[..], &vec![0xA5; (rows * width).div_ceil(8)]].concat();
            let converted = convert(&run, Sign::Unsigned).unwrap();
            assert_eq!(converted.altered, usize::from(!KEPT.contains(&(width as u64))), "{width} bits");
        }
    }
}

#[test]
fn refusals() {
    let column = [0x44, 0x02, 0x29, 0x80, 0x46, 0x02, 0x12];
    let cut = convert(&column, Sign::Unsigned).unwrap_err();
    assert_eq!((cut.refusal, cut.at, cut.cut), (Refusal::RowsCut, Some(ByteOffset(4)), Some(ByteOffset(6))));
    let damaged = convert(&[0x44, 0x02, 0x29, 0x80, 0xC2, 0x00], Sign::Unsigned).unwrap_err();
    assert_eq!((damaged.refusal, damaged.at, damaged.cut), (Refusal::OneRowDelta, Some(ByteOffset(4)), None));
    let empty = convert(&[], Sign::Signed).unwrap();
    assert_eq!((empty.altered, empty.bytes.len()), (0, 0));
}

/// Direct and packed delta runs refuse an odd code with 10, before 11; the helper answers a kept one.
#[test]
fn writers_make_kept_widths() {
    let kept = [0, 1, 3, 7, 15, 23, 27, 28, 29, 30, 31];
    for code in 0..32 {
        for form in [Form::Direct, Form::PackedDelta] {
            let rows: &[i64] = if code % 2 == 0 { &[0, 1, 2] } else { &[0, i64::MAX] };
            let written = write_run(rows, Sign::Unsigned, form, code, &mut [0; 64]);
            let odd = !kept.contains(&code) || form == Form::PackedDelta && code == 0;
            assert_eq!(
                written.is_err_and(|refused| refused.refusal == Refusal::NotTheForm),
                odd,
                "code {code}"
            );
        }
    }
    for bits in 1..=64 {
        let code = narrowest_code(u64::MAX >> (64 - bits));
        let next = KEPT.iter().position(|kept| *kept >= bits).unwrap();
        assert_eq!(code, kept[next], "{bits} bits");
    }
}
