//! FORMAT.md, "Salvage": salvage, by the wrapper. Lines written out by hand, and every damage of a sample.
use menakovitsy::{salvage, ByteOffset, Column, Group, Refusal, RowNumber, Salvaged, Sign};

#[path = "../../desk/examples/groups.rs"]
mod groups;

/// Five rows 300, then 1, 2, 3, then 10, 12, 14, 16, 18.
const THREE: [u8; 11] = [0x0A, 0x01, 0x2C, 0x46, 0x02, 0x12, 0x30, 0xC0, 0x04, 0x0A, 0x04];

fn listed(pairs: &[(usize, usize)]) -> Vec<Group> {
    pairs.iter().map(|(start, rows)| Group { start: ByteOffset(*start), rows: RowNumber(*rows) }).collect()
}

fn salvaged(input: &[u8], pairs: &[(usize, usize)], fill: i64) -> Salvaged {
    let salvaged = salvage(input, &listed(pairs), fill, Sign::Unsigned).unwrap();
    // The new groups are those of the new column: salvaged again, it stays as it is (unless one has no
    // bytes before the last).
    if salvaged.groups.windows(2).all(|two| two[0].start < two[1].start) {
        let again = salvage(&salvaged.bytes, &salvaged.groups, fill, Sign::Unsigned).unwrap();
        assert_eq!((again.replaced().count(), &again.bytes), (0, &salvaged.bytes));
    }
    salvaged
}

#[test]
fn kept_and_replaced() {
    let whole = salvaged(&THREE, &[(0, 5), (3, 3), (7, 5)], 7);
    assert_eq!((&whole.bytes[..], whole.report.as_str()), (&THREE[..], "kept 0 5\nkept 1 3\nkept 2 5\n"));
    assert_eq!((whole.replaced().count(), whole.groups), (0, listed(&[(0, 5), (3, 3), (7, 5)])));
    // A count that is not the group's; a damaged byte, whose group is replaced.
    let other = salvaged(&THREE, &[(0, 5), (3, 4), (7, 5)], 300);
    assert_eq!(other.bytes, [&THREE[..3], &[0xC0, 0x03, 0xAC, 0x02, 0x00], &THREE[7..]].concat());
    assert_eq!(other.replaced().collect::<Vec<_>>(), [1]);
    assert_eq!(other.groups, listed(&[(0, 5), (3, 4), (8, 5)]));
    let mut damaged = THREE;
    damaged[3] = 0xC2;
    let mended = salvaged(&damaged, &[(0, 5), (3, 3), (7, 5)], 7);
    assert_eq!(mended.report, "kept 0 5\nreplaced 1 3\nkept 2 5\n");
    assert_eq!(mended.bytes, [&THREE[..3], &[0xC0, 0x02, 0x07, 0x00], &THREE[7..]].concat());
    // Under the signed flag the fill is zigzag.
    let signed = salvage(&[0xFF], &listed(&[(0, 3)]), -1, Sign::Signed).unwrap();
    assert_eq!(signed.bytes, [0xC0, 0x02, 0x01, 0x00]);
}

#[test]
fn fills_and_empty_groups() {
    let fill = |rows| salvaged(&[0xFF], &[(0, rows)], 7).bytes;
    assert_eq!(fill(0), []);
    assert_eq!(fill(512), [0xC1, 0xFF, 0x07, 0x00]);
    assert_eq!(fill(1030), [0xC1, 0xFF, 0x07, 0x00, 0xC1, 0xFF, 0x07, 0x00, 0xC0, 0x05, 0x07, 0x00]);
    assert_eq!(salvaged(&[], &[], 7).report, "");
    assert_eq!(salvaged(&[], &[(0, 0)], 7).report, "kept 0 0\n");
    assert_eq!(salvaged(&[], &[(0, 3)], 7).bytes, [0xC0, 0x02, 0x07, 0x00]);
    let gone = salvaged(&THREE, &[(0, 5), (3, 0), (7, 5)], 7);
    assert_eq!((gone.bytes.len(), gone.groups), (7, listed(&[(0, 5), (3, 0), (3, 5)])));
}

#[test]
fn refusals() {
    let refused = |input: &[u8], pairs: &[(usize, usize)], refusal| {
        let said = salvage(input, &listed(pairs), 7, Sign::Unsigned).unwrap_err();
        assert_eq!((said.refusal, said.at, said.cut), (refusal, None, None), "{pairs:?}");
    };
    // Not from 0, equal, falling, past the end, none for a column with bytes; before the want of room.
    for pairs in [
        &[(1, 5)][..],
        &[(0, 5), (0, 3)],
        &[(0, 5), (7, 3), (3, 5)],
        &[(0, 5), (12, usize::MAX)],
        &[(0, 5), (usize::MAX, 3)],
        &[],
    ] {
        refused(&THREE, pairs, Refusal::WrongStarts);
    }
    // More rows than any room holds, and no endless work.
    for rows in [usize::MAX, usize::MAX / 3, 1 << 40] {
        refused(&[0xFF], &[(0, rows)], Refusal::TooFewPlaces);
        refused(&[0x0A, 0x01, 0x2C, 0xFF], &[(0, 5), (3, rows), (4, rows)], Refusal::TooFewPlaces);
    }
}

/// Every byte of a sample of 20 groups changed to every other value: the result reads whole with the listed
/// rows, and a group that is replaced held the damaged byte.
#[test]
fn every_damage() {
    let (column, pairs) = groups::sample();
    let listed = listed(&pairs);
    assert_eq!(listed.len(), 20);
    let rows = Column::new(&column, Sign::Unsigned).to_vec().unwrap();
    let (mut replaced, mut kept) = (0, 0);
    for at in 0..column.len() {
        let holder = listed.iter().rposition(|group| group.start.0 <= at).unwrap();
        for by in 1..=255 {
            let mut damaged = column.clone();
            damaged[at] ^= by;
            let salvaged = salvage(&damaged, &listed, -1, Sign::Unsigned).unwrap();
            let read = Column::new(&salvaged.bytes, Sign::Unsigned).to_vec().expect("it reads whole");
            assert_eq!(read.len(), rows.len());
            let numbers: Vec<usize> = salvaged.replaced().collect();
            assert!(numbers.iter().all(|number| *number == holder), "byte {at}: {numbers:?}");
            // All rows of other groups stand where they stood.
            let before: usize = listed[..holder].iter().map(|group| group.rows.0).sum();
            let behind = before + listed[holder].rows.0;
            assert_eq!((&read[..before], &read[behind..]), (&rows[..before], &rows[behind..]));
            if numbers.is_empty() {
                kept += 1;
            } else {
                replaced += 1;
                assert!(read[before..behind].iter().all(|row| *row == -1));
            }
        }
    }
    println!("{replaced} damages replaced a group, {kept} kept all");
    assert!(replaced > 10_000 && kept > 10_000);
}
