//! Columns: all at once, by runs and by rows, and nothing allocated for a run.
use std::alloc::{GlobalAlloc, Layout, System};
use std::cell::Cell;

use menakovitsy::*;

/// Five rows of 300, then 1, 2, 3, then a run that is cut.
const CUT: [u8; 9] = [0x0A, 0x01, 0x2C, 0x46, 0x02, 0x12, 0x30, 0x46, 0x02];

const ROWS: [i64; 8] = [300, 300, 300, 300, 300, 1, 2, 3];

thread_local! {
    static ALLOCATIONS: Cell<usize> = const { Cell::new(0) };
}

struct Counting;

// SAFETY: all is the system's; the count changes nothing of it.
unsafe impl GlobalAlloc for Counting {
    unsafe fn alloc(&self, layout: Layout) -> *mut u8 {
        ALLOCATIONS.with(|count| count.set(count.get() + 1));
        System.alloc(layout)
    }

    unsafe fn dealloc(&self, pointer: *mut u8, layout: Layout) {
        System.dealloc(pointer, layout);
    }
}

#[global_allocator]
static ALLOCATOR: Counting = Counting;

fn whole() -> Column<'static> {
    Column::new(&CUT[..7], Sign::Unsigned)
}

fn cut() -> Column<'static> {
    Column::new(&CUT, Sign::Unsigned)
}

fn is_the_cut(refused: StreamRefused) {
    assert_eq!((refused.refused.refusal, refused.refused.at), (Refusal::RowsCut, Some(ByteOffset(7))));
    assert_eq!(refused.refused.cut, Some(ByteOffset(9)));
    assert_eq!((refused.before.rows, refused.before.bytes), (RowNumber(8), ByteOffset(7)));
    assert_eq!(refused.before.last.map(|run| (run.kind, run.width)), Some((Kind::Direct, 4)));
    let told = refused.to_string();
    assert!(told.starts_with("the run at byte 7, after 8 rows: refusal 13: the block "), "{told}");
    assert!(told.contains(" that begins at byte 9 is cut (call again with more bytes; "), "{told}");
}

#[test]
fn all_at_once() {
    let mut rows = [7777; 10];
    let read = whole().read_into(&mut rows).unwrap();
    assert_eq!((read.rows, read.bytes), (RowNumber(8), ByteOffset(7)));
    assert_eq!((&rows[..8], &rows[8..]), (&ROWS[..], &[7777; 2][..]));
    assert_eq!(whole().to_vec().unwrap(), ROWS);
    assert_eq!(whole().starting_at(ByteOffset(3)).to_vec().unwrap(), [1, 2, 3]);
    let mut rows = [7777; 10];
    is_the_cut(cut().read_into(&mut rows).unwrap_err());
    assert_eq!((&rows[..8], &rows[8..]), (&ROWS[..], &[7777; 2][..]));
    is_the_cut(cut().to_vec().unwrap_err());
    let mut kept = vec![7777];
    is_the_cut(cut().read_to_end(&mut kept).unwrap_err());
    assert_eq!((kept[0], &kept[1..]), (7777, &ROWS[..]));
    assert_eq!(whole().read_to_end(&mut kept), Ok(RowNumber(8)));
    assert_eq!((kept.len(), &kept[9..]), (17, &ROWS[..]));
    // Too few places: the run that has none is refused, those before it stand.
    let mut rows = [7777; 7];
    let refused = whole().read_into(&mut rows).unwrap_err();
    assert_eq!((refused.refused.refusal, refused.before.rows), (Refusal::TooFewPlaces, RowNumber(5)));
    assert_eq!(rows, [300, 300, 300, 300, 300, 7777, 7777]);
}

/// More rows than are made places for at first.
#[test]
fn long_columns() {
    let step = [0xC1, 0xFF, 0x00, 0x02]; // 512 rows: 0, 1, 2, ..
    let bytes = step.repeat(100);
    let rows = Column::new(&bytes, Sign::Unsigned).to_vec().unwrap();
    assert_eq!(rows.len(), 51_200);
    assert!(rows.iter().enumerate().all(|(k, row)| *row == (k % 512) as i64));
    // Damage after that many rows costs none of them, nor those that the list had before.
    let damaged = [&bytes[..], &CUT[7..]].concat();
    let mut kept = vec![7777; 3];
    let refused = Column::new(&damaged, Sign::Unsigned).read_to_end(&mut kept).unwrap_err();
    assert_eq!((refused.refused.refusal, refused.refused.at), (Refusal::RowsCut, Some(ByteOffset(400))));
    assert_eq!((refused.before.rows, refused.before.bytes), (RowNumber(51_200), ByteOffset(400)));
    assert_eq!(refused.before.last.map(|run| (run.kind, run.rows)), Some((Kind::Delta, RowNumber(512))));
    assert_eq!((&kept[..3], &kept[3..]), (&[7777; 3][..], &rows[..]));
}

#[test]
fn by_runs() {
    let mut runs = cut().runs();
    let first = runs.next_run().unwrap().unwrap();
    assert_eq!((first.at, first.first, first.run.kind), (ByteOffset(0), RowNumber(0), Kind::ShortRepeat));
    assert_eq!(first.rows, [300; 5]);
    let second = runs.next_run().unwrap().unwrap();
    assert_eq!((second.at, second.first, second.run.bytes), (ByteOffset(3), RowNumber(5), ByteOffset(4)));
    assert_eq!(second.rows, [1, 2, 3]);
    is_the_cut(runs.next_run().unwrap().unwrap_err());
    assert!(runs.next_run().is_none());
    assert_eq!((runs.position(), runs.given().rows), (ByteOffset(7), RowNumber(8)));
    assert!(Column::new(&[], Sign::Signed).runs().next_run().is_none());
}

#[test]
fn by_rows() {
    assert_eq!(whole().rows().collect::<Result<Vec<i64>, _>>().unwrap(), ROWS);
    let mut rows = cut().into_iter();
    for row in ROWS {
        assert_eq!(rows.next(), Some(Ok(row)));
    }
    is_the_cut(rows.next().unwrap().unwrap_err());
    assert_eq!((rows.next(), rows.next()), (None, None));
}

/// Short runs and runs of 512 rows, so that the places end at every sort of row; then the column is cut. One by
/// one, by `fold`, and by both.
#[test]
fn by_many_rows() {
    let long = [&[0x4F, 0xFF][..], &[7; 512]].concat();
    for before in [0, 1, 2, 3, 60, 130, 300] {
        let bytes = [&CUT[..7].repeat(before)[..], &long, &long, &CUT[..7], &long[..200]].concat();
        let rows = [&ROWS.repeat(before)[..], &[7; 1024], &ROWS].concat();
        let column = Column::new(&bytes, Sign::Unsigned);
        let whole: Vec<i64> = column.rows().map_while(Result::ok).collect();
        assert_eq!(whole, rows);
        for given in [0, 1, 17, 500, 1024] {
            let mut some = column.rows();
            assert!(some.by_ref().take(given).eq(rows.iter().take(given).map(|row| Ok(*row))));
            let rest = rows.get(given..).unwrap_or_default();
            let (held, most) = some.size_hint();
            assert!(held <= rest.len() && most.is_none());
            let mut places = rest.iter();
            let refused = some.fold(None, |refused, row| match row {
                Ok(row) => {
                    assert_eq!((refused, Some(&row)), (None, places.next()));
                    None
                }
                Err(refused) => Some(refused),
            });
            let refused = refused.unwrap();
            assert_eq!((refused.refused.refusal, places.len()), (Refusal::RowsCut, 0));
            assert_eq!(refused.before.rows, RowNumber(rows.len()));
            assert_eq!(refused.refused.at, Some(ByteOffset(bytes.len() - 200)));
        }
    }
}

#[test]
fn nothing_is_allocated_for_a_run() {
    let bytes = CUT[..7].repeat(1000);
    let column = Column::new(&bytes, Sign::Unsigned);
    let mut places = vec![0; 8000];
    let before = ALLOCATIONS.with(Cell::get);
    let mut sum = 0;
    let mut runs = column.runs();
    while let Some(run) = runs.next_run() {
        sum += run.unwrap().rows.iter().sum::<i64>();
    }
    let _ = column.read_into(&mut places).unwrap();
    sum += places.iter().sum::<i64>();
    let allocated = ALLOCATIONS.with(Cell::get) - before;
    assert_eq!((sum, allocated), (2 * 1000 * 1506, 0));
    // Row by row, places are made once: a few, and then many.
    assert_eq!(column.rows().sum::<Result<i64, _>>(), Ok(1000 * 1506));
    assert_eq!(ALLOCATIONS.with(Cell::get) - before, 3);
}
