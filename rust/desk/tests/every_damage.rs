//! Every byte of a column of 2,000 rows changed to every other value, and its rows rescued by the positions of
//! ten row groups, which begin inside runs. Only groups with rows of the damaged run are replaced, and every row
//! of the others is right, or the damaged run still reads.
mod indexed;

use std::collections::BTreeSet;
use std::ops::Range;

use indexed::{positions, runs, written};
use menakovitsy::{rescue_into, Sign};
use model::{read_run, Answer, Positions, Rescued};

const ROWS: usize = 2_000;
const GROUP: usize = 200;
const FILL: i64 = -1;

/// The changes of a byte that are held to the model, whole: it takes its time.
const HELD: [u8; 2] = [0x01, 0x80];

/// Rows in stretches that end inside groups, for runs of every kind: equal steps; small numbers; some equal rows
/// each; small numbers with a few that are huge; and steps that differ a little.
fn sample() -> Vec<i64> {
    let noise = |k: i64| (k * 0x9E37_79B1) >> 12 & 0xF_FFFF;
    let row = |k: i64| match k / 130 % 5 {
        0 => 22_050 * k,
        1 => noise(k) % 251,
        2 => noise(k / 7),
        3 => noise(k) % 16 + i64::from(noise(k) % 53 == 0) * 1_000_000,
        _ => 22_050 * k + noise(k) % 90,
    };
    (0..ROWS as i64).map(row).collect()
}

/// The column, and what is rescued of it.
struct Rescue {
    rows: Vec<i64>,
    columns: [Vec<u64>; 3],
    rescued: Vec<i64>,
    verdicts: Vec<u8>,
}

/// What a damage comes to.
#[derive(Debug, Default)]
struct Seen {
    /// Groups were replaced, and every row of the others is right.
    replaced: usize,
    /// All groups were kept, and every row is right.
    harmless: usize,
    /// The damaged run still reads, and rows of a group that was kept are wrong: of all groups, or of one beside
    /// another that was replaced.
    all_kept: usize,
    some_kept: usize,
}

impl Rescue {
    fn new(rows: Vec<i64>, bytes: &[u8]) -> Self {
        let groups = positions(bytes, GROUP);
        let column = |of: usize| groups.iter().map(|group| group[of] as u64).collect();
        let columns = [column(0), column(1), column(2)];
        Rescue { rows, columns, rescued: vec![0; ROWS], verdicts: vec![0; ROWS / GROUP] }
    }

    /// Rescues what is left. Whether a group was replaced, and whether a row of one that was kept is wrong. All
    /// groups but those with rows of the damaged run are kept, and are right.
    fn left(&mut self, bytes: &[u8], run: &Range<usize>) -> (bool, bool) {
        let columns = self.columns.each_ref().map(Vec::as_slice);
        let done =
            rescue_into(bytes, columns, FILL, Sign::Unsigned, &mut self.rescued, &mut self.verdicts).unwrap();
        assert_eq!(done.rows.0, ROWS);
        let (mut replaced, mut wrong) = (false, false);
        let groups = self.rescued.chunks(GROUP).zip(self.rows.chunks(GROUP));
        for (number, (rescued, rows)) in groups.enumerate() {
            let shares = number * GROUP < run.end && run.start < (number + 1) * GROUP;
            match self.verdicts[number] {
                0 => {
                    assert!(shares && rescued.iter().all(|row| *row == FILL), "group {number} {bytes:02x?}");
                    replaced = true;
                }
                1 if rescued == rows => {}
                1 => {
                    assert!(shares, "group {number} {bytes:02x?}");
                    wrong = true;
                }
                other => panic!("{other} is no verdict"),
            }
        }
        (replaced, wrong)
    }

    /// Holds the last verdicts and rows to the model.
    fn is_the_models(&self, bytes: &[u8]) {
        let [runs, skips, counts] = self.columns.each_ref().map(Vec::as_slice);
        let groups = Positions { runs, skips, counts };
        let kept = self.verdicts.iter().map(|verdict| *verdict == 1).collect();
        let answer = model::rescue(bytes, false, groups, FILL, [ROWS, self.verdicts.len()]);
        assert!(answer == Rescued::Given { kept, rows: self.rescued.clone() }, "{bytes:02x?}");
    }
}

/// All damages of one byte.
fn damages(column: &[u8], rescue: &mut Rescue) -> Seen {
    let mut damaged = column.to_vec();
    let mut seen = Seen::default();
    for run in runs(column) {
        for at in run.bytes.clone() {
            for by in 1..=255 {
                damaged[at] = column[at] ^ by;
                let (replaced, wrong) = rescue.left(&damaged, &run.rows);
                if HELD.contains(&by) {
                    rescue.is_the_models(&damaged);
                }
                match (replaced, wrong) {
                    (true, false) => seen.replaced += 1,
                    (false, false) => seen.harmless += 1,
                    (replaced, true) => {
                        let read = read_run(&damaged, run.bytes.start, false, usize::MAX);
                        assert!(matches!(read, Answer::Run(_)), "{read:?}");
                        seen.all_kept += usize::from(!replaced);
                        seen.some_kept += usize::from(replaced);
                    }
                }
            }
            damaged[at] = column[at];
        }
    }
    seen
}

#[test]
fn every_byte_by_every_value() {
    let rows = sample();
    let column = written(&rows);
    let kinds: BTreeSet<u8> = runs(&column).iter().map(|run| column[run.bytes.start] >> 6).collect();
    assert_eq!(kinds.len(), 4, "runs of every kind");
    let mut rescue = Rescue::new(rows, &column);
    assert!(
        rescue.columns[1][1..].iter().all(|skip| *skip > 0),
        "all groups but the first begin inside a run"
    );
    assert_eq!(rescue.left(&column, &(0..0)), (false, false));
    let seen = damages(&column, &mut rescue);
    println!("{} bytes, {} runs: {seen:?}", column.len(), runs(&column).len());
    let Seen { replaced, harmless, all_kept, some_kept } = seen;
    assert_eq!(replaced + harmless + all_kept + some_kept, 255 * column.len());
    // Most bytes are packed rows, in which no fault shows.
    assert!(replaced > 10_000 && all_kept > 10_000 && some_kept > 100);
}
