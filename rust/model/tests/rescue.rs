//! Rows rescued by positions: what is kept and what is replaced. Lines written out by hand.
use model::*;

fn bytes(hex: &str) -> Vec<u8> {
    let digits: Vec<u32> = hex.chars().filter_map(|c| c.to_digit(16)).collect();
    digits.chunks(2).map(|two| (two[0] * 16 + two[1]) as u8).collect()
}

/// Five rows 300 at byte 0, then 1, 2, 3 at byte 3, then 10, 12, 14, 16, 18 at byte 7: 11 bytes.
const THREE: &str = "0A012C 46021230 C0040A04";
/// The same with the second run damaged: refused with 4 at byte 3.
const DAMAGED: &str = "0A012C C2001230 C0040A04";

/// Each group's run, skip and count.
type Groups<'a> = &'a [(u64, u64, u64)];

fn rescued(input: &str, groups: Groups, places: [usize; 2]) -> Rescued {
    let column = |of: fn(&(u64, u64, u64)) -> u64| groups.iter().map(of).collect::<Vec<u64>>();
    let (runs, skips, counts) = (column(|group| group.0), column(|group| group.1), column(|group| group.2));
    let positions = Positions { runs: &runs, skips: &skips, counts: &counts };
    rescue(&bytes(input), false, positions, -7, places)
}

/// The verdicts and the rows, with just enough places and with more.
fn given(input: &str, groups: Groups, verdicts: &str, rows: &[i64]) {
    let kept = verdicts.chars().map(|digit| digit == '1').collect();
    let answer = Rescued::Given { kept, rows: rows.to_vec() };
    for places in [[rows.len(), groups.len()], [600, 60]] {
        assert_eq!(rescued(input, groups, places), answer, "{input} {groups:?}");
    }
}

const F: i64 = -7;
const ALL: [i64; 13] = [300, 300, 300, 300, 300, 1, 2, 3, 10, 12, 14, 16, 18];

#[test]
fn whole_streams() {
    given(THREE, &[(0, 0, 13)], "1", &ALL);
    given(THREE, &[(0, 0, 5), (3, 0, 3), (7, 0, 5)], "111", &ALL);
    // Groups that begin within a run.
    given(THREE, &[(0, 0, 3), (0, 3, 4), (3, 2, 6)], "111", &ALL);
    given(THREE, &[(0, 0, 1), (0, 1, 1), (0, 2, 11)], "111", &ALL);
    // Skips that pass a run, and all of them.
    given(THREE, &[(0, 0, 5), (0, 5, 3), (3, 3, 5)], "111", &ALL);
    given(THREE, &[(0, 0, 8), (0, 8, 4), (3, 7, 1)], "111", &ALL);
    // Under the other flag.
    let column = |numbers: &[u64]| numbers.to_vec();
    let (runs, skips, counts) = (column(&[0, 3]), column(&[0, 1]), column(&[6, 7]));
    let positions = Positions { runs: &runs, skips: &skips, counts: &counts };
    let rows = vec![150, 150, 150, 150, 150, -1, 1, -2, 5, 7, 9, 11, 13];
    let answer = Rescued::Given { kept: vec![true, true], rows };
    assert_eq!(rescue(&bytes(THREE), true, positions, 0, [13, 2]), answer);
}

#[test]
fn a_damaged_run_costs_the_groups_that_have_rows_of_it() {
    let one = [&ALL[..5], &[F; 3], &ALL[8..]].concat();
    given(DAMAGED, &[(0, 0, 5), (3, 0, 3), (7, 0, 5)], "101", &one);
    // The second position passes the first run, and nothing of the damaged one is read for it.
    given(DAMAGED, &[(0, 0, 5), (0, 5, 3), (7, 0, 5)], "101", &one);
    // The third position passes it: it can't be made plain, though the group has no row of it.
    given(DAMAGED, &[(0, 0, 5), (0, 5, 3), (0, 8, 5)], "100", &[&ALL[..5], &[F; 8]].concat());
    // Two groups have rows of it, and one ends before it within a run.
    let two = [&ALL[..3], &[F; 10]].concat();
    given(DAMAGED, &[(0, 0, 3), (0, 3, 4), (3, 2, 6)], "100", &two);
    // The third group's position can't be made plain: its run is damaged, and so is the second's.
    let plain = [&ALL[..5], &[F; 2], &[F; 1], &ALL[8..]].concat();
    given(DAMAGED, &[(0, 0, 5), (3, 0, 2), (3, 2, 1), (7, 0, 5)], "1001", &plain);
    // A cut: the last run's second varint is missing, and the two groups before it are whole.
    let cut = [&ALL[..8], &[F; 5]].concat();
    given(&THREE[..22], &[(0, 0, 5), (3, 0, 3), (7, 0, 5)], "110", &cut);
    given("FF", &[(0, 0, 2)], "0", &[F; 2]);
}

#[test]
fn counts_that_do_not_fit_the_positions() {
    // One row too few and one too many: that group's alone.
    given(THREE, &[(0, 0, 5), (3, 0, 2), (7, 0, 5)], "101", &[&ALL[..5], &[F; 2], &ALL[8..]].concat());
    given(THREE, &[(0, 0, 5), (3, 0, 4), (7, 0, 5)], "101", &[&ALL[..5], &[F; 4], &ALL[8..]].concat());
    // The last group ends at the input's end, and nowhere else.
    given(THREE, &[(0, 0, 8), (7, 0, 4)], "10", &[&ALL[..8], &[F; 4]].concat());
    given(THREE, &[(0, 0, 8), (7, 0, 6)], "10", &[&ALL[..8], &[F; 6]].concat());
    given(THREE, &[(0, 0, 5)], "0", &[F; 5]);
    // More rows than the input has before the next position: that group, and the one before.
    given(THREE, &[(0, 0, 13), (7, 6, 1)], "00", &[F; 14]);
}

#[test]
fn groups_of_no_rows() {
    given(THREE, &[(0, 0, 0), (0, 0, 5), (3, 0, 0), (3, 0, 3), (7, 0, 5)], "11111", &ALL);
    // The same place in another form.
    given(THREE, &[(0, 0, 5), (0, 5, 0), (3, 0, 8)], "111", &ALL);
    given(THREE, &[(0, 0, 13), (11, 0, 0)], "11", &ALL);
    given(THREE, &[(0, 0, 13), (0, 13, 0)], "11", &ALL);
    // Another place: not kept, and it has no rows.
    given(THREE, &[(0, 0, 5), (3, 0, 0), (7, 0, 5)], "101", &[&ALL[..5], &ALL[8..]].concat());
    given(THREE, &[(0, 0, 8), (7, 0, 0)], "10", &ALL[..8]);
    // A position that is not plain, twice: neither is kept.
    given(DAMAGED, &[(0, 0, 5), (3, 1, 0), (3, 1, 2), (7, 0, 5)], "0001", &[&[F; 7], &ALL[8..]].concat());
    // At a damaged run nothing is read.
    given(
        DAMAGED,
        &[(0, 0, 5), (3, 0, 0), (3, 0, 3), (7, 0, 5)],
        "1101",
        &[&ALL[..5], &[F; 3], &ALL[8..]].concat(),
    );
    // No input.
    given("", &[], "", &[]);
    given("", &[(0, 0, 0)], "1", &[]);
    given("", &[(0, 0, 3)], "0", &[F; 3]);
    given("", &[(0, 0, 0), (0, 1, 0)], "00", &[]);
}

#[test]
fn refusals() {
    let refused = |number| Rescued::Refused(Refusal::whole(number, 0));
    for groups in [
        // Not from (0, 0); a byte that falls, one past the end; a skip that falls; none for an input.
        &[(1, 0, 5)][..],
        &[(0, 1, 5)],
        &[(0, 0, 5), (7, 0, 3), (3, 0, 5)],
        &[(0, 0, 5), (12, 0, 3)],
        &[(0, 0, 5), (u64::MAX, 0, 3)],
        &[(0, 0, 5), (0, 3, 3), (0, 2, 5)],
        &[(0, 0, 5), (3, 1, 3), (3, 0, 5)],
        &[],
    ] {
        assert_eq!(rescued(THREE, groups, [0, 0]), refused(17), "{groups:?}");
        assert_eq!(rescued(THREE, groups, [600, 60]), refused(17), "{groups:?}");
    }
    assert_eq!(rescued("", &[(0, 0, 0), (1, 0, 0)], [9, 9]), refused(17));
    // A skip may fall where the byte rises, and a byte may be the end.
    given(THREE, &[(0, 0, 4), (0, 4, 4), (7, 0, 5)], "111", &ALL);
    given(THREE, &[(0, 0, 13), (11, 0, 1)], "10", &[&ALL[..], &[F]].concat());
    // Columns of unequal length.
    let columns: [[&[u64]; 3]; 4] =
        [[&[0], &[], &[5]], [&[0], &[0], &[]], [&[], &[], &[5]], [&[0, 3], &[0, 0], &[5]]];
    for [runs, skips, counts] in columns {
        let positions = Positions { runs, skips, counts };
        assert_eq!(rescue(&bytes("0A012C"), false, positions, 0, [99, 99]), refused(17));
    }
    // A row too few, a verdict too few, and sums that pass 64 bits.
    let groups = [(0, 0, 5), (3, 0, 3), (7, 0, 5)];
    assert_eq!(rescued(THREE, &groups, [12, 3]), refused(8));
    assert_eq!(rescued(THREE, &groups, [13, 2]), refused(8));
    assert_eq!(rescued(THREE, &[(0, 0, u64::MAX), (0, 0, 1)], [600, 60]), refused(8));
    assert_eq!(rescued(THREE, &[(0, 0, u64::MAX), (0, 0, u64::MAX), (0, 0, 2)], [600, 60]), refused(8));
}
