//! FORMAT.md, "Column writer": which proposals are accepted, and what is written instead. Lines written out
//! by hand.
use model::*;

fn bytes(hex: &str) -> Vec<u8> {
    let digits: Vec<u32> = hex.chars().filter_map(|c| c.to_digit(16)).collect();
    digits.chunks(2).map(|two| (two[0] * 16 + two[1]) as u8).collect()
}

/// Five rows 300, then 1, 2, 3, then 10, 12, 14, 16, 18, then 101, 102, 183, 104, then 100, 97, 96, 92.
const ROWS: [i64; 21] =
    [300, 300, 300, 300, 300, 1, 2, 3, 10, 12, 14, 16, 18, 101, 102, 183, 104, 100, 97, 96, 92];

fn segment(first: u64, rows: u64, form: u64, width: u64, base: i64) -> Segment {
    Segment { first, rows, form, width, base: base as u64 }
}

/// One run of each form.
fn proposal() -> Vec<Segment> {
    vec![
        segment(0, 5, 0, 2, 0),
        segment(5, 3, 1, 3, 0),
        segment(8, 5, 2, 0, 0),
        segment(13, 4, 4, 4, 100),
        segment(17, 4, 3, 3, 0),
    ]
}

const PLANNED: &str = "0A012C 46021230 C0040A04 8603022164 1234 A8 C603640514";

/// 21 rows of 64 bits.
fn direct() -> Vec<u8> {
    let rows: String = ROWS.iter().map(|row| format!("{row:016X}")).collect();
    bytes(&format!("7E14{rows}"))
}

#[test]
fn an_accepted_proposal() {
    let planned = Column::Planned(bytes(PLANNED));
    assert_eq!(bytes(PLANNED).len(), 24);
    for lent in [24, 25, 60_000] {
        assert_eq!(write_column(&ROWS, false, &proposal(), lent), planned);
    }
    // "The stream reads back as the rows", with bases where no form looks at them.
    let mut based = proposal();
    based.iter_mut().filter(|segment| segment.form != 4).for_each(|segment| segment.base = u64::MAX);
    assert_eq!(write_column(&ROWS, false, &based, 24), planned);
    let Stream::Whole { rows, .. } = read_stream(&bytes(PLANNED), 0, false, 99) else { panic!() };
    assert_eq!(rows, ROWS);
}

#[test]
fn what_is_not_accepted() {
    let not = |change: &dyn Fn(&mut Vec<Segment>)| {
        let mut changed = proposal();
        change(&mut changed);
        assert_eq!(check_proposal(&ROWS, false, &changed, 60_000), None, "{changed:?}");
        assert_eq!(write_column(&ROWS, false, &changed, 60_000), Column::Direct(direct()), "{changed:?}");
    };
    // A row missing between two runs, at the end, at the start; one twice; two runs exchanged.
    not(&|plan| plan[2] = segment(9, 4, 2, 0, 0));
    not(&|plan| plan.truncate(4));
    not(&|plan| plan.retain(|segment| segment.first != 0));
    not(&|plan| plan[2] = segment(7, 6, 1, 31, 0));
    not(&|plan| plan.swap(0, 1));
    not(&|plan| plan.clear());
    // Past the end; past every number.
    not(&|plan| plan[4].rows = 5);
    not(&|plan| plan[4].rows = u64::MAX);
    not(&|plan| plan[4].first = u64::MAX);
    not(&|plan| plan.push(segment(21, 1, 1, 3, 0)));
    // A segment of no rows, at the start, between two and at the end.
    not(&|plan| plan.insert(0, segment(0, 0, 1, 3, 0)));
    not(&|plan| plan.insert(2, segment(8, 0, 2, 0, 0)));
    not(&|plan| plan.push(segment(21, 0, 1, 3, 0)));
    // What the run's writer refuses: another form, a width that is none of the form's or too narrow,
    // a base that leaves no patch field.
    not(&|plan| plan[1].form = 0);
    not(&|plan| plan[1].form = 2);
    not(&|plan| plan[1].form = 5);
    not(&|plan| plan[1].form = u64::MAX);
    not(&|plan| plan[0].width = 1);
    not(&|plan| plan[1].width = 2);
    not(&|plan| plan[1].width = 32);
    not(&|plan| plan[1].width = 256 + 3);
    not(&|plan| plan[1].width = u64::MAX);
    not(&|plan| plan[3].width = 5);
    not(&|plan| plan[3].width = (1 << 32) + 4);
    not(&|plan| plan[3].base = i64::MIN as u64);
    not(&|plan| plan[3].base = 110);
}

#[test]
fn room() {
    // The proposal's 24 bytes don't fit, and neither do the 170 of the direct run.
    assert_eq!(write_column(&ROWS, false, &proposal(), 23), Column::Refused(Refusal::whole(8, 0)));
    assert_eq!(check_proposal(&ROWS, false, &proposal(), 23), None);
    assert_eq!(direct().len(), 170);
    assert_eq!(write_column(&ROWS, false, &[], 170), Column::Direct(direct()));
    assert_eq!(write_column(&ROWS, false, &[], 169), Column::Refused(Refusal::whole(8, 0)));
    // A proposal that is longer than the direct run: a direct run of 64 bits for each row, 210 bytes.
    let each: Vec<Segment> = (0..21).map(|row| segment(row, 1, 1, 31, 0)).collect();
    assert!(matches!(write_column(&ROWS, false, &each, 210), Column::Planned(bytes) if bytes.len() == 210));
    assert_eq!(write_column(&ROWS, false, &each, 209), Column::Direct(direct()));
}

#[test]
fn no_rows() {
    // No bytes, by the empty proposal; any other is not accepted.
    assert_eq!(write_column(&[], false, &[], 0), Column::Planned(vec![]));
    assert_eq!(write_column(&[], true, &[segment(0, 0, 1, 3, 0)], 0), Column::Direct(vec![]));
    assert_eq!(write_column(&[], true, &[segment(0, 1, 1, 3, 0)], 0), Column::Direct(vec![]));
}

#[test]
fn five_columns() {
    let columns = |of: fn(&Segment) -> u64| proposal().iter().map(of).collect::<Vec<u64>>();
    let whole: [Vec<u64>; 5] = [
        columns(|segment| segment.first),
        columns(|segment| segment.rows),
        columns(|segment| segment.form),
        columns(|segment| segment.width),
        columns(|segment| segment.base),
    ];
    assert_eq!(proposal_of(whole.each_ref().map(Vec::as_slice)), Some(proposal()));
    assert_eq!(proposal_of([&[]; 5]), Some(vec![]));
    // Unequal columns are no proposal.
    for which in 0..5 {
        let mut unequal = whole.clone();
        unequal[which].push(0);
        assert_eq!(proposal_of(unequal.each_ref().map(Vec::as_slice)), None);
        unequal[which].truncate(4);
        assert_eq!(proposal_of(unequal.each_ref().map(Vec::as_slice)), None);
    }
    assert_eq!(write_direct(&ROWS, false, 170), Column::Direct(direct()));
    assert_eq!(write_direct(&ROWS, false, 169), Column::Refused(Refusal::whole(8, 0)));
}

#[test]
fn direct_runs_of_512_rows() {
    let rows: Vec<i64> = (0..1030).map(|row| row - 500).collect();
    for signed in [false, true] {
        let Column::Direct(bytes) = write_column(&rows, signed, &[], 60_000) else { panic!() };
        // 512, 512 and 6 rows of eight bytes, two header bytes each.
        assert_eq!(bytes.len(), 3 * 2 + 8 * 1030);
        let begins = [0, 2 + 8 * 512, 2 * (2 + 8 * 512)];
        assert_eq!(begins.map(|at| [bytes[at], bytes[at + 1]]), [[0x7F, 0xFF], [0x7F, 0xFF], [0x7E, 0x05]]);
        let Stream::Whole { rows: read, .. } = read_stream(&bytes, 0, signed, 2000) else { panic!() };
        assert_eq!(read, rows);
    }
}

#[test]
fn the_flag() {
    // -1, 1, -2 at four bits: only signed.
    let plan = [segment(0, 3, 1, 3, 0)];
    assert_eq!(write_column(&[-1, 1, -2], true, &plan, 9), Column::Planned(bytes("46021230")));
    assert!(matches!(write_column(&[-1, 1, -2], false, &plan, 99), Column::Direct(_)));
    // A patched run is the same under both.
    let plan = [segment(0, 4, 4, 4, 100)];
    for signed in [false, true] {
        let planned = Column::Planned(bytes("86030221641234A8"));
        assert_eq!(write_column(&[101, 102, 183, 104], signed, &plan, 9), planned);
    }
}
