//! What the planner proposes is accepted as long as it says, and never above the direct runs of 64
//! bits; and the bars of request 10 on the named columns.
use model::{check_proposal, optimum, Lists, Segment};
use planning::{
    apache::apache,
    columns::*,
    patched,
    planner::{plan, proposed},
    runs::*,
};

#[test]
fn accepted_and_never_above() {
    let mut dice = Dice::new(1);
    for turn in 0..20_000 {
        let rows = stretches(&mut dice, if turn % 20 == 0 { 1500 } else { 40 });
        for signed in [false, true] {
            let bytes = bytes(&rows, signed, &proposed(&rows, signed)).expect("accepted");
            assert!(bytes <= 8 * rows.len() + 2 * rows.len().div_ceil(512), "{rows:?}");
        }
    }
}

#[test]
fn accepted_by_the_model_that_writes() {
    let mut dice = Dice::new(2);
    for _ in 0..150 {
        let rows = stretches(&mut dice, 90);
        for signed in [false, true] {
            for proposal in [proposed(&rows, signed), apache(&rows, signed)] {
                let size = bytes(&rows, signed, &proposal);
                let written = check_proposal(&rows, signed, &proposal, usize::MAX);
                assert_eq!(written.map(|bytes| bytes.len()), size);
                assert!(size.is_some(), "{rows:?} {proposal:?}");
            }
        }
    }
}

#[test]
fn no_patched_run_that_other_readers_lack() {
    let mut dice = Dice::new(3);
    for _ in 0..3000 {
        let rows = stretches(&mut dice, 300);
        for segment in proposed(&rows, true).iter().filter(|segment| segment.form == 4) {
            let rows = &rows[segment.first as usize..(segment.first + segment.rows) as usize];
            let (base, width) = (segment.base as i64, segment.width as usize);
            let (entries, size) = model::patched_size(rows, base, width).expect("accepted");
            assert!(entries > 0 && patched::bytes(rows, base, width) == Some(size));
        }
    }
}

#[test]
fn the_segments_that_are_lent() {
    let column = &columns(3000)[22];
    let whole = proposed(&column.rows, column.signed);
    for lent in 0..whole.len() + 5 {
        let mut segments = vec![Run::WIDEST.segment(0, 0); lent];
        let count = plan(&column.rows, column.signed, &mut segments);
        // None where they are too few, and the same where they are more.
        assert_eq!(&segments[..count], if lent < whole.len() { &[] } else { &whole[..] });
    }
    assert_eq!(plan(&[], false, &mut []), 0);
}

#[test]
fn at_most_what_apache_takes() {
    let (mut ours, mut theirs) = (0, 0);
    for (count, seed) in [(60, 1), (1000, 1), (5000, 1), (700, 2), (3000, 3)] {
        let both = |column: Named| [false, true].map(|signed| (column.name, signed, column.rows.clone()));
        for (name, signed, rows) in other_columns(count, seed).into_iter().flat_map(both) {
            let size = |proposal: Vec<Segment>| bytes(&rows, signed, &proposal).expect("accepted");
            let (planned, apache) = (size(proposed(&rows, signed)), size(apache(&rows, signed)));
            let narrowest = size(narrowest_direct(&rows, signed));
            assert!(planned <= apache, "{name} of {count}: {planned}, {apache}");
            assert!(planned <= narrowest, "{name} of {count}: {planned}, {narrowest}");
            (ours, theirs) = (ours + planned, theirs + apache);
        }
    }
    assert!(3 * ours < 2 * theirs, "{ours}, {theirs}");
}

#[test]
fn near_the_optimum_on_60_rows() {
    let (mut ours, mut least) = (0, 0);
    for column in columns(60) {
        ours += bytes(&column.rows, column.signed, &proposed(&column.rows, column.signed)).expect("accepted");
        least += optimum(&column.rows, column.signed, Lists::Any).0;
    }
    assert!(100 * ours <= 115 * least, "{ours}, {least}");
}
