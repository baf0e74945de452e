//! FORMAT.md, "Column writer": columns by a proposal and by the planner, through the wrapper.
use menakovitsy::*;

/// Five rows 300, then 1, 2, 3, then 10, 12, 14, 16, 18, then 101, 102, 183, 104, then 100, 97, 96, 92.
const ROWS: [i64; 21] =
    [300, 300, 300, 300, 300, 1, 2, 3, 10, 12, 14, 16, 18, 101, 102, 183, 104, 100, 97, 96, 92];

/// What the five runs are, by FORMAT.md, "Run writer" and "Patched writer".
const PLANNED: [u8; 24] = [
    0x0A, 0x01, 0x2C, 0x46, 0x02, 0x12, 0x30, 0xC0, 0x04, 0x0A, 0x04, 0x86, 0x03, 0x02, 0x21, 0x64, 0x12,
    0x34, 0xA8, 0xC6, 0x03, 0x64, 0x05, 0x14,
];

/// By the number of its form.
fn segment(first: usize, rows: usize, form: u64, width: u64, base: i64) -> Segment {
    Segment { first: RowNumber(first), rows: RowNumber(rows), form: Form::of_number(form), width, base }
}

/// A run of each form.
fn segments() -> Vec<Segment> {
    vec![
        segment(0, 5, 0, 2, 0),
        segment(5, 3, 1, 3, 0),
        segment(8, 5, 2, 0, 0),
        segment(13, 4, 4, 4, 100),
        segment(17, 4, 3, 3, 0),
    ]
}

/// What direct runs of 64 bits are.
fn direct(rows: &[i64]) -> Vec<u8> {
    let run = |some: &[i64]| {
        let last = some.len() - 1;
        let header = [0x7E | (last >> 8) as u8, last as u8];
        header.into_iter().chain(some.iter().flat_map(|row| row.to_be_bytes())).collect::<Vec<u8>>()
    };
    rows.chunks(512).flat_map(run).collect()
}

/// Writes by a proposal into that many bytes, and answers those that changed with the answer.
fn written(rows: &[i64], proposal: &Proposal, lent: usize) -> Result<(WrittenColumn, Vec<u8>), Refused> {
    let mut out = vec![0xEE; lent];
    let answer = write_proposed(rows, Sign::Unsigned, proposal, &mut out);
    let given = answer.map_or(0, |written| written.bytes.0);
    assert!(out[given..].iter().all(|byte| *byte == 0xEE), "a byte behind the column changed");
    let check = check_column(rows, Sign::Unsigned, proposal, lent).expect("the check answers");
    assert_eq!(check, answer.ok().filter(|written| written.planned));
    out.truncate(given);
    answer.map(|written| (written, out))
}

#[test]
fn accepted() {
    let proposal: Proposal = segments().into_iter().collect();
    assert_eq!(proposal.segments().collect::<Vec<_>>(), segments());
    for lent in [24, 25, 170, 1000] {
        let (column, bytes) = written(&ROWS, &proposal, lent).unwrap();
        assert_eq!(bytes, PLANNED);
        assert_eq!((column.planned, column.runs, column.rows.0, column.bytes.0), (true, 5, 21, 24));
    }
    let refused = written(&ROWS, &proposal, 23).unwrap_err();
    assert_eq!((refused.refusal, refused.at, refused.cut), (Refusal::TooFewPlaces, None, None));
}

#[test]
fn not_accepted() {
    let not = |proposal: Proposal| {
        let (column, bytes) = written(&ROWS, &proposal, 1000).unwrap();
        assert_eq!(bytes, direct(&ROWS));
        assert_eq!((column.planned, column.runs, column.rows.0, column.bytes.0), (false, 1, 21, 170));
        assert_eq!(written(&ROWS, &proposal, 170).unwrap().1, direct(&ROWS));
        assert_eq!(written(&ROWS, &proposal, 169).unwrap_err().refusal, Refusal::TooFewPlaces);
    };
    let changed = |change: &dyn Fn(&mut Vec<Segment>)| {
        let mut segments = segments();
        change(&mut segments);
        not(segments.into_iter().collect());
    };
    changed(&|plan| plan.clear());
    changed(&|plan| plan.truncate(4));
    changed(&|plan| plan.swap(0, 1));
    changed(&|plan| plan[2] = segment(7, 6, 1, 31, 0));
    changed(&|plan| plan[2] = segment(9, 4, 2, 0, 0));
    changed(&|plan| plan[4].rows = RowNumber(usize::MAX));
    changed(&|plan| plan[4].first = RowNumber(usize::MAX));
    changed(&|plan| plan.push(segment(21, 0, 1, 31, 0)));
    changed(&|plan| plan[1].form = Form::Unknown(5));
    changed(&|plan| plan[1].form = Form::Unknown(u64::MAX));
    changed(&|plan| plan[1].width = 256 + 3);
    changed(&|plan| plan[3].width = (1 << 32) + 4);
    changed(&|plan| plan[3].base = i64::MIN);
    // Columns of unequal lengths, whichever is the longer or the shorter.
    for which in 0..5 {
        let mut columns = segments().into_iter().collect::<Proposal>().columns().map(<[u64]>::to_vec);
        columns[which].push(0);
        not(Proposal::of_columns(columns.clone()));
        columns[which].truncate(4);
        not(Proposal::of_columns(columns));
    }
}

#[test]
fn no_rows() {
    let none = Proposal::default();
    let (column, _) = written(&[], &none, 0).unwrap();
    assert_eq!((column.planned, column.runs, column.rows.0, column.bytes.0), (true, 0, 0, 0));
    let (column, _) = written(&[], &[segment(0, 0, 1, 3, 0)].into_iter().collect(), 9).unwrap();
    assert_eq!((column.planned, column.runs, column.bytes.0), (false, 0, 0));
    assert_eq!(plan(&[], Sign::Signed), none);
    assert!(write_column(&[], Sign::Signed, &mut []).unwrap().planned);
}

/// Columns of rows of many sorts.
fn columns() -> Vec<Vec<i64>> {
    let mut state = 1u64;
    let mut roll = || {
        state = state.wrapping_mul(6_364_136_223_846_793_005).wrapping_add(1_442_695_040_888_963_407);
        state ^ state >> 29
    };
    let mut random = |count: usize, bits: u32| (0..count).map(|_| (roll() >> (64 - bits)) as i64).collect();
    vec![
        (0..5000).map(|row| 4096 * row).collect(),
        vec![i64::MIN; 700],
        random(2000, 64),
        random(2000, 13),
        random(513, 1),
        (0..3000).map(|row| if row % 40 == 7 { 1 << 40 } else { row % 9 }).collect(),
        // Rows of one bit and of 64 by turns, where runs of a row or two are cheap.
        (0..900).map(|row| if row % 2 == 0 { 1 } else { i64::MIN + row }).collect(),
        vec![7],
        vec![7, 9],
    ]
}

#[test]
fn the_planner_s_columns_read_back() {
    for rows in columns() {
        for sign in [Sign::Unsigned, Sign::Signed] {
            let room = column_room(rows.len());
            assert_eq!(room, direct(&rows).len());
            let proposal = plan(&rows, sign);
            let mut out = vec![0xEE; room];
            let column = write_column(&rows, sign, &mut out).unwrap();
            assert_eq!(check_column(&rows, sign, &proposal, room), Ok(Some(column)));
            assert!(column.planned && column.runs == proposal.columns()[0].len());
            assert!(out[column.bytes.0..].iter().all(|byte| *byte == 0xEE));
            assert_eq!(Column::new(&out[..column.bytes.0], sign).to_vec().unwrap(), rows);
            // Just enough room, and a byte too few.
            let just = &mut out[..column.bytes.0];
            assert_eq!(write_proposed(&rows, sign, &proposal, just), Ok(column));
            let short = vec![0; column.bytes.0 - 1];
            let refused = write_proposed(&rows, sign, &proposal, &mut short.clone()).unwrap_err();
            assert_eq!(refused.refusal, Refusal::TooFewPlaces);
        }
    }
}

#[test]
fn the_segments_that_are_lent() {
    for rows in columns() {
        let proposal = plan(&rows, Sign::Signed);
        let whole = proposal.columns();
        let most = whole[0].len();
        // With too few places for the planner's best, direct runs of 64 bits; none if these lack places too.
        let direct = rows.len().div_ceil(512);
        let with = |lent: usize| {
            if lent >= most {
                most
            } else if lent >= direct {
                direct
            } else {
                0
            }
        };
        for lent in [0, 1, direct - 1, direct, most - 1, most, most + 1, most + 99, rows.len()] {
            let mut columns = [(); 5].map(|()| vec![7777; lent]);
            let segments = plan_into(&rows, Sign::Signed, columns.each_mut().map(Vec::as_mut_slice));
            assert_eq!(segments, with(lent));
            let [first, counts, forms, widths, bases] = columns.each_ref().map(|column| &column[..segments]);
            if lent >= most {
                assert_eq!([first, counts, forms, widths, bases], whole);
                continue;
            }
            for run in 0..segments {
                let row = 512 * run;
                assert_eq!([first[run], counts[run]], [row, (rows.len() - row).min(512)].map(|n| n as u64));
                assert_eq!([forms[run], widths[run], bases[run]], [1, 31, 0]);
            }
        }
        // The shortest of the five counts.
        for which in 0..5 {
            for places in [most - 1, direct - 1] {
                let mut columns = [(); 5].map(|()| vec![7777; most + 3]);
                columns[which].truncate(places);
                let segments = plan_into(&rows, Sign::Signed, columns.each_mut().map(Vec::as_mut_slice));
                assert_eq!(segments, with(places.min(most + 3)));
            }
        }
    }
}
