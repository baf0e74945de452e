//! The Apache writer's choices, held to the specification's own examples: the bytes are those that its
//! public document shows.
use model::check_proposal;
use planning::apache::apache;

fn hex(rows: &[i64]) -> String {
    let bytes = check_proposal(rows, false, &apache(rows, false), usize::MAX).expect("accepted");
    bytes.iter().map(|byte| format!("{byte:02X}")).collect::<Vec<_>>().join(" ")
}

/// Rows and forms of the runs.
fn runs(rows: &[i64]) -> Vec<(u64, u64)> {
    apache(rows, true).iter().map(|segment| (segment.rows, segment.form)).collect()
}

#[test]
fn the_specification_s_examples() {
    assert_eq!(hex(&[10_000; 5]), "0A 27 10");
    assert_eq!(hex(&[23713, 43806, 57005, 48879]), "5E 03 5C A1 AB 1E DE AD BE EF");
    assert_eq!(hex(&[2, 3, 5, 7, 11, 13, 17, 19, 23, 29]), "C6 09 02 02 22 42 42 46");
    let rows = [
        2030, 2000, 2020, 1_000_000, 2040, 2050, 2060, 2070, 2080, 2090, 2100, 2110, 2120, 2130, 2140, 2150,
        2160, 2170, 2180, 2190,
    ];
    let bytes = "8E 13 2B 21 07 D0 1E 00 14 70 28 32 3C 46 50 5A 64 6E 78 82 8C 96 A0 AA B4 BE FC E8";
    assert_eq!(hex(&rows), bytes);
}

#[test]
fn what_is_gathered() {
    // Equal rows: a short repeat up to ten, a fixed delta beyond, 512 at most.
    assert_eq!(runs(&[7; 2]), [(2, 1)]);
    assert_eq!(runs(&[7; 10]), [(10, 0)]);
    assert_eq!(runs(&[7; 11]), [(11, 2)]);
    assert_eq!(runs(&[7; 1000]), [(512, 2), (488, 2)]);
    // Three equal rows end the run before them; two do not.
    assert_eq!(runs(&[5, 9, 1, 4, 4, 4, 4, 8, 8, 1]), [(3, 1), (4, 0), (3, 1)]);
    // A rise of 600 rows: 512 and the rest. Rows that turn back are direct.
    let rise: Vec<i64> = (0..600).map(|at| 3 * at).collect();
    assert_eq!(runs(&rise), [(512, 2), (88, 2)]);
    assert_eq!(runs(&[1, 5, 2, 9, 3]), [(5, 1)]);
    assert_eq!(runs(&[90, 50, 49, 3, 2]), [(5, 3)]);
}
