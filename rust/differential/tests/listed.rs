//! The list itself: each smallest input shows its difference. And a small run of every stage.
use differential::listed::{of_booleans, of_run, of_stream, of_value, Call, Entry, Sort, LIST};
use differential::stages::{Session, Size};
use differential::tally::Tally;
use model::random::Random;

#[test]
fn each_listed_input_shows_its_difference() {
    for entry in &LIST {
        let bytes = entry.bytes();
        let sort = match entry.call {
            Call::Run { signed } | Call::ReadBack { signed } => {
                of_run(&bytes, &model::read_run(&bytes, 0, signed, 512), &oracle::read_run(&bytes, signed))
            }
            Call::Stream { signed } => of_stream(&bytes, signed, &oracle::read_stream(&bytes, signed, 1000)),
            Call::Booleans { n } => {
                let paper = model::read_booleans(&bytes, 0, n, n);
                of_booleans(&bytes, n, &paper, &oracle::read_booleans(&bytes, n))
            }
            Call::Value { n } => {
                of_value(&bytes, &model::read_value(&bytes, 0, n), &oracle::read_value(&bytes, n))
            }
        };
        assert_eq!(sort, Some(Sort::Listed(entry.difference)), "{}", entry.name);
    }
}

#[test]
fn what_is_not_listed_is_found() {
    use model::{Answer, Kind, Refusal, Run};
    let bytes = [0x46, 0x02, 0x12, 0x30];
    let rust = oracle::read_run(&bytes, false);
    let run = |rows: &[i64], consumed| Run { kind: Kind::Direct, width: 4, rows: rows.to_vec(), consumed };
    let answer = |rows: &[i64], consumed| Answer::Run(run(rows, consumed));
    assert_eq!(of_run(&bytes, &answer(&[1, 2, 3], 4), &rust), Some(Sort::Same));
    assert_eq!(of_run(&bytes, &answer(&[1, 2, 4], 4), &rust), None);
    assert_eq!(of_run(&bytes, &answer(&[1, 2, 3], 3), &rust), None);
    assert_eq!(of_run(&bytes, &Answer::End, &rust), None);
    for number in [1, 4, 6, 8, 12, 13, 14] {
        assert_eq!(of_run(&bytes, &Answer::Refused(Refusal::whole(number, 0)), &rust), None);
    }
    // Where the list is refused the body is there, so the Rust has nothing to give an error for.
    for number in [3, 7] {
        let refused = Answer::Refused(Refusal::whole(number, 0));
        assert_eq!(of_run(&bytes, &refused, &oracle::Run::Error(oracle::Case::Io)), None);
    }
}

#[test]
fn a_listed_difference_that_is_not_met_fails_the_report() {
    for missing in &LIST {
        let mut tally = Tally::start();
        let meet = |tally: &mut Tally, entry: &Entry| {
            let sort = Some(Sort::Listed(entry.difference));
            tally.record(sort, &entry.bytes(), entry.call, || unreachable!("it is listed"));
        };
        LIST.iter()
            .filter(|entry| entry.difference != missing.difference)
            .for_each(|entry| meet(&mut tally, entry));
        assert!(!tally.report(), "{}", missing.name);
        meet(&mut tally, missing);
        assert!(tally.report(), "{}", missing.name);
    }
}

#[test]
fn a_little_of_every_stage() {
    let mut session = Session {
        tally: Tally::start(),
        random: Random::new(7),
        size: Size::Test,
        #[cfg(feature = "ours")]
        ours: Some(differential::ours::Ours::start()),
        probe: None,
    };
    session.all();
    assert!(session.tally.report());
}
