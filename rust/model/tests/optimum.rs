//! The sizes of runs are those of the writers, and the least of all proposals is accepted as it says.
use model::random::Random;
use model::*;

/// Rows of few bits, about a common row, some of them far off; sometimes all equal or in equal steps.
fn rows(random: &mut Random, most: u64) -> Vec<i64> {
    let count = 1 + random.any() % most;
    let (bits, about, step) = (random.any() % 64, random.any() >> (random.any() % 64), random.any() % 9);
    let kind = random.any() % 4;
    let mut row = |at: u64| match kind {
        0 => about,
        1 => about.wrapping_add(at.wrapping_mul(step)),
        _ if random.any().is_multiple_of(9) => random.any(),
        _ => about.wrapping_add(random.any() & ((1 << bits) - 1)),
    };
    (0..count).map(|at| row(at) as i64).collect()
}

fn written(answer: Written) -> Option<usize> {
    answer.info().map(|info| info.bytes)
}

#[test]
fn sizes_are_those_of_the_writers() {
    let mut random = Random::new(10);
    for _ in 0..3000 {
        let rows = rows(&mut random, 40);
        for signed in [false, true] {
            let run = |form, code: usize| written(write_run(&rows, signed, form, code as u8, usize::MAX));
            let (code, bytes) = direct_size(&rows, signed);
            assert_eq!(run(Form::Direct, code), Some(bytes));
            assert_eq!(run(Form::FixedDelta, 0), fixed_delta_size(&rows, signed));
            match packed_delta_size(&rows, signed) {
                Some((code, bytes)) => assert_eq!(run(Form::PackedDelta, code), Some(bytes)),
                None => assert_eq!(rows.len(), 1),
            }
            match short_repeat_size(&rows, signed) {
                Some((width, bytes)) => assert_eq!(run(Form::ShortRepeat, width), Some(bytes)),
                None => assert_eq!(run(Form::ShortRepeat, 8), None),
            }
        }
    }
}

#[test]
fn patched_sizes_are_those_of_the_writer() {
    let mut random = Random::new(11);
    for turn in 0..2000 {
        // Long rows are few: the model's writer tries every header.
        let rows = rows(&mut random, if turn % 50 == 0 { 512 } else { 30 });
        let base = rows[0].wrapping_sub((random.any() >> (random.any() % 64)) as i64);
        let width = KEPT[random.any() as usize % 11];
        let size = patched_size(&rows, base, width).map(|(_, bytes)| bytes);
        assert_eq!(written(write_patched(&rows, base, width, usize::MAX)), size, "{rows:?} {base} {width}");
    }
}

#[test]
fn the_least_proposal_is_accepted() {
    let mut random = Random::new(12);
    for _ in 0..300 {
        let rows = rows(&mut random, 20);
        for signed in [false, true] {
            let (bytes, proposal) = optimum(&rows, signed, Lists::Any);
            let accepted = check_proposal(&rows, signed, &proposal, bytes).expect("accepted");
            assert_eq!(accepted.len(), bytes);
            let (more, proposal) = optimum(&rows, signed, Lists::NotEmpty);
            assert!(more >= bytes && check_proposal(&rows, signed, &proposal, more).is_some());
        }
    }
}

#[test]
fn by_hand() {
    // Five equal rows, then twelve in equal steps: a short repeat of 2 bytes, a fixed delta of 4.
    let rows: Vec<i64> = [7; 5].into_iter().chain((0..12).map(|at| 20 + 3 * at)).collect();
    let (bytes, proposal) = optimum(&rows, false, Lists::Any);
    assert_eq!((bytes, proposal.len()), (6, 2));
    // About a million, of eight bits: over a base, with an empty list, and with the greatest patched.
    let rows: Vec<i64> = (0..40).map(|at| 1_000_000 + at * 97 % 251).collect();
    assert_eq!(optimum(&rows, false, Lists::Any).0, 4 + 3 + 40);
    assert_eq!(optimum(&rows, false, Lists::NotEmpty).0, 4 + 3 + 40 + 1);
}
