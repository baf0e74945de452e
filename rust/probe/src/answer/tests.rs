//! What a wrong library could answer shows.
use super::*;

fn answer(returned: u64, words: &[u64]) -> Answer {
    Answer::of(|lent| {
        lent[..RUN_WORDS].fill(0);
        lent[..words.len()].copy_from_slice(words);
        returned
    })
}

fn stream(last: &[u64]) -> Answer {
    Answer::of_stream(|lent| {
        lent[..STREAM_WORDS].fill(0);
        lent[..6].copy_from_slice(&[1, 0, 0, 0, 8, 7]);
        lent[stream_word::LAST..][..last.len()].copy_from_slice(last);
        0
    })
}

#[test]
fn labels_that_contradict_themselves_are_odd() {
    let label = |returned, words: [u64; LABEL_WORDS]| {
        Answer::of_label(|lent| {
            lent[..LABEL_WORDS].copy_from_slice(&words);
            returned
        })
    };
    for (returned, words) in [(0, [1, 0, 0, 3, 2]), (0, [3, 0, 0, 0, 2]), (18, [2, 18, 0, 0, 0])] {
        assert!(label(returned, words).label_fits(), "{words:?}");
        assert!(!label(returned + 1, words).label_fits(), "{words:?}");
    }
    for words in [[0; 5], [1, 0, 1, 3, 2], [3, 0, 0, 1, 2], [2, 0, 0, 0, 0], [4, 0, 0, 0, 0]] {
        assert!(!label(0, words).label_fits(), "{words:?}");
    }
    for words in [[2, 18, 1, 0, 0], [2, 18, 0, 1, 0], [2, 18, 0, 0, 1], [1, 18, 0, 3, 2]] {
        assert!(!label(18, words).label_fits(), "{words:?}");
    }
    let name = |start, size| label(0, [1, 0, 0, start, size]);
    assert_eq!(name(3, 2).part_of(b"drums"), Some(&b"ms"[..]));
    for (start, size) in [(3, 3), (6, 0), (u64::MAX, 1), (1, u64::MAX)] {
        assert_eq!(name(start, size).part_of(b"drums"), None);
    }
    assert_eq!(label(19, [2, 19, 0, 0, 0]).say_other(), "refused 19 0");
}

#[test]
fn calls_with_parts_that_contradict_themselves_are_odd() {
    let part = |returned, words: [u64; PART_WORDS]| {
        Answer::of_part(|lent| {
            lent[..PART_WORDS].copy_from_slice(&words);
            returned
        })
    };
    let fits = [
        (0, [0; PART_WORDS]),
        (0, [1, 0, 0, 1, 3, 4, 0, 0, 4, 9, 2]),
        (13, [2, 13, 9, 0, 0, 0, 1, 11, 0, 0, 0]),
        (0, [3, 0, 0, 0, 0, 0, 0, 0, 0, 0, 100]),
    ];
    for (returned, words) in fits {
        assert!(part(returned, words).part_fits(), "{words:?}");
        assert!(!part(returned + 1, words).part_fits(), "{words:?}");
    }
    assert_eq!(part(0, fits[1].1).say_run(), "direct/4/3/4");
    for words in [
        [0, 0, 0, 0, 0, 0, 0, 0, 0, 0, 1],
        [0, 0, 0, 0, 0, 0, 0, 0, 0, 1, 0],
        [3, 0, 0, 0, 1, 0, 0, 0, 0, 0, 1],
        [3, 0, 0, 0, 0, 0, 0, 0, 0, 1, 1],
        [4, 0, 0, 0, 0, 0, 0, 0, 0, 0, 0],
    ] {
        assert!(!part(0, words).part_fits(), "{words:?}");
    }
    assert!(!part(5, [2, 5, 9, 0, 0, 0, 0, 0, 0, 0, 1]).part_fits());
    assert!(!part(5, [2, 5, 9, 0, 0, 0, 0, 0, 0, 1, 0]).part_fits());
}

#[test]
fn words_of_its_own_that_contradict_each_other_are_odd() {
    let own = |returned, words: [u64; 7]| {
        Answer::of_words(7, Some(5), |lent| {
            lent[..7].copy_from_slice(&words);
            returned
        })
    };
    for (returned, words) in
        [(0, [1, 0, 0, 3, 9, 0, 0]), (8, [2, 8, 0, 0, 0, 0, 0]), (13, [2, 13, 4, 0, 0, 1, 6])]
    {
        assert!(own(returned, words).own_fits(), "{words:?}");
        assert!(!own(returned + 1, words).own_fits(), "{words:?}");
    }
    // A case that is none, a place or a cut field where there is none, counts of what is refused.
    for words in [[0; 7], [3, 0, 0, 0, 0, 0, 0], [1, 0, 1, 3, 9, 0, 0], [1, 0, 0, 3, 9, 0, 1], [2; 7]] {
        assert!(!own(words[1], words).own_fits(), "{words:?}");
    }
    for words in [[2, 8, 0, 1, 0, 0, 0], [2, 8, 0, 0, 1, 0, 0], [2, 8, 0, 0, 0, 1, 6], [2, 13, 4, 0, 0, 0, 0]]
    {
        assert!(!own(words[1], words).own_fits(), "{words:?}");
    }
    assert_eq!(own(13, [2, 13, 4, 0, 0, 1, 6]).say_other(), "refused 13 4 cut 6");
}

/// What a wrong library could answer shows.
#[test]
fn words_that_contradict_each_other_are_odd() {
    let fits: [(u64, &[u64]); 4] =
        [(0, &[0]), (0, &[1, 0, 0, 3, 5, 4]), (4, &[2, 4, 9]), (13, &[2, 13, 3, 0, 0, 0, 1, 5])];
    for (returned, words) in fits {
        assert!(answer(returned, words).fits(), "{words:?}");
    }
    let odd: [(u64, &[u64]); 12] = [
        // A case that is none; another number returned; counts, a kind or a place where there is none.
        (0, &[3]),
        (1, &[0]),
        (0, &[0, 0, 0, 0, 1]),
        (0, &[1, 0, 7, 3, 5, 4]),
        (0, &[2]),
        (4, &[2, 4, 9, 1]),
        (4, &[2, 4, 9, 0, 1]),
        (4, &[2, 4, 9, 0, 0, 0, 0, 0, 8]),
        // A cut field with a number that has none, none with one that has, a byte without a field.
        (5, &[2, 5, 3, 0, 0, 0, 1, 5]),
        (13, &[2, 13, 3]),
        (0, &[1, 0, 0, 3, 5, 4, 0, 5]),
        (14, &[2, 14, 3, 0, 0, 0, 2, 5]),
    ];
    for (returned, words) in odd {
        assert!(!answer(returned, words).fits(), "{words:?}");
    }
    // A stream of 8 rows and 7 bytes has a last run, of that many at most.
    assert!(stream(&[1, 1, 4, 3, 4]).fits());
    assert_eq!(stream(&[1, 1, 4, 3, 4]).say_last(), "direct/4/3/4");
    for last in [[0; 5], [2, 1, 4, 3, 4], [1, 1, 4, 9, 4], [1, 1, 4, 3, 8], [1, 1, 4, 0, 4], [0, 1, 4, 3, 4]]
    {
        assert!(!stream(&last).fits(), "{last:?}");
    }
    assert_eq!(answer(13, &[2, 13, 3, 0, 0, 0, 1, 5]).say_other(), "refused 13 3 cut 5");
    assert_eq!(answer(5, &[2, 5, 3]).say_other(), "refused 5 3");
}

#[test]
fn batches_that_contradict_themselves_are_odd() {
    let batch = |returned, words: [u64; 8]| {
        Answer::of_words(8, Some(6), |lent| {
            lent[..8].copy_from_slice(&words);
            returned
        })
    };
    let fits = [
        (0, [0; 8]),
        (0, [1, 0, 0, 5, 7, 2, 0, 0]),
        (16, [2, 16, 0, 0, 0, 0, 0, 0]),
        (13, [2, 13, 3, 0, 0, 0, 1, 5]),
    ];
    for (returned, words) in fits {
        assert!(batch(returned, words).own_or_end_fits(), "{words:?}");
        assert!(!batch(returned + 1, words).own_or_end_fits(), "{words:?}");
    }
    // At the end every word is 0; a refusal has no rows and no position; a case that is none.
    for place in 1..8 {
        let mut words = [0; 8];
        words[place] = 1;
        assert!(!batch(0, words).own_or_end_fits(), "{words:?}");
    }
    for words in [[2, 16, 0, 1, 0, 0, 0, 0], [2, 16, 0, 0, 0, 1, 0, 0], [2, 16, 0, 0, 0, 0, 1, 5]] {
        assert!(!batch(16, words).own_or_end_fits(), "{words:?}");
    }
    assert!(!batch(0, [3, 0, 0, 0, 0, 0, 0, 0]).own_or_end_fits());
}

#[test]
fn all_labels_that_contradict_themselves_are_odd() {
    let labels = |returned, words: [u64; 5]| {
        Answer::of_words(5, None, |lent| {
            lent[..5].copy_from_slice(&words);
            returned
        })
    };
    for (returned, words) in [(0, [1, 0, 0, 7, 0]), (18, [2, 18, 0, 0, 0]), (19, [2, 19, 0, 0, 4])] {
        assert!(labels(returned, words).labels_fits(true), "{words:?}");
        assert!(!labels(returned + 1, words).labels_fits(true), "{words:?}");
    }
    assert!(!labels(0, [1, 0, 0, 7, 0]).labels_fits(false));
    for words in
        [[0; 5], [1, 0, 1, 7, 0], [1, 0, 0, 7, 1], [2, 18, 1, 0, 0], [2, 18, 0, 1, 0], [2, 8, 0, 0, 3]]
    {
        assert!(!labels(words[1], words).labels_fits(true), "{words:?}");
    }
}
