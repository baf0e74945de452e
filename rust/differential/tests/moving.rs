//! Moving over: the same caller, compiled against the Rust's readers and against `menakovitsy::orc_rs`, on
//! thousands of streams. Ours gives what the rules say, and takes the bytes of the runs that it gives; the Rust
//! gives and takes the same, or the difference is listed.
#![cfg(feature = "ours")]
use std::collections::BTreeMap;
use std::io::{self, Read};
use std::sync::atomic::{AtomicUsize, Ordering};

use differential::frames;
use differential::listed::{of_booleans, of_stream, of_value, Call, Difference, Sort, LIST};
use menakovitsy::Refused;
use model::random::Random;
use model::{Answer, Booleans, Refusal, Value};

mod rust {
    use oracle as orc_rs;
    include!("moving/caller.rs");
}

mod ours {
    use menakovitsy::orc_rs;
    include!("moving/caller.rs");
}

/// A reader that counts the bytes that are taken from it, and gives at most that many at a time.
struct Counting<'a> {
    bytes: &'a [u8],
    taken: &'a AtomicUsize,
    most: usize,
}

impl Read for Counting<'_> {
    fn read(&mut self, room: &mut [u8]) -> io::Result<usize> {
        let taken = self.taken.load(Ordering::Relaxed);
        let given = (self.bytes.len() - taken).min(room.len()).min(self.most);
        room[..given].copy_from_slice(&self.bytes[taken..taken + given]);
        self.taken.store(taken + given, Ordering::Relaxed);
        Ok(given)
    }
}

/// What a caller saw: each value with the bytes that were taken by then, or an error; and whether it came to its
/// end.
#[derive(Debug, PartialEq)]
struct Seen<T> {
    items: Vec<Option<(T, usize)>>,
    ended: bool,
    taken: usize,
}

impl<T: Clone + PartialEq> Seen<T> {
    /// Only the items, if the caller came to its end.
    fn items(&self) -> Option<&[Option<(T, usize)>]> {
        self.ended.then_some(&self.items)
    }
}

fn seen<T>(bytes: &[u8], most: usize, call: impl Fn(Counting, &mut dyn FnMut(Option<T>))) -> Seen<T> {
    let (taken, mut items) = (AtomicUsize::new(0), Vec::new());
    let reader = Counting { bytes, taken: &taken, most };
    let mut note = |item: Option<T>| items.push(item.map(|value| (value, taken.load(Ordering::Relaxed))));
    let ended = oracle::quietly(|| call(reader, &mut note)).is_some();
    Seen { items, ended, taken: taken.load(Ordering::Relaxed) }
}

/// How often the two were the same, and how often they differed in each way that is listed.
#[derive(Default)]
struct Tally {
    same: usize,
    differ: BTreeMap<Difference, usize>,
}

impl Tally {
    /// Takes two answers that must be the same unless the list says otherwise.
    fn take<T: PartialEq + std::fmt::Debug>(&mut self, sort: Option<Sort>, rust: T, ours: T, bytes: &[u8]) {
        match sort {
            Some(Sort::Listed(difference)) => *self.differ.entry(difference).or_default() += 1,
            Some(_) => {
                assert_eq!(rust, ours, "{bytes:02X?}");
                self.same += 1;
            }
            None => panic!("{bytes:02X?}: the Rust differs in a way that is not listed"),
        }
    }

    fn met(&self, calls: impl Fn(&Call) -> bool) {
        for entry in LIST.iter().filter(|entry| calls(&entry.call)) {
            assert!(self.differ.contains_key(&entry.difference), "{} was not met", entry.name);
        }
        println!("{} the same; listed: {:?}", self.same, self.differ);
    }
}

/// What the rules say of an integer column, as a caller sees it; and the refusal.
fn by_the_rules(bytes: &[u8], signed: bool) -> (Vec<Option<(i64, usize)>>, Option<Refusal>) {
    let (mut items, mut at) = (Vec::new(), 0);
    loop {
        match model::read_run(bytes, at, signed, 512) {
            Answer::End => return (items, None),
            Answer::Run(run) => {
                at += run.consumed;
                items.extend(run.rows.into_iter().map(|row| Some((row, at))));
            }
            Answer::Refused(refusal) => {
                items.push(None);
                return (items, Some(refusal));
            }
        }
    }
}

fn is(refused: Refused, refusal: Refusal) -> bool {
    let [at, cut] = [refused.at, refused.cut].map(|byte| byte.map(usize::from));
    (refused.refusal.number(), at, cut) == (refusal.number.into(), Some(refusal.place), refusal.cut)
}

fn stream(bytes: &[u8], signed: bool, most: usize, tally: &mut Tally) {
    let rust = seen(bytes, most, |reader, note| rust::integers(reader, signed, note));
    let ours = seen(bytes, most, |reader, note| ours::integers(reader, signed, note));
    let (items, refusal) = by_the_rules(bytes, signed);
    assert_eq!(ours.items(), Some(&items[..]), "{bytes:02X?}");
    let refused = menakovitsy::orc_rs::RleReaderV2::try_new(bytes, signed, true).find_map(Result::err);
    match (refused, refusal) {
        (None, None) => assert_eq!(ours.taken, bytes.len()),
        (Some(error), Some(refusal)) => assert!(error.refused().is_some_and(|refused| is(refused, refusal))),
        (refused, refusal) => panic!("{bytes:02X?}: {refused:?}, and by the rules {refusal:?}"),
    }
    let sort = of_stream(bytes, signed, &oracle::read_stream(bytes, signed, 100_000));
    tally.take(sort, rust.items(), ours.items(), bytes);
    if !signed {
        let rust = seen(bytes, most, |reader, note| rust::lengths(reader, note));
        let ours = seen(bytes, most, |reader, note| ours::lengths(reader, note));
        let items: Vec<_> = items.iter().map(|item| item.map(|(row, taken)| (row as u64, taken))).collect();
        assert_eq!(ours.items(), Some(&items[..]), "{bytes:02X?}");
        tally.take(sort, rust.items(), ours.items(), bytes);
    }
}

#[test]
fn integers() {
    let (mut random, mut tally) = (Random::new(40), Tally::default());
    for entry in &LIST {
        if let Call::Run { signed } | Call::Stream { signed } = entry.call {
            stream(&entry.bytes(), signed, 9, &mut tally);
        }
    }
    // Every kind of run at every width; whole, cut at every byte, and damaged at every byte.
    for sample in frames::samples(&mut random) {
        for cut in 0..=sample.len() {
            for signed in [false, true] {
                stream(&sample[..cut], signed, random.from(1, 5), &mut tally);
            }
        }
        for at in 0..sample.len() {
            let mut damaged = sample.clone();
            damaged[at] ^= 1 << random.below(8);
            stream(&damaged, random.once_in(2), 4096, &mut tally);
        }
    }
    for kind in 0..4 {
        for code in 0..32 {
            let run = frames::readable(kind, code, random.from(1, 512), &mut random);
            stream(&[&run[..], &run].concat(), random.once_in(2), random.from(1, 700), &mut tally);
        }
    }
    for _ in 0..20_000 {
        let bytes = frames::any_stream(&mut random);
        let most = random.pick(&[1, 2, 3, 7, 64, 4096]);
        stream(&bytes, random.once_in(2), most, &mut tally);
    }
    assert!(tally.same > 15_000, "{} the same", tally.same);
    tally.met(|call| matches!(call, Call::Run { .. } | Call::Stream { .. }));
}

/// The flags of the byte runs that are whole, each with the byte after its run, and where the next begins.
fn flags_by_the_rules(bytes: &[u8], n: usize) -> (Vec<Option<(bool, usize)>>, usize) {
    let (mut items, mut at) = (Vec::new(), 0);
    while items.len() < n {
        let Some((run, taken)) = model::first_run(&bytes[at..]) else { break };
        at += taken;
        let bits = run.iter().flat_map(|byte| (0..8).rev().map(move |k| byte >> k & 1 == 1));
        items.extend(bits.map(|flag| Some((flag, at))));
    }
    items.truncate(n);
    (items, at)
}

fn flags_of(bytes: &[u8], n: usize, most: usize, tally: &mut Tally) {
    let rust = seen(bytes, most, |reader, note| {
        rust::flags(reader, n, note);
    });
    let ours = seen(bytes, most, |reader, note| {
        ours::flags(reader, n, note);
    });
    let (mut items, at) = flags_by_the_rules(bytes, n);
    let paper = model::read_booleans(bytes, 0, n, n);
    if let Booleans::Refused(refusal) = paper {
        items.push(None);
        let refused = menakovitsy::orc_rs::BooleanIter::new(bytes, n).find_map(Result::err);
        // The place is the byte run's own, since each is a call.
        let refusal = Refusal { place: at, ..refusal };
        assert!(refused.and_then(|error| error.refused()).is_some_and(|refused| is(refused, refusal)));
    } else {
        assert_eq!(ours.taken, at, "{bytes:02X?}");
    }
    assert_eq!(ours.items(), Some(&items[..]), "{n} of {bytes:02X?}");
    // A repeat of the Rust's that goes on into an equal one is a run behind, and right again at the end: so what
    // was taken is compared there.
    let whole = |seen: &Seen<bool>| {
        let flags: Vec<_> = seen.items()?.iter().map(|item| item.map(|(flag, _)| flag)).collect();
        let taken = (!flags.contains(&None)).then_some(seen.taken);
        Some((flags, taken))
    };
    let sort = of_booleans(bytes, n, &paper, &oracle::read_booleans(bytes, n));
    tally.take(sort, whole(&rust), whole(&ours), bytes);
}

#[test]
fn flags() {
    let (mut random, mut tally) = (Random::new(41), Tally::default());
    for entry in &LIST {
        if let Call::Booleans { n } = entry.call {
            flags_of(&entry.bytes(), n, 1, &mut tally);
        }
    }
    for _ in 0..20_000 {
        let bytes = frames::any_booleans(&mut random);
        let n = match random.below(8) {
            0 => random.below(2200),
            1 => 8 * random.below(9),
            _ => random.below(8 * bytes.len() + 40),
        };
        flags_of(&bytes, n, random.pick(&[1, 2, 130]), &mut tally);
    }
    assert!(tally.same > 5_000, "{} the same", tally.same);
    tally.met(|call| matches!(call, Call::Booleans { .. }));
}

#[test]
fn names() {
    let (mut random, mut tally) = (Random::new(42), Tally::default());
    for _ in 0..10_000 {
        let bytes: Vec<u8> = (0..random.below(40)).map(|_| random.byte()).collect();
        let lengths: Vec<usize> = (0..random.from(1, 5)).map(|_| random.below(16)).collect();
        let most = random.from(1, 20);
        let rust = seen(&bytes, most, |reader, note| {
            rust::names(reader, &lengths, note);
        });
        let ours = seen(&bytes, most, |reader, note| {
            ours::names(reader, &lengths, note);
        });
        let (mut at, mut cut) = (0, false);
        for (k, length) in lengths.iter().enumerate() {
            let paper = model::read_value(&bytes, at, *length);
            // The Rust was right so far: it is at the same byte.
            if !cut {
                let sort = of_value(&bytes[at..], &paper, &oracle::read_value(&bytes[at..], *length));
                tally.take(sort, &rust.items[k], &ours.items[k], &bytes);
            }
            match paper {
                // After a value that is cut there are none, not even those of no bytes.
                Value::Given(value) if !cut => {
                    at += length;
                    assert_eq!(ours.items[k], Some((value, at)));
                }
                _ => {
                    cut = true;
                    assert_eq!(ours.items[k], None);
                }
            }
        }
        assert!(ours.ended && ours.items.len() == lengths.len());
    }
    assert!(tally.same > 10_000, "{} the same", tally.same);
    tally.met(|call| matches!(call, Call::Value { .. }));
}
