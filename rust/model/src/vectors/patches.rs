//! Damaged patch lists, and lists that look damaged and are not.
//!
//! Gaps have no sign, so places never fall: a list that is out of order can only be written as one whose
//! places are shared or pass the end.
use super::layout::Patched;
use super::numbers::{largest, Numbers};
use super::{samples, Frame, Frames, Part};
use crate::bits::WIDTHS;

pub const PARTS: &[Part] = &[
    Part { what: "sample runs of docs/FORMAT.md, docs/DIFFERENCES.md and the specification", frames: sample_runs },
    Part {
        what: "each patch width with each gap width: lists in place, shared places, places past the end, skips, and gaps above the gap width",
        frames: every_entry,
    },
    Part {
        what: "each value width with each patch width: patches that fit above the value by one, or not",
        frames: every_patch,
    },
    Part { what: "each length of the list, each of its entries damaged in turn", frames: every_length },
    Part { what: "places about the last row, reached by a gap or over skips", frames: about_the_end },
    Part { what: "padding bits of values and list set", frames: padded },
    Part { what: "damaged lists cut at each byte: which refusal comes first", frames: damaged_and_cut },
];

/// Gaps and patches.
type List = Vec<(u64, u64)>;

fn sample_runs() -> Frames {
    samples(&[
        "008603032164123494",
        "018603032164123494",
        "0086030320E41234",
        "0186030320E41234",
        "00860303416412348A",
        "0086031F21",
        "00860303226412345660",
        "00860303226412345460",
        "0080000001000080",
        "0080000002000000",
        "00800000E10000FF00",
        "00B4001C010000000004000000000003",
        "00B4001C010000000004000400000000",
        "008E132B2107D01E00147028323C46505A646E78828C96A0AAB4BEFCE8",
    ])
}

/// A run of that many rows, without a list.
fn run(code: usize, rows: usize, patch_code: usize, gap_width: usize) -> Patched {
    let mut numbers = Numbers::new((code * 32 + patch_code) * 1_000 + rows);
    Patched {
        code,
        values: numbers.fields(rows, WIDTHS[code]),
        base: numbers.bytes(1 + (code + patch_code) % 8),
        patch_code,
        gap_width,
        list: Vec::new(),
        padding: false,
    }
}

/// The run with each of the lists that its entries have room for, each once, under both flags.
fn with_each(run: Patched, lists: Vec<List>) -> impl Iterator<Item = Frame> {
    let mut once: Vec<List> = Vec::new();
    for list in lists {
        if !once.contains(&list) {
            once.push(list);
        }
    }
    once.into_iter().filter_map(move |list| run.with(list)).flat_map(|run| Frame::both(&run.bytes()))
}

/// Lists for a run of 20 rows, at the ends of what its entries can hold.
fn lists_of_twenty(run: &Patched) -> Vec<List> {
    let (gap, patch) = (run.largest_gap(), run.largest_patch());
    let mut lists = vec![
        vec![],
        vec![(0, patch)],
        vec![(0, 0)],
        vec![(gap, patch)],
        // Two entries, at places of their own and at one place, with a patch of 0 too.
        vec![(0, 1), (1, patch)],
        vec![(0, 1), (0, patch)],
        vec![(1, 1), (0, 0)],
        vec![(gap, 1), (gap, 1)],
        // A third that is in place after two that share one.
        vec![(1, 1), (0, 1), (1, 1)],
        // Only gap 255 with patch 0 is a skip, and it is no last entry.
        vec![(255, 0)],
        vec![(255, 1)],
        vec![(255, 0), (0, 1)],
        vec![(0, 1), (255, 0)],
        vec![(255, 0), (255, 0)],
        vec![(254, 0)],
        vec![(256, 0)],
    ];
    lists.extend((18..=21).map(|place| vec![(place, patch)]));
    // Each row patched, and one row more than there are; as many entries as a list can have.
    for entries in [20, 21, 31] {
        lists.push((0..entries).map(|entry| (u64::from(entry > 0), 1)).collect());
    }
    lists.push(vec![(0, 0); 31]);
    lists.push(vec![(gap, 1); 31]);
    lists
}

/// Values of seven bits leave four bits of padding in 20 rows, and 57 bits for a patch.
fn every_entry() -> Frames {
    let pairs = (0..32).flat_map(|patch_code| (1..=8).map(move |gap_width| (patch_code, gap_width)));
    Box::new(pairs.flat_map(|(patch_code, gap_width)| {
        let run = run(6, 20, patch_code, gap_width);
        let lists = lists_of_twenty(&run);
        with_each(run, lists)
    }))
}

/// Lists for a run of three rows: patches about the first that does not fit, in place and out of place.
fn lists_of_three(run: &Patched) -> Vec<List> {
    let (fits, widest) = (run.fits(), run.largest_patch());
    let patches = [0, 1, fits, fits.saturating_add(1), widest];
    patches.into_iter().flat_map(|patch| about(patch, fits.min(widest))).collect()
}

/// A patch alone at the first row, at the last and past it; before and after one that fits; at one place
/// with it; and beside a skip.
fn about(patch: u64, fits: u64) -> [List; 8] {
    [
        vec![(0, patch)],
        vec![(2, patch)],
        vec![(3, patch)],
        vec![(0, patch), (1, fits)],
        vec![(1, fits), (1, patch)],
        vec![(1, fits), (0, patch)],
        vec![(255, 0), (0, patch)],
        vec![(0, patch), (255, 0)],
    ]
}

/// The flags by turns. (Patched rows are the same under both.)
fn every_patch() -> Frames {
    let pairs = (0..32).flat_map(|code| (0..32).map(move |patch_code| (code, patch_code)));
    Box::new(pairs.flat_map(|(code, patch_code)| {
        let run = run(code, 3, patch_code, if code % 2 == 0 { 2 } else { 8 });
        let lists = lists_of_three(&run);
        let flag = (code + patch_code) % 2 == 1;
        with_each(run, lists).filter(move |frame| frame.signed == flag)
    }))
}

/// Lists of 1 to 31 entries, and for each entry: the list with a gap of 0 there, with the largest gap, with
/// a skip, and with a patch that does not fit.
fn every_length() -> Frames {
    let entries = (1..=31).flat_map(|entries| (0..entries).map(move |damaged| (entries, damaged)));
    // 300 rows: a skip leads to a later place, and a large gap past the end. 56 bits of value leave 8.
    let long = || Patched { base: vec![0x05], ..run(0, 300, 7, 8) };
    let wide = || Patched { base: vec![0x85], ..run(30, 32, 15, 8) };
    let whole = (0..=31).flat_map(move |entries| with_each(long(), vec![vec![(2, 1); entries]]));
    Box::new(whole.chain(entries.flat_map(move |(entries, damaged)| {
        let with = |run: Patched, entry: (u64, u64)| {
            let mut list = vec![(1, 1); entries];
            list[damaged] = entry;
            with_each(run, vec![list])
        };
        let damages = [(0, 1), (255, 1), (255, 0)].map(|entry| with(long(), entry));
        damages.into_iter().flatten().chain(with(wide(), (1, 256)))
    })))
}

/// Lists whose last place is given: over no skip, one, or two; alone and after a patch of the first row.
fn reaching(place: u64) -> Vec<List> {
    let mut lists = Vec::new();
    for skips in 0..=2 {
        let Some(gap) = place.checked_sub(255 * skips).filter(|gap| *gap <= 255) else { continue };
        let mut list = vec![(255, 0); skips as usize];
        list.push((gap, 3));
        lists.push([vec![(0, 1)], list.clone()].concat());
        lists.push(list);
    }
    lists
}

fn about_the_end() -> Frames {
    let lengths = [1, 2, 3, 8, 9, 254, 255, 256, 257, 300, 510, 511, 512];
    Box::new(lengths.into_iter().flat_map(|rows: usize| {
        let last = rows as u64 - 1;
        let places = [last.saturating_sub(1), last, last + 1, last + 2, last + 255, last + 256];
        with_each(run(0, rows, 1, 8), places.into_iter().flat_map(reaching).collect())
    }))
}

/// One to eight rows and no to eight entries, at widths that leave every number of padding bits.
fn padded() -> Frames {
    let sizes = (1..=8).flat_map(|rows| (0..=8).map(move |entries| (rows, entries)));
    Box::new(sizes.flat_map(|(rows, entries)| {
        let list = (0..entries).map(|entry| (u64::from(entry > 0), 1)).collect();
        let run = run(2, rows, 1, 1).with(list).expect("there is room for it");
        [false, true]
            .into_iter()
            .flat_map(move |padding| Frame::both(&Patched { padding, ..run.clone() }.bytes()))
    }))
}

/// A list with a place past the end, one that ends with a skip, one with a patch that does not fit, one with
/// that and a shared place; and entries over 64 bits, by the header alone.
fn damaged_and_cut() -> Frames {
    let damaged = [
        run(3, 9, 3, 8).with(vec![(1, 5), (250, 5)]),
        run(4, 9, 3, 8).with(vec![(1, 5), (255, 0)]),
        run(29, 3, 23, 8).with(vec![(0, 255), (1, 1 << 16)]),
        run(30, 3, 15, 8).with(vec![(0, 256), (0, 1)]),
        run(3, 9, 31, 1).with(vec![(0, largest(64))]),
    ];
    Box::new(damaged.into_iter().flatten().flat_map(|run| {
        let bytes = run.bytes();
        (1..=bytes.len()).flat_map(move |kept| Frame::both(&bytes[..kept]))
    }))
}
