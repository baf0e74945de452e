//! Named columns, as a sound archive has them: what the planner is measured on. The same on every
//! machine: the random rows come from one small generator, begun anew for each column.
use model::random::Random;

/// A named column, and the flag that it is written with.
pub struct Named {
    pub name: &'static str,
    pub signed: bool,
    pub rows: Vec<i64>,
}

/// Random rows.
pub struct Dice(Random);

impl Dice {
    pub fn new(seed: u64) -> Self {
        Dice(Random::new(seed))
    }

    pub fn roll(&mut self) -> u64 {
        self.0.any()
    }

    /// Below a number.
    pub fn below(&mut self, end: i64) -> i64 {
        (self.roll() % end as u64) as i64
    }

    /// Once in that many.
    pub fn once_in(&mut self, many: i64) -> bool {
        self.below(many) == 0
    }
}

const NOON: i64 = 1_731_672_000_000;

/// All columns, of that many rows each.
pub fn columns(count: i64) -> Vec<Named> {
    other_columns(count, 1)
}

/// The same with other random rows.
pub fn other_columns(count: i64, seed: u64) -> Vec<Named> {
    let size = Size { count, seed };
    let mut all = offsets(size);
    all.extend(plain(size));
    all.extend(times(size));
    all.extend(uneven(size));
    all.extend(random(size));
    all
}

#[derive(Clone, Copy)]
struct Size {
    count: i64,
    seed: u64,
}

fn named(name: &'static str, signed: bool, size: Size, mut row: impl FnMut(i64, &mut Dice) -> i64) -> Named {
    let seed = name.bytes().fold(size.seed, |sum, byte| sum.wrapping_mul(31).wrapping_add(byte.into()));
    let mut dice = Dice::new(seed);
    Named { name, signed, rows: (0..size.count).map(|at| row(at, &mut dice)).collect() }
}

fn offsets(size: Size) -> Vec<Named> {
    let (mut jittered, mut block, mut falling) = (0, 0, 50_000_000);
    vec![
        named("sample offsets", false, size, |at, _| at * 4096),
        named("sample offsets, jitter", false, size, |_, dice| {
            jittered += 4000 + dice.below(200);
            jittered
        }),
        named("sample offsets, jitter both ways", true, size, |at, dice| at * 1470 + dice.below(4000)),
        named("sample offsets, new file each 700", false, size, |at, _| at % 700 * 4096),
        named("byte offsets of packed blocks", false, size, |_, dice| {
            block += if dice.once_in(40) { 1 << 20 } else { 300 + dice.below(60) };
            block
        }),
        named("falling", true, size, |at, _| 1_000_000 - 25 * at),
        named("falling, jitter", true, size, |_, dice| {
            falling -= dice.below(1000);
            falling
        }),
    ]
}

fn plain(size: Size) -> Vec<Named> {
    vec![
        named("constant 0", false, size, |_, _| 0),
        named("constant, large", true, size, |_, _| -1_000_000_000_000),
        named("flags, even", false, size, |_, dice| dice.below(2)),
        named("flags, one in fifty", false, size, |_, dice| i64::from(dice.once_in(50))),
        named("flags, long stretches", false, size, |at, _| at / 137 % 2),
        named("groups of equal rows", true, size, |at, _| at / 7 * 31 % 1000),
        named("counter to a hundred", false, size, |at, _| at % 100),
        named("squares", false, size, |at, _| at * at),
    ]
}

fn times(size: Size) -> Vec<Named> {
    let mut late = NOON;
    vec![
        named("timestamps", true, size, |at, _| NOON + 1000 * at),
        named("timestamps, jitter", true, size, |_, dice| {
            late += 1000 + dice.below(50);
            late
        }),
        named("timestamps, out of order", true, size, |at, dice| NOON + 20 * at + dice.below(500)),
        named("timestamps, some missing", true, size, |at, dice| {
            if dice.once_in(30) {
                0
            } else {
                NOON + 1000 * at + dice.below(50)
            }
        }),
    ]
}

fn uneven(size: Size) -> Vec<Named> {
    let mut walk = 1_000_000;
    vec![
        named("rare jumps", false, size, |_, dice| {
            if dice.once_in(80) {
                1 << 40 | dice.below(1 << 30)
            } else {
                dice.below(200)
            }
        }),
        named("rare jumps, both ways", true, size, |_, dice| match dice.below(160) {
            0 => 1_000_000_000 + dice.below(1000),
            1 => -1_000_000_000 - dice.below(1000),
            _ => dice.below(100) - 50,
        }),
        named("sparse", true, size, |_, dice| if dice.once_in(25) { dice.below(100_000) } else { 0 }),
        named("mixed", true, size, |at, dice| match at / 90 % 6 {
            0 => 17,
            1 => 3 * at,
            2 => dice.below(256),
            3 => dice.below(1 << 50) - (1 << 49),
            4 => NOON - 7 * at - dice.below(7),
            _ => i64::from(dice.once_in(8)),
        }),
        named("walk", true, size, |_, dice| {
            walk += dice.below(7) - 3;
            walk
        }),
        named("lengths of names", false, size, |_, dice| 3 + dice.below(12) + dice.below(20)),
        named("sizes of all widths", false, size, |_, dice| (dice.roll() >> 1 >> dice.below(60)) as i64),
    ]
}

fn random(size: Size) -> Vec<Named> {
    vec![
        named("random, 3 bits", false, size, |_, dice| dice.below(8)),
        named("random, 8 bits", false, size, |_, dice| dice.below(256)),
        named("random, 13 bits", true, size, |_, dice| dice.below(8192) - 4096),
        named("random, 31 bits", false, size, |_, dice| dice.below(1 << 31)),
        named("random, 64 bits", true, size, |_, dice| dice.roll() as i64),
        named("extremes", true, size, |_, dice| match dice.below(5) {
            0 => i64::MIN,
            1 => i64::MAX,
            2 => -1,
            3 => 0,
            _ => dice.roll() as i64,
        }),
    ]
}

/// A column of stretches, each of its own kind: any rows for tests, and no named column.
pub fn stretches(dice: &mut Dice, most: i64) -> Vec<i64> {
    let mut rows = Vec::new();
    let count = 1 + dice.below(most);
    while (rows.len() as i64) < count {
        let (kind, length, bits) = (dice.below(6), 1 + dice.below(most / 2 + 1), dice.below(64));
        let about = (dice.roll() >> dice.below(64)) as i64;
        let step = dice.below(1000) - 500;
        for at in 0..length {
            let small = (dice.roll() & ((1 << bits) - 1)) as i64;
            rows.push(match kind {
                0 => about,
                1 => about.wrapping_add(at * step),
                2 => about.wrapping_add(small),
                3 if dice.once_in(20) => dice.roll() as i64,
                3 => about.wrapping_add(small & 255),
                4 => about.wrapping_add(at * step).wrapping_add(small & 63),
                _ => [i64::MIN, i64::MAX, 0, -1, i64::MIN + 1][dice.below(5) as usize],
            });
        }
    }
    rows
}
