//! Named flag columns, and the bytes that they take: as our writer writes them, by the plain choice of runs,
//! and by a model of the Apache writer. A test holds ours to be never more.
use std::fmt::Write as _;

use model::{packed_flags, plain_byte_runs};

use crate::apache_bytes::apache_byte_runs;
use crate::columns::Dice;

/// The flags of each column that is not at an edge.
const FLAGS: usize = 100_000;

/// A named flag column.
pub struct NamedFlags {
    pub name: &'static str,
    pub flags: Vec<u8>,
}

/// A column's flags, and bytes: packed eight to a byte, ours, the plain choice, the Apache model.
pub struct Figures {
    pub name: &'static str,
    pub flags: usize,
    pub packed: usize,
    pub ours: usize,
    pub plain: usize,
    pub apache: usize,
}

/// Random flags, the same on every machine.
fn random(name: &'static str, mut flag: impl FnMut(usize, &mut Dice) -> bool) -> NamedFlags {
    let mut dice =
        Dice::new(name.bytes().fold(1, |sum: u64, byte| sum.wrapping_mul(31).wrapping_add(byte.into())));
    NamedFlags { name, flags: (0..FLAGS).map(|at| u8::from(flag(at, &mut dice))).collect() }
}

/// Stretches of equal flags, each of 1 to `most` of them.
fn stretches(name: &'static str, most: i64) -> NamedFlags {
    let (mut left, mut value) = (0, false);
    random(name, move |_, dice| {
        if left == 0 {
            (left, value) = (1 + dice.below(most), !value);
        }
        left -= 1;
        value
    })
}

/// Flags that are packed into these bytes.
fn of_bytes(name: &'static str, bytes: &[u8]) -> NamedFlags {
    let bits = |byte: &u8| [7, 6, 5, 4, 3, 2, 1, 0].map(|bit| byte >> bit & 1);
    NamedFlags { name, flags: bytes.iter().flat_map(bits).collect() }
}

/// Columns as a loader has them.
fn usual() -> Vec<NamedFlags> {
    vec![
        random("all true", |_, _| true),
        random("all false", |_, _| false),
        random("alternating", |at, _| at % 2 == 0),
        random("first 24 of each 32", |at, _| at % 32 < 24),
        random("first half", |at, _| at < FLAGS / 2),
        random("rare, one in 1,000", |_, dice| dice.once_in(1_000)),
        random("rare, one in 100", |_, dice| dice.once_in(100)),
        random("one in ten false", |_, dice| !dice.once_in(10)),
        random("random, even", |_, dice| dice.once_in(2)),
        stretches("long stretches, to 20,000", 20_000),
        stretches("stretches to 2,000", 2_000),
        stretches("stretches to 200", 200),
        stretches("stretches to 20", 20),
    ]
}

/// Columns at the ends of runs: packed bytes that are equal, or different, or both.
fn edges() -> Vec<NamedFlags> {
    let equal = |count: usize| vec![0xFF; count];
    let different = |count: usize| (0..count).map(|k| (k % 251) as u8).collect::<Vec<u8>>();
    let mut all = Vec::new();
    for (name, count) in [
        ("2 equal bytes", 2),
        ("3 equal bytes", 3),
        ("130 equal bytes", 130),
        ("131 equal bytes", 131),
        ("132 equal bytes", 132),
        ("133 equal bytes", 133),
        ("261 equal bytes", 261),
        ("262 equal bytes", 262),
    ] {
        all.push(of_bytes(name, &equal(count)));
    }
    for (name, count) in
        [("127 different bytes", 127), ("128 different bytes", 128), ("129 different bytes", 129)]
    {
        all.push(of_bytes(name, &different(count)));
    }
    for (name, before, count) in [
        ("1 byte, then 131 equal", 1, 131),
        ("1 byte, then 132 equal", 1, 132),
        ("126 different, then 3 equal", 126, 3),
        ("127 different, then 131 equal", 127, 131),
        ("128 different, then 131 equal", 128, 131),
    ] {
        all.push(of_bytes(name, &[different(before), equal(count)].concat()));
    }
    all.push(of_bytes("131 equal bytes, 100 times", &[equal(131), vec![0; 131]].concat().repeat(50)));
    all.push(of_bytes("132 equal bytes, 100 times", &[equal(132), vec![0; 132]].concat().repeat(50)));
    all
}

/// What the linked library writes, read back by it.
#[cfg(feature = "ours")]
fn written(NamedFlags { name, flags }: &NamedFlags) -> Vec<u8> {
    use menakovitsy::{boolean_room, write_booleans, Flags};
    let mut out = vec![0; boolean_room(flags.len())];
    let run = write_booleans(flags, &mut out).expect("there is room");
    out.truncate(run.bytes.0);
    let mut back = vec![7; flags.len()];
    Flags::new(&out).read_into(&mut back).expect("what is written reads back");
    assert_eq!(back, *flags, "{name}");
    out
}

/// What the model says is written: the library is not linked.
#[cfg(not(feature = "ours"))]
fn written(column: &NamedFlags) -> Vec<u8> {
    model::chosen_byte_runs(&packed_flags(&column.flags))
}

/// All columns.
pub fn columns() -> Vec<NamedFlags> {
    usual().into_iter().chain(edges()).collect()
}

/// The figures of all columns.
pub fn figures() -> Vec<Figures> {
    let figures = |column: NamedFlags| {
        let packed = packed_flags(&column.flags);
        let apache = apache_byte_runs(&packed);
        assert_eq!(model::runs_stand_for(&apache).as_ref(), Some(&packed), "{}", column.name);
        Figures {
            name: column.name,
            flags: column.flags.len(),
            packed: packed.len(),
            ours: written(&column).len(),
            plain: plain_byte_runs(&packed).len(),
            apache: apache.len(),
        }
    };
    columns().into_iter().map(figures).collect()
}

/// The figures as a table.
pub fn table(figures: &[Figures]) -> String {
    let mut text = String::from(
        "| Column | Flags | Packed bytes | Ours | Plain choice | Apache model |\n|---|---:|---:|---:|---:|---:|\n",
    );
    for Figures { name, flags, packed, ours, plain, apache } in figures {
        writeln!(text, "| {name} | {flags} | {packed} | {ours} | {plain} | {apache} |")
            .expect("a string takes it");
    }
    text
}
