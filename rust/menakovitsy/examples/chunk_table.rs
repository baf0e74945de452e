//! A chunk table of an audio source splitter: for each window of half a second the sample that it
//! begins at, whether it is normalised already, and its name, by a dictionary. It is written, all of it by
//! the library: offsets, lengths and numbers by the planner, and both flag columns by `write_booleans`. Then
//! it is read back, and asked: is window 24 already normalised, where does it begin, and what is it called?
//! Each answer is read by a batch that begins at the window. Then the same of damaged copies and of cut ones.
//!
//! ```text
//! cargo run --offline -p menakovitsy --example chunk_table
//! ```
use std::error::Error;
use std::fmt::{self, Write};

use menakovitsy::{
    boolean_room, column_room, write_booleans, write_column, ByteOffset, Column, Dictionary, FlagPosition,
    Flags, Labels, Refused, RowNumber, RowPosition, Sign,
};

/// How many windows the table has, and how many of them, the first, are normalised.
const WINDOWS: usize = 32;
const NORMALISED: usize = 24;

/// The names of the stems. The first eight windows have the first, and so on; the last four have none.
const STEMS: [&str; 4] = ["drums", "bass", "vocals", "other"];

const NAMED: usize = WINDOWS - 4;

/// What a window is called that has no name.
const FALLBACK: &[u8] = b"unnamed";

/// Samples in half a second, at 44,100 in a second.
const HALF_SECOND: i64 = 22_050;

/// The table as it stands in a file: a column of bytes each.
#[derive(Clone)]
struct Table {
    /// The sample that each window begins at.
    offsets: Vec<u8>,
    /// Whether it is normalised.
    flags: Vec<u8>,
    /// Whether it has a name, and for each that has one the name's number.
    named: Vec<u8>,
    numbers: Vec<u8>,
    /// How many bytes each name has, and the names, one after the other.
    lengths: Vec<u8>,
    names: Vec<u8>,
}

/// One window of it.
struct Window {
    begins: i64,
    normalised: bool,
    label: String,
}

/// What a person is told: the column, and what is wrong with it.
struct Told {
    column: &'static str,
    why: Box<dyn Error>,
}

impl fmt::Display for Told {
    fn fmt(&self, f: &mut fmt::Formatter) -> fmt::Result {
        write!(f, "column {}: {}", self.column, self.why)
    }
}

/// Names the column of an error.
fn of<E: Error + 'static>(column: &'static str) -> impl Fn(E) -> Told {
    move |why| Told { column, why: Box::new(why) }
}

/// The bytes of a column of rows, in the runs that the planner proposes.
fn column(rows: &[i64]) -> Result<Vec<u8>, Refused> {
    let mut out = vec![0; column_room(rows.len())];
    let written = write_column(rows, Sign::Unsigned, &mut out)?;
    out.truncate(written.bytes.0);
    Ok(out)
}

/// The bytes of a flag column: which windows are normalised, or which have a name.
fn flag_column(flags: &[bool]) -> Result<Vec<u8>, Refused> {
    let mut out = vec![0; boolean_room(flags.len())];
    let written = write_booleans(flags, &mut out)?;
    out.truncate(written.bytes.0);
    Ok(out)
}

fn write_table() -> Result<Table, Told> {
    // Each window begins half a second after the one before, but window 20, which begins 150 samples late.
    let late = |window: usize| if window < 20 { 0 } else { 150 };
    let begins: Vec<i64> = (0..WINDOWS).map(|window| HALF_SECOND * window as i64 + late(window)).collect();
    let normalised: Vec<bool> = (0..WINDOWS).map(|window| window < NORMALISED).collect();
    let named: Vec<bool> = (0..WINDOWS).map(|window| window < NAMED).collect();
    let numbers: Vec<i64> = (0..NAMED).map(|window| window as i64 / 8).collect();
    let lengths = STEMS.map(|name| name.len() as i64);
    Ok(Table {
        offsets: column(&begins).map_err(of("offsets"))?,
        flags: flag_column(&normalised).map_err(of("flags"))?,
        named: flag_column(&named).map_err(of("named"))?,
        numbers: column(&numbers).map_err(of("numbers"))?,
        lengths: column(&lengths).map_err(of("lengths"))?,
        names: STEMS.concat().into_bytes(),
    })
}

/// All rows of a column that has this many.
fn rows(bytes: &[u8], column: &'static str, many: usize) -> Result<Vec<i64>, Told> {
    let rows = Column::new(bytes, Sign::Unsigned).to_vec().map_err(of(column))?;
    if rows.len() == many {
        return Ok(rows);
    }
    Err(Told { column, why: format!("{} rows, for {many}", rows.len()).into() })
}

/// The row of a window: a batch of one place that begins there. The rows before it are passed over.
fn row(bytes: &[u8], column: &'static str, number: usize) -> Result<i64, Told> {
    let position = RowPosition { run: ByteOffset(0), skip: RowNumber(number) };
    let mut place = [0];
    match Column::new(bytes, Sign::Unsigned).read_at(position, &mut place).map_err(of(column))? {
        Some(_) => Ok(place[0]),
        None => Err(Told { column, why: format!("no row {number}").into() }),
    }
}

/// The flag of a window: a batch of one that begins inside a byte run, and inside a byte of it.
fn flag(bytes: &[u8], column: &'static str, number: usize) -> Result<bool, Told> {
    let position = FlagPosition { run: ByteOffset(0), bytes: ByteOffset(number / 8), bits: number % 8 };
    let flags = Flags::new(bytes).starting_at(position).next(RowNumber(1)).map_err(of(column))?;
    Ok(flags == [true])
}

/// What a window is called: a part of the names, or the fallback.
fn name(table: &Table, number: usize) -> Result<&[u8], Told> {
    let mut flags = [0; WINDOWS];
    Flags::new(&table.named).read_into(&mut flags).map_err(of("named"))?;
    let named = flags.iter().filter(|flag| **flag != 0).count();
    let dictionary = Dictionary {
        block: &table.names,
        lengths: &rows(&table.lengths, "lengths", STEMS.len())?,
        numbers: &rows(&table.numbers, "numbers", named)?,
        flags: &flags,
    };
    let labels = Labels::new(dictionary).map_err(of("names"))?;
    Ok(labels.get(RowNumber(number)).flatten().unwrap_or(FALLBACK))
}

fn window(table: &Table, number: usize) -> Result<Window, Told> {
    let begins = row(&table.offsets, "offsets", number)?;
    let normalised = flag(&table.flags, "flags", number)?;
    let label = String::from_utf8_lossy(name(table, number)?).into_owned();
    Ok(Window { begins, normalised, label })
}

/// The answer for a window, or what a person is told.
fn answer(table: &Table, number: usize) -> String {
    match window(table, number) {
        Ok(Window { begins, normalised, label }) => {
            let already = if normalised { "already normalised" } else { "not normalised yet" };
            format!("window {number} ({label}) is {already}, and begins at sample {begins}")
        }
        Err(told) => told.to_string(),
    }
}

/// What the example writes.
pub fn report() -> String {
    let mut report = String::new();
    let mut say = |line: String| writeln!(report, "{line}").expect("a string takes it");
    let table = match write_table() {
        Ok(table) => table,
        Err(told) => return told.to_string(),
    };
    let Table { offsets, flags, named, numbers, lengths, names } = &table;
    let [offsets, flags, named, numbers, lengths, names] =
        [offsets, flags, named, numbers, lengths, names].map(Vec::len);
    say(format!(
        "written: offsets {offsets} bytes, flags {flags}, named {named}, numbers {numbers}, lengths {lengths}, \
         names {names}"
    ));
    for number in [23, 24, 28] {
        say(answer(&table, number));
    }
    // The header reads one row and packed steps, which no run has.
    let mut damaged = table.clone();
    damaged.offsets[..2].copy_from_slice(&[0xC2, 0x00]);
    say(format!("damaged: {}", answer(&damaged, 24)));
    // The names lost their last byte: the lengths show it, for a window without a name too.
    let mut damaged = table.clone();
    damaged.names.pop();
    say(format!("damaged: {}", answer(&damaged, 28)));
    // The last byte of the flags was not copied. The first 24 flags are there, and window 23 is the last
    // of them; the flag of window 24 is not.
    let mut cut = table.clone();
    cut.flags.pop();
    for number in [23, 24] {
        say(format!("cut: {}", answer(&cut, number)));
    }
    // The last byte of the offsets was not copied: the run of window 23 is cut, and not that of window 19.
    let mut cut = table.clone();
    cut.offsets.pop();
    for number in [19, 23] {
        say(format!("cut: {}", answer(&cut, number)));
    }
    report
}

#[allow(dead_code)] // a test takes this file in and calls `report`
fn main() {
    print!("{}", report());
}
