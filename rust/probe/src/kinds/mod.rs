//! The kinds of lines: a frame's fields, the call that they ask for, and what it answers.
//!
//! A line is hexadecimal of either case. Its first byte says which function is called. Numbers are big-endian,
//! eight bytes each. Flags, forms and widths have one byte. Counts of places have two.
//!
//! | First byte | Then | Answer |
//! |---|---|---|
//! | 01 run | flag, position, places, input | `end`, `run KIND WIDTH ROWS BYTES r r ..`, REFUSED |
//! | 02 stream | flag, position, places, input | `whole ROWS BYTES LAST r r ..`, `REFUSED ROWS BYTES LAST r r ..` |
//! | 03 booleans | n, position, places, input | `booleans WIDTH ROWS BYTES 0110..`, REFUSED |
//! | 04 byte value | n, position, input | `value WIDTH ROWS BYTES HEX`, REFUSED |
//! | 05 write | flag, form (4: patched), width (patched: W in bits), places, for form 4 the base, rows | `written KIND WIDTH ROWS BYTES HEX`, REFUSED |
//! | 06 narrowest code | a number | `code N` |
//! | 07 parts | flag, places, how many parts, each part's length, the parts' bytes | `parts`, then ` run START KIND/WIDTH/ROWS/BYTES r r ..` for each run, ` whole` or ` REFUSED`, ` taken N` |
//! | 08 index | room in each of the three columns (entries), input | `index ENTRIES ROWS BYTES FIRST/AT/ROWS ..`, REFUSED |
//! | 09 lookup | row, how many FIRST, AT and ROWS, then the three columns, input | `entry FIRST/AT/ROWS`, REFUSED |
//! | 0A read from | flag, row, places, how many FIRST, AT and ROWS, then the three columns, input | `rows ROWS r r ..`, REFUSED |
//! | 0B salvage | flag, fill, room (bytes), how many pairs, each START ROWS, input | `salvaged kept 0 5 replaced 1 7 .. bytes BYTES HEX`, REFUSED |
//! | 0C column | flag, room (bytes), how many segments, each FIRST, ROWS, FORM (one byte, 0 to 4), WIDTH (one byte) and BASE, then the rows | `column planned BYTES HEX`, `column direct BYTES HEX`, REFUSED |
//! | 0D plan | flag, room (segments), rows | `plan SEGMENTS FIRST/ROWS/FORM/WIDTH/BASE ..` |
//! | 0E convert | flag, room (bytes), input | `converted ALTERED BYTES HEX`, REFUSED |
//! | 0F label | row, how many lengths, numbers, flags, bytes of the block and of the fallback, then these | `name HEX`, `fallback HEX`, REFUSED |
//! | 10 count | n, bytes | `true N`, REFUSED |
//! | 11 rows | flag, run, skip, places, input | `rows N RUN SKIP r r ..`, `end`, REFUSED |
//! | 12 batches | flag, run, skip, how many sizes, each size (two bytes), input | for each size in turn a call with that many places at the position that came back: `rows N RUN SKIP r r ..`, the texts joined by ` ; `; the first `end` or REFUSED is the last; no size at all is a bad line |
//! | 13 flags | n, run, bytes, bits, places, input | `flags N RUN BYTES BITS 0110..`, REFUSED |
//! | 14 bytes | n, run, bytes, places, input | `bytes N RUN BYTES HEX`, REFUSED |
//! | 15 spread | fill, places, how many flags and rows, flags (a byte each), rows | `spread N r r ..`, REFUSED |
//! | 16 labels | block length, how many flags, numbers and lengths, room for offsets, starts and sizes, then flags (a byte each), numbers, lengths | `labels OFFSET .. / START/SIZE ..`, REFUSED; of 19 with the row instead of the place |
//! | 17 write booleans | places, flags (a byte each) | `written N BYTES HEX`, REFUSED |
//! | 18 write bytes | places, bytes | `written N BYTES HEX`, REFUSED |
//! | 19 rescue | flag, fill, room for rows and for verdicts, how many runs, skips and counts, then the three columns, input | `rescued 101.. r r ..` (a digit a group, then the rows), REFUSED |
//!
//! - REFUSED is `refused NUMBER PLACE`, and `refused NUMBER PLACE cut BYTE` for 6, 12, 13 and 14, which have a
//!   cut field.
//! - KIND is `short`, `direct`, `patched` or `delta`. WIDTH is the value width in bits, 0 for a fixed delta. LAST
//!   is the last run that was read, as `KIND/WIDTH/ROWS/BYTES`, or `none`.
//! - A line has at most 65,536 characters, and each count of places is at most 8,192. A line that says how many
//!   of everything it holds (15 and 16) is bad with a byte more. Any other line is `bad line`.
//! - A line ends in ` touched` if a place has changed that must not: in a buffer, in what is only read, in the
//!   words, or in the 64 places before and after each.
//! - A line ends in ` odd` if the words of the answer contradict each other. It is also odd: in 0C, if the check,
//!   called by itself, disagrees with the writer; in 17 and 18, if the size, asked for by itself, is not what was
//!   written, or if a call is refused that has the places; in 19, if the count of kept groups is not that of the
//!   verdicts.
//! - In 0D the bases are as they stand in their column, without a sign, and the places after the segments may
//!   have changed. What the planner proposes has no one right value, so the fixed list has only lines for which
//!   nothing can be proposed.
//! - For 17 and 18 the fixed list has the runs that FORMAT.md says are chosen. Of random lines any runs are
//!   accepted that stand for the bytes and are as short as any can be.
//!
//! A further kind is a function, a line of the table and one of `KINDS`.
mod batches;
mod booleans;
mod byte_writer;
mod columns;
mod convert;
mod count;
mod index;
mod labels;
mod lined_up;
mod parts;
mod rescue;
mod runs;
mod salvage;
mod value;
mod write;

use crate::line::Fields;

/// Takes the fields after the first byte, and answers the line. Nothing for a bad line.
type Kind = fn(Fields) -> Option<String>;

const KINDS: [(u64, Kind); 25] = [
    (0x01, runs::run),
    (0x02, runs::stream),
    (0x03, booleans::booleans),
    (0x04, value::value),
    (0x05, write::write),
    (0x06, write::narrowest),
    (0x07, parts::parts),
    (0x08, index::index),
    (0x09, index::look_up),
    (0x0A, index::read_from),
    (0x0B, salvage::salvage),
    (0x0C, columns::column),
    (0x0D, columns::plan),
    (0x0E, convert::convert),
    (0x0F, labels::label),
    (0x10, count::count),
    (0x11, batches::rows),
    (0x12, batches::batches),
    (0x13, batches::flags),
    (0x14, batches::bytes),
    (0x15, lined_up::spread),
    (0x16, lined_up::labels),
    (0x17, byte_writer::booleans),
    (0x18, byte_writer::bytes),
    (0x19, rescue::rescue),
];

/// The answer to a frame. Nothing for a bad line.
pub fn answer(frame: &[u8]) -> Option<String> {
    let mut fields = Fields::new(frame);
    let asked = fields.byte()?;
    let (_, kind) = KINDS.iter().find(|(number, _)| *number == asked)?;
    kind(fields)
}

/// A flag is 0 or 1.
const FLAGS: u64 = 2;

/// Adds what was seen beside the answer.
fn ended(mut line: String, fits: bool, touched: bool) -> Option<String> {
    if !fits {
        line += " odd";
    }
    if touched {
        line += " touched";
    }
    Some(line)
}
