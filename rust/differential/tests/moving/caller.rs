// Column readers of a user of orc-rs, written once. Whoever takes this file in says before it which `orc_rs` is
// meant: that one line is all that differs.
use std::io::Read;

use orc_rs::error::Result;
use orc_rs::reader::decode::boolean_rle::BooleanIter;
use orc_rs::reader::decode::rle_v2::{RleReaderV2, UnsignedRleReaderV2};
use orc_rs::reader::decode::variable_length::Values;

/// Notes each row of an integer column; nothing for an error.
pub fn integers<R: Read>(reader: R, signed: bool, note: &mut dyn FnMut(Option<i64>)) {
    for row in RleReaderV2::try_new(reader, signed, true) {
        note(row.ok());
    }
}

/// The same of a column that is not signed, behind a pointer, as readers of many types of columns have it.
pub fn lengths<'r, R: Read + Send + 'r>(reader: R, note: &mut dyn FnMut(Option<u64>)) {
    let rows: Box<dyn Iterator<Item = Result<u64>> + Send + 'r> =
        Box::new(UnsignedRleReaderV2::try_new(reader, true));
    for row in rows {
        note(row.ok());
    }
}

/// Notes each flag of a flag column, and gives the reader back.
pub fn flags<R: Read>(reader: R, length: usize, note: &mut dyn FnMut(Option<bool>)) -> R {
    let mut flags = BooleanIter::new(reader, length);
    for flag in flags.by_ref() {
        note(flag.ok());
    }
    flags.into_inner()
}

/// Notes the byte values of some lengths, one after another, and gives the room for them back.
pub fn names<R: Read>(reader: R, lengths: &[usize], note: &mut dyn FnMut(Option<Vec<u8>>)) -> Vec<u8> {
    let mut values = Values::new(reader, vec![7; 3]);
    for length in lengths {
        note(values.next(*length).ok().map(<[u8]>::to_vec));
    }
    values.into_inner()
}
