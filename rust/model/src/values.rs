//! Byte values.
use crate::{rest, Info, Kind, Refusal};

/// What reading a byte value answers, with the part that it hands back.
#[derive(Debug, Clone, PartialEq, Eq)]
pub enum Value {
    Given(Vec<u8>),
    Refused(Refusal),
}

impl Value {
    /// What the answer says beside the part: each byte is eight bits wide, and n stands as rows.
    pub fn info(&self) -> Option<Info> {
        let Value::Given(part) = self else { return None };
        Some(Info { kind: Kind::ByteValue, width: 8, rows: part.len(), bytes: part.len() })
    }
}

/// "A value of length n is the first n bytes of the rest; 0 gives an empty part."
pub fn read_value(input: &[u8], at: usize, n: usize) -> Value {
    match rest(input, at).get(..n) {
        Some(part) => Value::Given(part.to_vec()),
        None => Value::Refused(Refusal::cut(6, at, at)),
    }
}
