//! The boolean reader.
use crate::{rest, Info, Kind, Refusal};

/// What the boolean reader answers.
#[derive(Debug, Clone, PartialEq, Eq)]
pub enum Booleans {
    Given { values: Vec<bool>, consumed: usize },
    Refused(Refusal),
}

impl Booleans {
    /// What the answer says beside the booleans: each is one bit wide, and n stands as rows.
    pub fn info(&self) -> Option<Info> {
        let Booleans::Given { values, consumed } = self else { return None };
        Some(Info { kind: Kind::Booleans, width: 1, rows: values.len(), bytes: *consumed })
    }
}

/// The bytes of the run at the start of some bytes, and the bytes that it takes up; nothing where it
/// is cut or there is none.
///
/// "Control c from 0 to 127: c+3 copies of the next byte. From 128 to 255: 256-c literal bytes."
pub fn first_run(bytes: &[u8]) -> Option<(Vec<u8>, usize)> {
    let (control, body) = bytes.split_first()?;
    let control = usize::from(*control);
    if control < 128 {
        let copies = vec![*body.first()?; control + 3];
        Some((copies, 2))
    } else {
        let literals = body.get(..256 - control)?;
        Some((literals.to_vec(), 1 + literals.len()))
    }
}

/// Reads `n` booleans at a position, with that many places lent. "Takes only as many runs as needed,
/// and consumes each of those whole."
pub fn read_booleans(input: &[u8], at: usize, n: usize, places: usize) -> Booleans {
    let rest = rest(input, at);
    let mut values = Vec::new();
    let mut consumed = 0;
    while values.len() < n {
        let Some((bytes, taken)) = first_run(&rest[consumed..]) else {
            // "6 stays for .. a missing boolean control byte"; "13 cut .. in a byte run after its
            // control byte".
            let control = at + consumed;
            return Booleans::Refused(match consumed == rest.len() {
                true => Refusal::cut(6, at, control),
                false => Refusal::cut(13, at, control + 1),
            });
        };
        // "Highest bit first."
        for byte in bytes {
            values.extend((0..8).rev().map(|k| byte >> k & 1 == 1));
        }
        consumed += taken;
    }
    if places < n {
        return Booleans::Refused(Refusal::whole(8, at));
    }
    values.truncate(n);
    Booleans::Given { values, consumed }
}
