//! Why a call is refused.
use std::error::Error;
use std::{fmt, io};

/// A refusal, by its number. Readers give 1 to 8 and 12 to 14; 9 to 11 are the run writer's; a caller's
/// index is refused with 15, a row with 16, row groups with 17; labels with 16, 18 and 19; flags and rows
/// that are not lined up with 21. (20 is of the program that adds up totals.)
#[derive(Debug, Clone, Copy, PartialEq, Eq, Hash)]
#[non_exhaustive]
pub enum Refusal {
    /// 1: a run has begun and its fixed header is not all there.
    HeaderCut,
    /// 2: patched base, and patch width and gap width are over 64 bits together.
    EntryOver64,
    /// 3: patched base, and a patch has no room above a value of W bits: it is 2^(64-W) or more.
    PatchTooLarge,
    /// 4: delta with a width, and one row.
    OneRowDelta,
    /// 5: a varint's tenth byte is above 1: it says more than 64 bits hold, or goes on.
    VarintTooLong,
    /// 6: a short repeat's value, a patched run's base or a byte value is cut, or a boolean control
    /// byte is missing.
    ValueCut,
    /// 7: patched base, and the patch list is out of place.
    PatchOutOfPlace,
    /// 8: the output has too few places.
    TooFewPlaces,
    /// 9: writer, a row count that the form does not allow.
    RowCount,
    /// 10: writer, rows that do not have the form, or a width that is not one of the form's.
    NotTheForm,
    /// 11: writer, a row or a magnitude that needs more bits than the width.
    TooNarrow,
    /// 12: a varint is cut.
    VarintCut,
    /// 13: packed rows are cut, or a byte run is cut after its control byte.
    RowsCut,
    /// 14: a patch list is cut.
    ListCut,
    /// 15: the index is not the column's, or its columns have unequal lengths.
    WrongIndex,
    /// 16: there is no such row.
    NoSuchRow,
    /// 17: the starts of row groups do not begin at 0, do not rise strictly or pass the end; or the positions
    /// of row groups are not in order.
    WrongStarts,
    /// 18: a length of the dictionary is below 0, or they do not add up to its block.
    LengthsNotTheBlock,
    /// 19: the row's number is outside the dictionary, or the numbers end before its entry.
    NoSuchName,
    /// 21: there are not exactly as many rows as flags that say a row is present.
    NotLinedUp,
    /// A number that this version of the wrapper does not know: a later library is linked, or
    /// another one than the proved one.
    Unknown(u64),
}

impl Refusal {
    /// All that have a number of their own, in the order of the numbers.
    pub const ALL: [Refusal; 20] = [
        Refusal::HeaderCut,
        Refusal::EntryOver64,
        Refusal::PatchTooLarge,
        Refusal::OneRowDelta,
        Refusal::VarintTooLong,
        Refusal::ValueCut,
        Refusal::PatchOutOfPlace,
        Refusal::TooFewPlaces,
        Refusal::RowCount,
        Refusal::NotTheForm,
        Refusal::TooNarrow,
        Refusal::VarintCut,
        Refusal::RowsCut,
        Refusal::ListCut,
        Refusal::WrongIndex,
        Refusal::NoSuchRow,
        Refusal::WrongStarts,
        Refusal::LengthsNotTheBlock,
        Refusal::NoSuchName,
        Refusal::NotLinedUp,
    ];

    /// Its number.
    #[must_use]
    pub fn number(self) -> u64 {
        match self {
            Refusal::HeaderCut => 1,
            Refusal::EntryOver64 => 2,
            Refusal::PatchTooLarge => 3,
            Refusal::OneRowDelta => 4,
            Refusal::VarintTooLong => 5,
            Refusal::ValueCut => 6,
            Refusal::PatchOutOfPlace => 7,
            Refusal::TooFewPlaces => 8,
            Refusal::RowCount => 9,
            Refusal::NotTheForm => 10,
            Refusal::TooNarrow => 11,
            Refusal::VarintCut => 12,
            Refusal::RowsCut => 13,
            Refusal::ListCut => 14,
            Refusal::WrongIndex => 15,
            Refusal::NoSuchRow => 16,
            Refusal::WrongStarts => 17,
            Refusal::LengthsNotTheBlock => 18,
            Refusal::NoSuchName => 19,
            Refusal::NotLinedUp => 21,
            Refusal::Unknown(number) => number,
        }
    }

    /// The refusal of that number: [`Refusal::Unknown`] if none has it.
    #[must_use]
    pub fn of_number(number: u64) -> Self {
        let has = |refusal: &Refusal| refusal.number() == number;
        Self::ALL.into_iter().find(has).unwrap_or(Refusal::Unknown(number))
    }

    /// What the number means.
    #[must_use]
    pub fn meaning(self) -> &'static str {
        match self {
            Refusal::HeaderCut => "the input ends inside the run's header",
            Refusal::EntryOver64 => "patched base: patch width and gap width are over 64 bits together",
            Refusal::PatchTooLarge => "patched base: a patch has no room above its value, in 64 bits",
            Refusal::OneRowDelta => "delta: packed magnitudes announced for a single row",
            Refusal::VarintTooLong => "a varint says more than 64 bits hold: its tenth byte is above 1",
            Refusal::ValueCut => "a value, a base or a control byte is cut",
            Refusal::PatchOutOfPlace => {
                "patched base: a patch is outside the run or at another's place, or the list ends with a skip"
            }
            Refusal::TooFewPlaces => "fewer places were lent than are needed",
            Refusal::RowCount => "writer: the form does not allow this many rows",
            Refusal::NotTheForm => {
                "writer: the rows do not have the form, or the width is none of its widths"
            }
            Refusal::TooNarrow => "writer: a row or a magnitude needs more bits than the width",
            Refusal::VarintCut => "a varint is cut",
            Refusal::RowsCut => "a block of packed rows or of bytes is cut",
            Refusal::ListCut => "a patch list is cut",
            Refusal::WrongIndex => "the index is not this column's, or its columns have unequal lengths",
            Refusal::NoSuchRow => "there is no such row",
            Refusal::WrongStarts => {
                "row groups: their starts or positions do not begin at 0, are not in order or pass the column's end"
            }
            Refusal::LengthsNotTheBlock => {
                "dictionary: a length is below 0, or the lengths do not add up to the block"
            }
            Refusal::NoSuchName => {
                "dictionary: the row's number is outside it, or the numbers end before the row's entry"
            }
            Refusal::NotLinedUp => {
                "flags and rows are not lined up: there are more or fewer rows than flags that are set"
            }
            Refusal::Unknown(_) => "a number that this wrapper does not know",
        }
    }

    /// Whether the input ends before the run or value does (1, 6, 12, 13 and 14): more bytes may
    /// help. Every other refusal stays whatever bytes follow.
    #[must_use]
    pub fn is_cut(self) -> bool {
        self == Refusal::HeaderCut || self.cut_field().is_some()
    }

    /// Whether it is of a byte of the input, or, by its number alone, may be: 8 is of a reader's input, and of
    /// nothing if a writer or a tool lacks places.
    pub(crate) fn has_place(self) -> bool {
        let damaged = matches!(
            self,
            Refusal::EntryOver64
                | Refusal::PatchTooLarge
                | Refusal::OneRowDelta
                | Refusal::VarintTooLong
                | Refusal::PatchOutOfPlace
        );
        damaged || self.is_cut() || matches!(self, Refusal::TooFewPlaces | Refusal::Unknown(_))
    }

    /// What it is among the errors of input and output.
    pub(crate) fn io_kind(self) -> io::ErrorKind {
        match self {
            cut if cut.is_cut() => io::ErrorKind::UnexpectedEof,
            Refusal::TooFewPlaces
            | Refusal::RowCount
            | Refusal::NotTheForm
            | Refusal::TooNarrow
            | Refusal::NoSuchRow
            | Refusal::WrongStarts => io::ErrorKind::InvalidInput,
            Refusal::Unknown(_) => io::ErrorKind::Other,
            _ => io::ErrorKind::InvalidData,
        }
    }

    /// The field that is cut, in words, for the refusals that name one: 6, 12, 13 and 14. Their
    /// answers carry the byte that it begins at.
    #[must_use]
    pub fn cut_field(self) -> Option<&'static str> {
        match self {
            Refusal::ValueCut => Some("value, base or control byte"),
            Refusal::VarintCut => Some("varint"),
            Refusal::RowsCut => Some("block of packed rows or of bytes"),
            Refusal::ListCut => Some("patch list"),
            _ => None,
        }
    }

    /// What to do about it.
    #[must_use]
    pub fn advice(self) -> &'static str {
        match self {
            Refusal::HeaderCut
            | Refusal::ValueCut
            | Refusal::VarintCut
            | Refusal::RowsCut
            | Refusal::ListCut => {
                "call again with more bytes; if there are none, the stream is cut or the offset is wrong"
            }
            Refusal::EntryOver64
            | Refusal::PatchTooLarge
            | Refusal::OneRowDelta
            | Refusal::VarintTooLong
            | Refusal::PatchOutOfPlace => {
                "no run begins like this: the bytes are damaged, or the offset is not a run's first byte"
            }
            Refusal::TooFewPlaces => {
                "lend more places; 512 rows hold any run, 4,108 bytes any run that is written; column_room and \
                 boolean_room say what holds a column"
            }
            Refusal::RowCount => {
                "give the rows in runs of a length that the form holds, or choose another form"
            }
            Refusal::NotTheForm => "choose another form or width",
            Refusal::TooNarrow => "choose a wider width",
            Refusal::WrongIndex => "build the index again; if that is refused, the column is damaged",
            Refusal::NoSuchRow => "ask for a row below the number of rows (of labels: of flags)",
            Refusal::WrongStarts => {
                "give the starts or positions and the rows of this column's groups, from 0 on, all of them and \
                 in order"
            }
            Refusal::LengthsNotTheBlock => {
                "give the lengths and the block of one dictionary, both whole; if they are, the file is damaged"
            }
            Refusal::NoSuchName => {
                "give the numbers of the same rows as the flags, and the dictionary that they are for; if they \
                 are, the file is damaged"
            }
            Refusal::NotLinedUp => {
                "give the flags and the rows of the same column, from the same row on; if they are, the file is \
                 damaged"
            }
            Refusal::Unknown(_) => "link the library of the wrapper's own revision; check_version compares",
        }
    }
}

impl fmt::Display for Refusal {
    fn fmt(&self, f: &mut fmt::Formatter) -> fmt::Result {
        write!(f, "refusal {}: {} ({})", self.number(), self.meaning(), self.advice())
    }
}

impl Error for Refusal {}

impl From<Refusal> for io::Error {
    fn from(refusal: Refusal) -> Self {
        io::Error::new(refusal.io_kind(), refusal)
    }
}
