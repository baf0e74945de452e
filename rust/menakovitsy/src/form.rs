//! The forms that runs are written in.

/// The form that rows are written in.
///
/// [`write_run`](crate::write_run) writes the first four. A patched run wants a base, too, and is
/// [`write_patched`](crate::write_patched)'s; in a [`Segment`](crate::Segment), which has a base, every form may
/// stand. The default is direct, which any rows have.
#[derive(Debug, Clone, Copy, PartialEq, Eq, Hash, Default)]
#[non_exhaustive]
pub enum Form {
    /// 0: 3 to 10 equal rows.
    ShortRepeat,
    /// 1: 1 to 512 rows, packed.
    #[default]
    Direct,
    /// 2: 1 to 512 rows with one step.
    FixedDelta,
    /// 3: 2 to 512 rows, whatever they are, by steps that are packed. A step against the direction of the first
    /// counts modulo 2^64, so that it needs 64 bits.
    PackedDelta,
    /// 4: 1 to 512 rows as differences from a base, packed, and the few large ones patched.
    Patched,
    /// A number that is none of these: a proposal that was stored, or made up, may have any. No run is written
    /// in it.
    Unknown(u64),
}

impl Form {
    /// Its number, as a proposal's columns and the C functions have it.
    #[must_use]
    pub fn number(self) -> u64 {
        match self {
            Form::ShortRepeat => 0,
            Form::Direct => 1,
            Form::FixedDelta => 2,
            Form::PackedDelta => 3,
            Form::Patched => 4,
            Form::Unknown(number) => number,
        }
    }

    /// The form of that number: [`Form::Unknown`] if none has it.
    #[must_use]
    pub fn of_number(number: u64) -> Self {
        match number {
            0 => Form::ShortRepeat,
            1 => Form::Direct,
            2 => Form::FixedDelta,
            3 => Form::PackedDelta,
            4 => Form::Patched,
            other => Form::Unknown(other),
        }
    }
}
