//! The loader's two units, kept apart: places and counts of bytes, and of rows. Lengths of slices stay `usize`.
use std::fmt;
use std::iter::Sum;
use std::ops::{Add, AddAssign, Sub, SubAssign};

/// A place in a file or a slice, or a stretch of it, in bytes.
///
/// A sum that would pass the end of a word stays there, and a difference that would fall below 0 is 0. So a
/// position past the end of the input is past it however far, and nothing ever wraps to a small number.
///
/// It adds to its own kind only:
///
/// ```compile_fail
/// use menakovitsy::{ByteOffset, RowNumber};
/// let _ = ByteOffset(3) + RowNumber(5);
/// ```
///
/// It is shown as its number, and is made of a `usize` and back by [`From`]:
///
/// ```
/// use menakovitsy::ByteOffset;
///
/// let header = [0x46, 0x02];
/// let at = ByteOffset(7) + header.len().into();
/// assert_eq!(format!("at byte {at}"), "at byte 9");
/// assert_eq!(usize::from(at - ByteOffset(4)), 5);
/// ```
#[derive(Debug, Clone, Copy, PartialEq, Eq, PartialOrd, Ord, Hash, Default)]
pub struct ByteOffset(pub usize);

/// A place in a column, or a stretch of it, in rows.
///
/// It counts as [`ByteOffset`] does: sums and differences stay within a word.
///
/// ```
/// use menakovitsy::RowNumber;
///
/// let left = RowNumber(900) - RowNumber(700);
/// assert_eq!(format!("{left} rows are left"), "200 rows are left");
/// assert_eq!(RowNumber(700) - RowNumber(900), RowNumber(0));
/// assert_eq!([left, 3.into()].into_iter().sum::<RowNumber>(), RowNumber(203));
/// ```
#[derive(Debug, Clone, Copy, PartialEq, Eq, PartialOrd, Ord, Hash, Default)]
pub struct RowNumber(pub usize);

/// What both units can do.
macro_rules! unit {
    ($unit:ident) => {
        impl Add for $unit {
            type Output = Self;

            fn add(self, other: Self) -> Self {
                $unit(self.0.saturating_add(other.0))
            }
        }

        impl AddAssign for $unit {
            fn add_assign(&mut self, other: Self) {
                *self = *self + other;
            }
        }

        impl Sub for $unit {
            type Output = Self;

            fn sub(self, other: Self) -> Self {
                $unit(self.0.saturating_sub(other.0))
            }
        }

        impl SubAssign for $unit {
            fn sub_assign(&mut self, other: Self) {
                *self = *self - other;
            }
        }

        impl Sum for $unit {
            fn sum<I: Iterator<Item = Self>>(units: I) -> Self {
                units.fold($unit(0), Add::add)
            }
        }

        impl From<usize> for $unit {
            fn from(number: usize) -> Self {
                $unit(number)
            }
        }

        impl From<$unit> for usize {
            fn from(unit: $unit) -> Self {
                unit.0
            }
        }

        impl fmt::Display for $unit {
            fn fmt(&self, f: &mut fmt::Formatter) -> fmt::Result {
                self.0.fmt(f)
            }
        }
    };
}

unit!(ByteOffset);
unit!(RowNumber);
