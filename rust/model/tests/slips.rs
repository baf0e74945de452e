//! The test vectors find what they are for: a reader that is right answers every line as the model does, and
//! each slip that programmers make shows in the family that asks for it.
use model::vectors::{Frame, FAMILIES};
use model::{Answer, WIDTHS};

/// What a reader gets wrong.
#[derive(Debug, Clone, Copy, PartialEq, Eq)]
enum Slip {
    Nothing,
    // Widths and lengths.
    Code24Has25Bits,
    RowsOfOneByte,
    MaskOf64BitsIsZero,
    ZigzagShiftsTheSign,
    OneRowWithAWidth,
    FixedDeltaHasOneBit,
    FallingIsAdded,
    // Patch lists.
    GapsFromTheStart,
    GapsOfTheGapWidth,
    SkipsWithAPatch,
    SkipsPatch,
    SharedPlaces,
    PlacesOutside,
    LastSkips,
    LargePatchesAreCut,
    EntriesAreNotRounded,
    PatchesReplaceTheValue,
    ValuesAreNotPadded,
    ZigzagOnPatchedRows,
    // Sums.
    SumsStopAtTheEnds,
    SumsAreRefused,
    BaseOfZeroFalls,
    TenthByteIsCut,
    ElevenBytesAreRead,
    BaseIsInTwosComplement,
    // Cuts.
    MissingBytesAreZero,
    LastByteMayBeMissing,
    CutListsAreEmpty,
    RowsBeforeTheCut,
}

use Slip::*;

/// Each slip, and the family that finds it.
const SLIPS: [(&str, &[Slip]); 4] = [
    (
        "widths",
        &[
            Code24Has25Bits,
            RowsOfOneByte,
            MaskOf64BitsIsZero,
            ZigzagShiftsTheSign,
            OneRowWithAWidth,
            FixedDeltaHasOneBit,
            FallingIsAdded,
        ],
    ),
    (
        "patches",
        &[
            GapsFromTheStart,
            GapsOfTheGapWidth,
            SkipsWithAPatch,
            SkipsPatch,
            SharedPlaces,
            PlacesOutside,
            LastSkips,
            LargePatchesAreCut,
            EntriesAreNotRounded,
            PatchesReplaceTheValue,
            ValuesAreNotPadded,
            ZigzagOnPatchedRows,
        ],
    ),
    (
        "sums",
        &[
            SumsStopAtTheEnds,
            SumsAreRefused,
            BaseOfZeroFalls,
            TenthByteIsCut,
            ElevenBytesAreRead,
            BaseIsInTwosComplement,
        ],
    ),
    ("cuts", &[MissingBytesAreZero, LastByteMayBeMissing, CutListsAreEmpty, RowsBeforeTheCut]),
];

/// A reader over bits, with one slip.
struct Reader<'a> {
    bytes: &'a [u8],
    at: usize,
    signed: bool,
    slip: Slip,
}

impl Reader<'_> {
    fn number(&mut self, bits: usize) -> Option<u64> {
        let mut number = 0;
        for _ in 0..bits {
            let byte = match self.bytes.get(self.at / 8) {
                None if self.slip != MissingBytesAreZero => return None,
                byte => byte.copied().unwrap_or(0),
            };
            number = number << 1 | u64::from(byte >> (7 - self.at % 8) & 1);
            self.at += 1;
        }
        Some(number)
    }

    fn width(&mut self) -> Option<usize> {
        let code = self.number(5)? as usize;
        Some(if self.slip == Code24Has25Bits && code == 24 { 25 } else { WIDTHS[code] })
    }

    fn rows(&mut self) -> Option<usize> {
        let rows = self.number(9)? as usize;
        Some(1 + if self.slip == RowsOfOneByte { rows % 256 } else { rows })
    }

    fn block(&mut self, fields: usize, width: usize) -> Option<Vec<u64>> {
        let begins = self.at;
        let mut block = Vec::new();
        for _ in 0..fields {
            block.push(match (self.number(width), self.slip) {
                (Some(_), MaskOf64BitsIsZero) if width == 64 => 0,
                (Some(field), _) => field,
                (None, RowsBeforeTheCut) if !block.is_empty() => return Some(block),
                (None, LastByteMayBeMissing) if begins + fields * width < self.bytes.len() * 8 + 8 => 0,
                (None, _) => return None,
            });
        }
        if self.slip != ValuesAreNotPadded {
            self.at = self.at.next_multiple_of(8);
        }
        Some(block)
    }

    fn varint(&mut self) -> Option<u64> {
        let most = if self.slip == ElevenBytesAreRead { 20 } else { 10 };
        let mut number = 0;
        for group in 0..most {
            let byte = self.number(8)?;
            if group == 9 && byte > 1 && ![TenthByteIsCut, ElevenBytesAreRead].contains(&self.slip) {
                return None;
            }
            number |= (byte & 127).wrapping_shl(7 * group);
            if byte < 128 {
                return Some(number);
            }
        }
        None
    }

    fn zigzag(&self, number: u64) -> i64 {
        let half = if self.slip == ZigzagShiftsTheSign { number as i64 >> 1 } else { (number >> 1) as i64 };
        half ^ -((number & 1) as i64)
    }

    fn row(&self, number: u64) -> i64 {
        if self.signed {
            self.zigzag(number)
        } else {
            number as i64
        }
    }

    fn sum(&self, one: i64, other: i64) -> Option<i64> {
        match self.slip {
            SumsStopAtTheEnds => Some(one.saturating_add(other)),
            SumsAreRefused => one.checked_add(other),
            _ => Some(one.wrapping_add(other)),
        }
    }

    fn short_repeat(&mut self) -> Option<Vec<i64>> {
        let (size, count) = (self.number(3)? as usize + 1, self.number(3)? as usize + 3);
        let value = self.number(8 * size)?;
        Some(vec![self.row(value); count])
    }

    fn direct(&mut self) -> Option<Vec<i64>> {
        let (width, rows) = (self.width()?, self.rows()?);
        Some(self.block(rows, width)?.into_iter().map(|field| self.row(field)).collect())
    }

    fn delta(&mut self) -> Option<Vec<i64>> {
        let (width, count) = (self.width()?, self.rows()?);
        let fixed = width == 1 && self.slip != FixedDeltaHasOneBit;
        if count == 1 && !fixed && self.slip != OneRowWithAWidth {
            return None;
        }
        let (first, base) = (self.varint()?, self.varint()?);
        let (first, base) = (self.row(first), self.zigzag(base));
        let falls = base < 0 || base == 0 && self.slip == BaseOfZeroFalls;
        let mut steps = vec![base; if fixed { count - 1 } else { 1.min(count - 1) }];
        if !fixed {
            let magnitudes = self.block(count.saturating_sub(2), width)?;
            let toward =
                |step: u64| if falls && self.slip != FallingIsAdded { step.wrapping_neg() } else { step };
            steps.extend(magnitudes.into_iter().map(|magnitude| toward(magnitude) as i64));
        }
        let mut rows = vec![first];
        for step in steps {
            rows.push(self.sum(rows[rows.len() - 1], step)?);
        }
        Some(rows)
    }

    fn patched(&mut self) -> Option<Vec<i64>> {
        let (width, rows) = (self.width()?, self.rows()?);
        let (base_bits, patch_width) = (8 * (self.number(3)? as usize + 1), self.width()?);
        let (gap_width, entries) = (self.number(3)? as usize + 1, self.number(5)? as usize);
        if patch_width + gap_width > 64 {
            return None;
        }
        let base = self.number(base_bits)?;
        let sign = 1 << (base_bits - 1);
        let base = match self.slip {
            BaseIsInTwosComplement => (base << (64 - base_bits)) as i64 >> (64 - base_bits),
            _ if base & sign != 0 => -((base ^ sign) as i64),
            _ => base as i64,
        };
        let mut values = self.block(rows, width)?;
        let rounded = *WIDTHS.iter().find(|bits| **bits >= patch_width + gap_width)?;
        let entry_width = if self.slip == EntriesAreNotRounded { patch_width + gap_width } else { rounded };
        let list = match self.block(entries, entry_width) {
            None if self.slip == CutListsAreEmpty => Vec::new(),
            list => list?,
        };
        let split = |entry: u64| (entry >> patch_width, entry & ((1 << patch_width) - 1));
        self.patch(&mut values, width, gap_width, list.into_iter().map(split).collect())?;
        let rows = values.into_iter().map(|value| self.sum(base, value as i64));
        let rows: Option<Vec<i64>> = rows.collect();
        let zigzag = self.signed && self.slip == ZigzagOnPatchedRows;
        rows.map(|rows| {
            rows.into_iter().map(|row| if zigzag { self.zigzag(row as u64) } else { row }).collect()
        })
    }

    /// Puts the patches above the values.
    fn patch(&self, values: &mut [u64], width: usize, gap_width: usize, list: Vec<(u64, u64)>) -> Option<()> {
        let (mut place, mut before, mut last_skips) = (0, None, false);
        for (gap, patch) in list {
            let gap = if self.slip == GapsOfTheGapWidth { gap & ((1 << gap_width) - 1) } else { gap };
            place = if self.slip == GapsFromTheStart { gap } else { place + gap };
            last_skips =
                gap == 255 && (patch == 0 || self.slip == SkipsWithAPatch) && self.slip != SkipsPatch;
            if last_skips {
                continue;
            }
            let shared = before == Some(place) && self.slip != SharedPlaces;
            let too_large = u128::from(patch) << width >> 64 != 0 && self.slip != LargePatchesAreCut;
            before = Some(place);
            match values.get_mut(place as usize) {
                _ if shared || too_large => return None,
                Some(value) if self.slip == PatchesReplaceTheValue => {
                    *value = (u128::from(patch) << width) as u64
                }
                Some(value) => *value |= (u128::from(patch) << width) as u64,
                None if self.slip == PlacesOutside => {}
                None => return None,
            }
        }
        (!last_skips || self.slip == LastSkips).then_some(())
    }
}

/// The rows and the bytes of a run; nothing if it is refused.
fn read(frame: &Frame, slip: Slip) -> Option<(Vec<i64>, usize)> {
    let mut reader = Reader { bytes: &frame.bytes, at: 0, signed: frame.signed, slip };
    if frame.bytes.is_empty() {
        return None;
    }
    let rows = match reader.number(2)? {
        0 => reader.short_repeat(),
        1 => reader.direct(),
        2 => reader.patched(),
        _ => reader.delta(),
    };
    Some((rows?, reader.at.div_ceil(8)))
}

fn is_wrong(frame: &Frame, slip: Slip) -> bool {
    let right = match frame.answer() {
        Answer::Run(run) => Some((run.rows, run.consumed)),
        _ => None,
    };
    read(frame, slip) != right
}

#[test]
fn no_slip_no_difference() {
    for family in &FAMILIES {
        if let Some(frame) = family.frames().find(|frame| is_wrong(frame, Nothing)) {
            panic!("{}: {}", family.name, frame.line());
        }
    }
}

#[test]
fn every_slip_is_found() {
    for (family, (name, slips)) in FAMILIES.iter().zip(SLIPS) {
        assert_eq!(family.name, name);
        for slip in slips {
            let found = family.frames().any(|frame| is_wrong(&frame, *slip));
            assert!(found, "no line of {name} shows {slip:?}");
        }
    }
}
