//! Random calls of the exported functions, as the loader links them, each held to the model of
//! the rules: what is returned, every word, every row and byte, and what must keep its content.
//! (The planner, whose proposal has no one right value, is held to what it may touch and count.)
//!
//! Each slice that a call is lent stands against a page that nobody may touch ([`fence`]), so a call
//! that reads or writes one element too far ends the process, which says which call it was.
pub mod call;
pub mod fence;
pub mod watch;

use std::collections::BTreeMap;
use std::ptr;

use call::batched::Asked;
use call::byte_runs::What;
use call::{Call, Lending, Outcome, MOST};
use differential::stages::index;
use fence::{Fenced, Side};
use menakovitsy::exported::{self, STATE_WORDS, STREAM_WORDS};
use model::random::Random;

/// The longest input that is made, and the most rows that are written.
const LONGEST: usize = 1 << 16;

/// The pages that calls are lent.
pub struct Session {
    input: Fenced<u8>,
    given: Fenced<i64>,
    /// What only labels are asked of, beside the lengths and the block; and the flags of rows to spread.
    numbers: Fenced<i64>,
    flags: Fenced<u8>,
    fallback: Fenced<u8>,
    /// Columns of numbers, which are read or written.
    columns: [Fenced<u64>; 5],
    rows: Fenced<i64>,
    bytes: Fenced<u8>,
    /// What only a salvage writes.
    report: Fenced<u8>,
    words: Fenced<u64>,
    /// The words of a reader in parts.
    state: Fenced<u64>,
    /// How many calls of each function came to each number (of `orc_read_run` a run is number 0, as
    /// of the others).
    pub tally: BTreeMap<(&'static str, u64), u64>,
}

impl Default for Session {
    fn default() -> Self {
        Session {
            input: Fenced::new(LONGEST),
            given: Fenced::new(LONGEST / 8),
            numbers: Fenced::new(MOST),
            flags: Fenced::new(MOST),
            fallback: Fenced::new(MOST),
            columns: [(); 5].map(|()| Fenced::new(MOST)),
            rows: Fenced::new(MOST),
            bytes: Fenced::new(MOST),
            report: Fenced::new(MOST),
            words: Fenced::new(STREAM_WORDS + 8),
            state: Fenced::new(STATE_WORDS + 8),
            tally: BTreeMap::new(),
        }
    }
}

/// A slice's pointer and length. An empty one may be null.
fn lent<T: fence::Mark>(slice: &Fenced<T>, null: bool) -> (*mut T, usize) {
    let pointer = if null && slice.is_empty() { ptr::null_mut() } else { slice.pointer() };
    (pointer, slice.len())
}

impl Session {
    /// Makes the call of this number under a seed, and holds it to the model: or what was wrong.
    pub fn call(&mut self, seed: u64, number: u64) -> Result<(), String> {
        // Each call has a seed of its own, so that it can be made again by itself.
        let mut random = Random::new(seed ^ number.wrapping_mul(0xD134_2543_DE82_EF95));
        let mut random = Random::new(random.any());
        let call = Call::any(&mut random);
        let words = match random.below(16) {
            0 => random.below(call.words().max(1)),
            1 => call.words() + random.below(8),
            _ => call.words(),
        };
        let expected = call.expected(words);
        let (state, state_after) = call.state(words);
        watch::begin(seed, number);
        self.lend(&call, words, &state, &mut random);
        let returned = self.made(&call, random.once_in(2));
        watch::end();
        let tallied = if returned < 65_536 || returned == u64::MAX { returned } else { 0 };
        let counts = matches!(
            call.function(),
            "orc_narrowest_code" | "orc_plan" | "orc_size_of_booleans" | "orc_size_of_bytes"
        );
        let tallied = if counts { 0 } else { tallied };
        *self.tally.entry((call.function(), tallied)).or_default() += 1;
        self.held(&call, returned, &expected, &state_after).map_err(|wrong| {
            format!("seed {seed}, call {number}: {wrong}\n  {call:?}, {words} words\n  expected {expected:?}")
        })
    }

    /// Makes the slices ready, each against the fence of a random side.
    fn lend(&mut self, call: &Call, words: usize, state: &[u64], random: &mut Random) {
        let mut side = || if random.once_in(4) { Side::Before } else { Side::Behind };
        let Lending { input, given, numbers, flags, fallback, columns, lent_columns, rows, bytes, report } =
            call.lending();
        self.input.holding(input, side());
        self.given.holding(given, side());
        self.numbers.holding(numbers, side());
        self.flags.holding(flags, side());
        self.fallback.holding(fallback, side());
        for ((fenced, held), places) in self.columns.iter_mut().zip(columns).zip(lent_columns) {
            match held {
                [] => fenced.places(places, side()),
                held => fenced.holding(held, side()),
            };
        }
        self.rows.places(rows, side());
        self.bytes.places(bytes, side());
        self.report.places(report, side());
        self.words.places(words, side());
        self.state.holding(state, side());
        if let Call::Part(asked) = call {
            self.bytes.holding(&asked.held, side());
        }
    }

    /// Makes the call with these slices: one arm a function. An empty slice is null if that is asked.
    fn made(&self, call: &Call, null: bool) -> u64 {
        let (i, il) = lent(&self.input, null);
        let (g, gl) = lent(&self.given, null);
        let (n, nl) = lent(&self.numbers, null);
        let (f, fl) = lent(&self.flags, null);
        let (o, ol) = lent(&self.fallback, null);
        let (r, rl) = lent(&self.rows, null);
        let (b, bl) = lent(&self.bytes, null);
        let (t, tl) = lent(&self.report, null);
        let (w, wl) = lent(&self.words, null);
        let (s, sl) = lent(&self.state, null);
        let [(x, xl), (y, yl), (z, zl), (u, ul), (v, vl)] =
            self.columns.each_ref().map(|column| lent(column, null));
        // SAFETY: the pointers are of mapped pages, of these lengths, and none is borrowed meanwhile.
        unsafe {
            match *call {
                Call::Label(ref asked) => {
                    exported::orc_label(g, gl, n, nl, f, fl, i, il, o, ol, asked.row, w, wl)
                }
                Call::Part(ref asked) if asked.part.is_some() => {
                    exported::orc_part_take(s, sl, b, bl, i, il, asked.flag, r, rl, w, wl)
                }
                Call::Part(ref asked) => exported::orc_part_close(s, sl, b, bl, asked.flag, r, rl, w, wl),
                Call::PartStart { .. } => exported::orc_part_start(s, sl),
                Call::Index(ref asked) => match asked.what {
                    index::What::Build(_) => exported::orc_build_index(i, il, x, xl, y, yl, z, zl, w, wl),
                    index::What::LookUp { row } => {
                        exported::orc_look_up(i, il, x, xl, y, yl, z, zl, row, w, wl)
                    }
                    index::What::ReadFrom { row, flag, .. } => {
                        exported::orc_read_from(i, il, x, xl, y, yl, z, zl, row, flag, r, rl, w, wl)
                    }
                },
                Call::Salvage(ref asked, _) => {
                    exported::orc_salvage(i, il, x, xl, y, yl, asked.fill, asked.flag, b, bl, t, tl, w, wl)
                }
                Call::Convert(ref asked) => exported::orc_convert(i, il, asked.flag, b, bl, w, wl),
                Call::Column(ref asked) => exported::orc_write_column(
                    g, gl, asked.flag, x, xl, y, yl, z, zl, u, ul, v, vl, b, bl, w, wl,
                ),
                Call::CheckColumn(ref asked, room) => exported::orc_check_column(
                    g, gl, asked.flag, x, xl, y, yl, z, zl, u, ul, v, vl, room, w, wl,
                ),
                Call::Batched(ref asked) => match *asked {
                    Asked::Rows { at, .. } => {
                        exported::orc_read_rows(i, il, at.run, at.skip, at.flag, r, rl, w, wl)
                    }
                    Asked::Flags { n, position: [run, bytes, bits], .. } => {
                        exported::orc_read_flags(i, il, run, bytes, bits, n, b, bl, w, wl)
                    }
                    Asked::Bytes { n, position: [run, bytes], .. } => {
                        exported::orc_read_bytes(i, il, run, bytes, n, b, bl, w, wl)
                    }
                    Asked::Spread(ref asked) => exported::orc_spread(f, fl, g, gl, asked.fill, r, rl, w, wl),
                    Asked::Labels(ref asked) => exported::orc_label_column(
                        f,
                        fl,
                        n,
                        nl,
                        g,
                        gl,
                        asked.block_length,
                        x,
                        xl,
                        y,
                        yl,
                        z,
                        zl,
                        w,
                        wl,
                    ),
                },
                Call::ByteRuns(ref asked) => match asked.what {
                    What::WriteBooleans => exported::orc_write_booleans(i, il, b, bl, w, wl),
                    What::WriteBytes => exported::orc_write_bytes(i, il, b, bl, w, wl),
                    What::SizeOfBooleans => exported::orc_size_of_booleans(i, il),
                    What::SizeOfBytes => exported::orc_size_of_bytes(i, il),
                },
                Call::Rescue(ref asked) => exported::orc_rescue(
                    i, il, x, xl, y, yl, z, zl, asked.fill, asked.flag, r, rl, b, bl, w, wl,
                ),
                Call::Plan { flag, .. } => exported::orc_plan(g, gl, flag, x, xl, y, yl, z, zl, u, ul, v, vl),
                Call::Run { flag, .. } => exported::orc_read_run(i, il, b, bl, flag),
                Call::RunAt { at, flag, .. } => exported::orc_read_run_at(i, il, at, flag, r, rl, w, wl),
                Call::Stream { at, flag, .. } => exported::orc_read_stream(i, il, at, flag, r, rl, w, wl),
                Call::Booleans { at, n, .. } => exported::orc_read_booleans(i, il, at, n, b, bl, w, wl),
                Call::Value { at, n, .. } => exported::orc_byte_value(i, il, at, n, w, wl),
                Call::Count { n, .. } => exported::orc_count_true(i, il, n, w, wl),
                Call::Write { flag, form, width, .. } => {
                    exported::orc_write_run(g, gl, flag, form, width, b, bl, w, wl)
                }
                Call::Patched { base, width, .. } => {
                    exported::orc_write_patched(g, gl, base, width, b, bl, w, wl)
                }
                Call::Narrowest { number } => exported::orc_narrowest_code(number),
            }
        }
    }

    /// Holds what a call left behind to what it must.
    fn held(&self, call: &Call, returned: u64, expected: &Outcome, state: &[u64]) -> Result<(), String> {
        let lending = call.lending();
        let kept = self.input.is(lending.input)
            && self.given.is(lending.given)
            && self.numbers.is(lending.numbers)
            && self.flags.is(lending.flags)
            && self.fallback.is(lending.fallback);
        // A column is what it was given with, or what the call has written into it.
        let mut columns = self.columns.iter().zip(lending.columns).zip(&expected.columns);
        let columns = columns.all(|((fenced, held), written)| match held {
            _ if matches!(call, Call::Plan { .. }) => fenced.is_alone(),
            [] => fenced.is(written),
            held => fenced.is(held),
        });
        let number = match call {
            // How many segments: no more than are lent; of rows one at least, if the direct runs have places.
            Call::Plan { rows, lent, .. } if !rows.is_empty() => {
                let fit = lent.iter().all(|places| returned <= *places as u64);
                let none = lent.iter().any(|places| *places < rows.len().div_ceil(512));
                fit && (none || 0 < returned)
            }
            _ => returned == expected.returned,
        };
        let right = [
            (number, "what it returned"),
            (self.words.is(&expected.words), "its words"),
            (self.rows.is(&expected.rows), "its rows"),
            (self.bytes.is(&expected.bytes), "its bytes"),
            (self.state.is(state), "its state"),
            (columns, "its columns"),
            (self.report.is(&expected.report), "its report"),
            (kept, "what it was given to read"),
        ];
        match right.iter().find(|(right, _)| !right) {
            None => Ok(()),
            Some((_, what)) => Err(format!(
                "{what} differs: returned {returned}, words {:?}, rows {:?}, bytes {:?}",
                self.words.content(),
                self.rows.content(),
                self.bytes.content()
            )),
        }
    }
}
