//! What is compared, stage by stage.
pub mod batches;
mod byte_runs;
pub mod column_lines;
pub mod columns;
pub mod convert;
pub mod count;
mod cuts;
mod in_batches;
pub mod index;
pub mod labels;
pub mod lined_up;
mod lines;
pub mod parts;
pub mod patched_runs;
mod patches;
pub mod plans;
pub mod rescue;
pub mod salvage;
mod varints;
mod written_streams;

pub use lines::probe_line;

use model::{Written, WIDTHS};
use oracle::Run;

use crate::frames::{self, Patched};
use crate::listed::{self, Call, Sort, LIST};
#[cfg(feature = "ours")]
use crate::ours::Ours;
use crate::probe::Probe;
use crate::tally::Tally;
use model::random::Random;

/// The longest byte value asked of the Rust, which reserves that many bytes.
const LONGEST_VALUE: usize = 4096;

/// How much is compared.
#[derive(Debug, Clone, Copy, PartialEq, Eq)]
pub enum Size {
    /// A second's worth, for the crate's own tests.
    Test,
    /// Under two minutes on one core.
    Quick,
    /// At least 50 million answers.
    Full,
}

impl Size {
    fn pick<T>(self, test: T, quick: T, full: T) -> T {
        match self {
            Size::Test => test,
            Size::Quick => quick,
            Size::Full => full,
        }
    }
}

/// One run of the program.
pub struct Session {
    pub tally: Tally,
    pub random: Random,
    pub size: Size,
    #[cfg(feature = "ours")]
    pub ours: Option<Ours>,
    pub probe: Option<Probe>,
}

const FLAGS: [bool; 2] = [false, true];

impl Session {
    pub fn all(&mut self) {
        self.listed_inputs();
        self.short_inputs();
        self.widths_and_lengths();
        self.cut_and_damaged();
        self.cuts();
        self.patch_lists();
        self.wide_patches();
        self.tenth_bytes();
        self.random_frames();
        self.streams();
        self.booleans();
        self.in_batches();
        self.byte_runs();
        #[cfg(feature = "ours")]
        self.rescued();
        self.values();
        self.written();
        self.patched_runs();
        self.written_streams();
        self.columns();
        self.plans();
        self.probe_lines();
    }

    /// One frame, as a run: the model against the Rust and against the linked library.
    fn run(&mut self, bytes: &[u8], signed: bool) {
        let paper = model::read_run(bytes, 0, signed, 512);
        let rust = oracle::read_run(bytes, signed);
        let sort = listed::of_run(bytes, &paper, &rust);
        self.tally.record(sort, bytes, Call::Run { signed }, || [format!("{paper:?}"), format!("{rust:?}")]);
        #[cfg(feature = "ours")]
        if let Some(ours) = &mut self.ours {
            match ours.check(bytes, signed, &paper) {
                Ok(answers) => self.tally.ours(answers),
                Err(answer) => {
                    self.tally.differs(bytes, Call::Run { signed }, &format!("{paper:?}"), "ours", &answer);
                }
            }
        }
    }

    fn run_both(&mut self, bytes: &[u8]) {
        for signed in FLAGS {
            self.run(bytes, signed);
        }
    }

    /// The smallest inputs of the listed differences.
    fn listed_inputs(&mut self) {
        self.tally.stage("the listed inputs");
        for entry in &LIST {
            let bytes = entry.bytes();
            match entry.call {
                Call::Run { signed } | Call::ReadBack { signed } => self.run(&bytes, signed),
                Call::Stream { signed } => self.stream(&bytes, signed),
                Call::Booleans { n } => self.booleans_of(&bytes, n),
                Call::Value { n } => self.value_of(&bytes, n),
            }
        }
    }

    /// Every input of 0 to 3 bytes (2 in a test).
    fn short_inputs(&mut self) {
        self.tally.stage("every input of 0 to 3 bytes");
        self.run_both(&[]);
        for length in 1..=self.size.pick(2, 3, 3) {
            for number in 0..1u32 << (8 * length) {
                self.run_both(&number.to_be_bytes()[4 - length..]);
            }
        }
    }

    /// Every width code at every run length, direct, patched and delta.
    fn widths_and_lengths(&mut self) {
        self.tally.stage("every width at every run length");
        for rows in (1..=512).step_by(self.size.pick(37, 1, 1)) {
            for code in 0..32 {
                for kind in 1..4 {
                    let frame = frames::readable(kind, code, rows, &mut self.random);
                    self.run_both(&frame);
                }
            }
        }
    }

    /// Layouts of every kind, cut at every byte, and with every byte replaced by every other.
    fn cut_and_damaged(&mut self) {
        self.tally.stage("layouts cut and damaged at every byte");
        for _ in 0..self.size.pick(1, 1, 8) {
            for sample in frames::samples(&mut self.random) {
                for cut in 0..=sample.len() {
                    self.run_both(&sample[..cut]);
                }
                for at in 0..sample.len() {
                    let mut damaged = sample.clone();
                    for by in (1..=255u8).step_by(self.size.pick(43, 1, 1)) {
                        damaged[at] = sample[at] ^ by;
                        self.run_both(&damaged);
                    }
                }
            }
        }
    }

    /// All lists of up to three entries from small sets of gaps and patches, at every gap width.
    fn patch_lists(&mut self) {
        self.tally.stage("patch lists of up to three entries");
        // The patch width's code, and the rows. At 32 bits of patch every entry is padded to 40, so that
        // a gap of 255 fits at every gap width.
        let shapes: &[(usize, usize)] = self.size.pick(
            &[(1, 4), (27, 300)],
            &[(1, 4), (27, 300)],
            &[(1, 1), (1, 4), (22, 300), (27, 300)],
        );
        for gap_width in 1..=8 {
            for (patch_code, rows) in shapes {
                let patch_width = WIDTHS[*patch_code];
                let entry_width = frames::table_width(patch_width + gap_width);
                let high = (1u64 << (entry_width - patch_width)) - 1;
                let gaps: Vec<u64> = [0, 1, 2, 3, 255, high].into_iter().filter(|gap| *gap <= high).collect();
                let patches = [0, 1, (1u64 << patch_width) - 1];
                let entries: Vec<(u64, u64)> =
                    gaps.iter().flat_map(|gap| patches.map(|patch| (*gap, patch))).collect();
                let fields = Patched {
                    code: 3,
                    rows: *rows,
                    base: 1 + gap_width % 8,
                    patch_code: *patch_code,
                    gap_width,
                };
                self.lists(fields, &entries);
            }
        }
    }

    fn lists(&mut self, fields: Patched, entries: &[(u64, u64)]) {
        let step = self.size.pick(3, 1, 1);
        let mut lists = vec![vec![]];
        for _ in 0..3 {
            let longer = |list: &Vec<(u64, u64)>| {
                let list = list.clone();
                entries.iter().map(move |entry| [list.clone(), vec![*entry]].concat()).collect::<Vec<_>>()
            };
            for list in lists.iter().step_by(step) {
                let frame = frames::patched(fields, list, &mut self.random);
                self.run_both(&frame);
            }
            lists = lists.iter().flat_map(longer).collect();
        }
        for list in lists.iter().step_by(step * step) {
            let frame = frames::patched(fields, list, &mut self.random);
            self.run_both(&frame);
        }
    }

    fn random_frames(&mut self) {
        self.tally.stage("random frames");
        for _ in 0..self.size.pick(20_000, 3_000_000, 20_000_000) {
            let frame = frames::any_frame(&mut self.random);
            let signed = self.random.once_in(2);
            self.run(&frame, signed);
        }
    }

    fn streams(&mut self) {
        self.tally.stage("streams");
        for _ in 0..self.size.pick(5_000, 200_000, 2_000_000) {
            let stream = frames::any_stream(&mut self.random);
            let signed = self.random.once_in(2);
            self.stream(&stream, signed);
        }
    }

    /// One stream: the Rust's iterator against the model, run by run.
    fn stream(&mut self, bytes: &[u8], signed: bool) {
        let rust = oracle::read_stream(bytes, signed, 100_000);
        let sort = listed::of_stream(bytes, signed, &rust);
        self.tally.record(sort, bytes, Call::Stream { signed }, || {
            [format!("{:?}", model::read_stream(bytes, 0, signed, 100_000)), format!("{rust:?}")]
        });
        #[cfg(feature = "ours")]
        if self.ours.is_some() {
            let paper = model::read_stream(bytes, 0, signed, usize::MAX);
            match Ours::check_column(bytes, signed, &paper) {
                Ok(answers) => self.tally.ours(answers),
                Err(answer) => {
                    self.tally.differs(
                        bytes,
                        Call::Stream { signed },
                        &format!("{paper:?}"),
                        "ours",
                        &answer,
                    );
                }
            }
        }
    }

    fn booleans(&mut self) {
        self.tally.stage("booleans");
        let short = (0..1u32 << 16).map(|number| number.to_be_bytes()[2..].to_vec());
        let short: Vec<Vec<u8>> =
            [vec![]].into_iter().chain((0..=255).map(|byte| vec![byte])).chain(short).collect();
        for bytes in short.iter().step_by(self.size.pick(97, 1, 1)) {
            for n in [0, 1, 8, 9, 24, 25, 33] {
                self.booleans_of(bytes, n);
            }
        }
        for _ in 0..self.size.pick(5_000, 300_000, 3_000_000) {
            let bytes = frames::any_booleans(&mut self.random);
            let n = match self.random.below(8) {
                0 => self.random.below(2200),
                _ => self.random.below(8 * bytes.len() + 40),
            };
            self.booleans_of(&bytes, n);
        }
    }

    fn booleans_of(&mut self, bytes: &[u8], n: usize) {
        let paper = model::read_booleans(bytes, 0, n, usize::MAX);
        let rust = oracle::read_booleans(bytes, n);
        let sort = listed::of_booleans(bytes, n, &paper, &rust);
        self.tally.record(sort, bytes, Call::Booleans { n }, || [format!("{paper:?}"), format!("{rust:?}")]);
    }

    fn values(&mut self) {
        self.tally.stage("byte values");
        for _ in 0..self.size.pick(5_000, 200_000, 2_000_000) {
            let length = self.random.below(40);
            let bytes: Vec<u8> = (0..length).map(|_| self.random.byte()).collect();
            let n = if self.random.once_in(16) {
                self.random.below(LONGEST_VALUE)
            } else {
                self.random.below(44)
            };
            self.value_of(&bytes, n);
        }
    }

    fn value_of(&mut self, bytes: &[u8], n: usize) {
        let paper = model::read_value(bytes, 0, n);
        let rust = oracle::read_value(bytes, n);
        let sort = listed::of_value(bytes, &paper, &rust);
        self.tally.record(sort, bytes, Call::Value { n }, || [format!("{paper:?}"), format!("{rust:?}")]);
    }

    /// Runs that the model writes, read back by the Rust: the same rows, all the bytes.
    fn written(&mut self) {
        self.tally.stage("written runs read back");
        for _ in 0..self.size.pick(5_000, 200_000, 2_000_000) {
            let (rows, form, width) = frames::any_rows(&mut self.random);
            let signed = self.random.once_in(2);
            let Written::Run { bytes, .. } = model::write_run(&rows, signed, form, width, usize::MAX) else {
                continue;
            };
            let rust = oracle::read_run(&bytes, signed);
            let same = matches!(&rust, Run::Rows { rows: read, consumed } if *read == rows && *consumed == bytes.len());
            let sort = same.then_some(Sort::Same);
            self.tally.record(sort, &bytes, Call::ReadBack { signed }, || {
                [format!("{rows:?}"), format!("{rust:?}")]
            });
        }
    }
}
