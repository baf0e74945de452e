//! Inputs: laid out field by field, random ones, and what is made of them by cutting and damaging.
use model::{Answer, Form, KEPT, WIDTHS};

use model::random::Random;

/// Bits packed from the highest of each byte on. The model has one too, which keeps its bits one by one: too slow for the many inputs here.
#[derive(Default)]
pub struct Packer {
    bytes: Vec<u8>,
    /// How many bits of the last byte are free.
    free: usize,
}

impl Packer {
    pub fn put(&mut self, number: u64, bits: usize) {
        for k in (0..bits).rev() {
            if self.free == 0 {
                self.bytes.push(0);
                self.free = 8;
            }
            self.free -= 1;
            *self.bytes.last_mut().expect("a byte was pushed") |= ((number >> k & 1) as u8) << self.free;
        }
    }

    /// Fills the last byte with any bits: padding is ignored.
    pub fn pad(&mut self, random: &mut Random) {
        let padding = random.any();
        self.put(padding, self.free);
    }

    pub fn bytes(&mut self, count: usize, random: &mut Random) {
        self.bytes.extend((0..count).map(|_| random.byte()));
    }

    pub fn done(self) -> Vec<u8> {
        self.bytes
    }
}

fn header(kind: u64, code: usize, rows: usize) -> Packer {
    let mut packer = Packer::default();
    packer.put(kind, 2);
    packer.put(code as u64, 5);
    packer.put(rows as u64 - 1, 9);
    packer
}

fn block_bytes(fields: usize, width: usize) -> usize {
    (fields * width).div_ceil(8)
}

pub fn short_repeat(size: usize, count: usize, random: &mut Random) -> Vec<u8> {
    let mut packer = Packer::default();
    packer.put(size as u64 - 1, 5);
    packer.put(count as u64 - 3, 3);
    packer.bytes(size, random);
    packer.done()
}

pub fn direct(code: usize, rows: usize, random: &mut Random) -> Vec<u8> {
    let mut packer = header(1, code, rows);
    packer.bytes(block_bytes(rows, WIDTHS[code]), random);
    packer.done()
}

/// A varint of that many bytes, the shortest or not. A tenth byte is mostly one that is allowed.
fn varint(bytes: usize, packer: &mut Packer, random: &mut Random) {
    for _ in 1..bytes {
        packer.put(u64::from(random.byte() | 128), 8);
    }
    let last = if bytes == 10 && !random.once_in(4) { 1 } else { 127 };
    packer.put(u64::from(random.byte() & last), 8);
}

pub fn delta(code: usize, rows: usize, random: &mut Random) -> Vec<u8> {
    let lengths = [1, 1, 1, 2, 2, 3, 5, 9, 10, 10, 11];
    let mut packer = header(3, code, rows);
    varint(random.pick(&lengths), &mut packer, random);
    varint(random.pick(&lengths), &mut packer, random);
    if code != 0 {
        packer.bytes(block_bytes(rows.saturating_sub(2), WIDTHS[code]), random);
    }
    packer.done()
}

/// The header fields of a patched run.
#[derive(Clone, Copy)]
pub struct Patched {
    pub code: usize,
    pub rows: usize,
    pub base: usize,
    pub patch_code: usize,
    pub gap_width: usize,
}

/// The least table width that holds that many bits; 64 if none does.
pub fn table_width(bits: usize) -> usize {
    WIDTHS.into_iter().find(|width| *width >= bits).unwrap_or(64)
}

/// The largest patch that fits above a value of that many bits: 2^(64-W) - 1.
pub fn largest_patch(width: usize) -> u64 {
    ((1u128 << (64 - width)) - 1) as u64
}

pub fn patched(fields: Patched, list: &[(u64, u64)], random: &mut Random) -> Vec<u8> {
    let Patched { code, rows, base, patch_code, gap_width } = fields;
    let patch_width = WIDTHS[patch_code];
    let entry_width = table_width(patch_width + gap_width);
    let mut packer = header(2, code, rows);
    packer.put(base as u64 - 1, 3);
    packer.put(patch_code as u64, 5);
    packer.put(gap_width as u64 - 1, 3);
    packer.put(list.len() as u64, 5);
    packer.bytes(base, random);
    packer.bytes(block_bytes(rows, WIDTHS[code]), random);
    for (gap, patch) in list {
        let entry = gap.checked_shl(patch_width as u32).unwrap_or(0) | patch;
        packer.put(entry, entry_width);
    }
    packer.pad(random);
    packer.done()
}

fn any_patched(code: usize, rows: usize, random: &mut Random) -> Vec<u8> {
    // Mostly widths that are allowed together, and mostly patches that fit above the value.
    let gap_width = random.from(1, 8);
    let allowed: Vec<usize> = (0..32).filter(|code| WIDTHS[*code] + gap_width <= 64).collect();
    let patch_code = if random.once_in(16) { random.below(32) } else { random.pick(&allowed) };
    let fits = if random.once_in(8) { u64::MAX } else { largest_patch(WIDTHS[code]) };
    let patch_width = WIDTHS[patch_code];
    let high = 1 << (table_width(patch_width + gap_width).saturating_sub(patch_width)).min(12);
    let entries = random.pick(&[0, 1, 1, 1, 2, 2, 3, 4, 31]);
    let list: Vec<(u64, u64)> = (0..entries)
        .map(|_| {
            let gap = match random.below(8) {
                0 => 255,
                1 => random.any() % high,
                _ => random.any() % (1 + (rows / 2) as u64).min(high),
            };
            let patch = if random.once_in(4) { 0 } else { random.any() & (u64::MAX >> (64 - patch_width)) };
            (gap % high, patch & fits)
        })
        .collect();
    patched(Patched { code, rows, base: random.from(1, 8), patch_code, gap_width }, &list, random)
}

/// A run of a kind (0 to 3) at a width code with that many rows, its content random.
pub fn of_kind(kind: usize, code: usize, rows: usize, random: &mut Random) -> Vec<u8> {
    match kind {
        0 => short_repeat(1 + code % 8, 3 + rows % 8, random),
        1 => direct(code, rows, random),
        2 => any_patched(code, rows, random),
        _ => delta(code, rows, random),
    }
}

/// The same, and one that the rules read, where the kind, code and rows allow any.
pub fn readable(kind: usize, code: usize, rows: usize, random: &mut Random) -> Vec<u8> {
    let reads = |run: &Vec<u8>| matches!(model::read_run(run, 0, false, 512), Answer::Run(_));
    let mut run = of_kind(kind, code, rows, random);
    for _ in 0..20 {
        if reads(&run) {
            break;
        }
        run = of_kind(kind, code, rows, random);
    }
    run
}

/// Any run: mostly short.
pub fn any_run(random: &mut Random) -> Vec<u8> {
    let rows = match random.below(64) {
        0 => random.from(1, 512),
        1..=3 => random.from(1, 64),
        _ => random.from(1, 12),
    };
    let kind = random.below(4);
    let code = if kind == 3 && random.once_in(3) { 0 } else { random.below(32) };
    of_kind(kind, code, rows, random)
}

/// Any frame: a run as it is, cut, damaged or with bytes after it; or bytes of no plan.
pub fn any_frame(random: &mut Random) -> Vec<u8> {
    if random.once_in(16) {
        let length = random.below(24);
        return (0..length).map(|_| random.byte()).collect();
    }
    let mut frame = any_run(random);
    match random.below(8) {
        0 => frame.truncate(random.below(frame.len() + 1)),
        1 => {
            let at = random.below(frame.len());
            frame[at] = random.byte();
        }
        2 => {
            let at = random.below(frame.len().min(6));
            frame[at] ^= 1 << random.below(8);
        }
        3 => frame.extend((0..random.from(1, 12)).map(|_| random.any() as u8)),
        4 if random.once_in(64) => frame.extend([0x81; 600]),
        _ => {}
    }
    frame
}

/// Layouts of every kind and shape, to be cut and damaged.
pub fn samples(random: &mut Random) -> Vec<Vec<u8>> {
    let mut samples = Vec::new();
    for size in 1..=8 {
        samples.push(short_repeat(size, 3 + size % 8, random));
    }
    for code in 0..32 {
        let rows = 1 + code % 5;
        samples.push(direct(code, rows, random));
        samples.push(delta(code, rows + 1, random));
        samples.push(any_patched(code, rows + 2, random));
    }
    for entries in 0..4u64 {
        let fields = Patched { code: 3, rows: 9, base: 2, patch_code: 3, gap_width: 2 };
        let list: Vec<(u64, u64)> = (0..entries).map(|k| (1 + k % 2, 5 + k)).collect();
        samples.push(patched(fields, &list, random));
    }
    let fields = Patched { code: 0, rows: 300, base: 1, patch_code: 1, gap_width: 8 };
    samples.push(patched(fields, &[(255, 0), (10, 3)], random));
    samples
}

/// The bytes of boolean runs: repeats and literals, the last one cut now and then.
pub fn any_booleans(random: &mut Random) -> Vec<u8> {
    let mut bytes = Vec::new();
    for _ in 0..random.below(5) {
        match random.below(16) {
            0 => bytes.extend([random.byte() & 127, random.byte()]),
            1 => {
                let control = random.from(128, 255);
                bytes.push(control as u8);
                bytes.extend((control..256).map(|_| random.byte()));
            }
            2..=8 => bytes.extend([random.below(4) as u8, random.byte()]),
            _ => {
                let literals = random.from(1, 4);
                bytes.push((256 - literals) as u8);
                bytes.extend((0..literals).map(|_| random.byte()));
            }
        }
    }
    if random.once_in(4) {
        bytes.truncate(random.below(bytes.len() + 1));
    }
    bytes
}

/// A position: mostly the start, sometimes further on, or past the end.
pub fn any_position(length: usize, random: &mut Random) -> u64 {
    match random.below(16) {
        0 => random.any(),
        1..=3 => random.below(length + 2) as u64,
        _ => 0,
    }
}

/// A few runs one after another, and now and then a frame of any sort as the last.
pub fn any_stream(random: &mut Random) -> Vec<u8> {
    let mut stream = Vec::new();
    for _ in 0..random.below(5) {
        let run = any_run(random);
        // Mostly runs that both read, so that the streams go on.
        let read = matches!(model::read_run(&run, 0, false, 512), Answer::Run(_));
        if read || random.once_in(8) {
            stream.extend(run);
        }
    }
    if random.once_in(3) {
        stream.extend(any_frame(random));
    }
    stream
}

/// Rows that mostly have the form, at a width that mostly holds them.
pub fn any_rows(random: &mut Random) -> (Vec<i64>, Form, u8) {
    let form = random.pick(&[Form::ShortRepeat, Form::Direct, Form::FixedDelta, Form::PackedDelta]);
    let count = match random.below(32) {
        0 => random.below(515),
        1 => random.pick(&[0, 1, 2, 3, 10, 11, 512, 513]),
        _ => random.from(1, 12),
    };
    let shift = random.below(64);
    let first = random.any() as i64 >> shift;
    let step = random.any() as i64 >> random.from(shift.min(62), 63);
    let mut rows: Vec<i64> = match form {
        Form::ShortRepeat => vec![first; count],
        Form::Direct => (0..count).map(|_| random.any() as i64 >> shift & i64::MAX >> shift).collect(),
        Form::FixedDelta => (0..count as i64).map(|k| first.wrapping_add(step.wrapping_mul(k))).collect(),
        Form::PackedDelta => {
            let mut row = first;
            let mut next = || {
                let magnitude = (random.any() >> 1 >> shift) as i64;
                let before = row;
                row = if step < 0 { row.wrapping_sub(magnitude) } else { row.wrapping_add(magnitude) };
                before
            };
            (0..count).map(|_| next()).collect()
        }
    };
    if random.once_in(16) {
        if let Some(row) = rows.last_mut() {
            *row = random.any() as i64;
        }
    }
    let width = match form {
        _ if random.once_in(16) => random.below(40) as u8,
        Form::ShortRepeat => random.from(1, 8) as u8,
        Form::FixedDelta => 0,
        Form::Direct | Form::PackedDelta => {
            let kept = random.pick(&KEPT);
            WIDTHS.iter().position(|width| *width == kept).expect("a width of the table") as u8
        }
    };
    (rows, form, width)
}
