//! What the example of a chunk table writes.
#[path = "../examples/chunk_table.rs"]
mod chunk_table;

/// Window 24 begins 24 times 22,050 samples on, and 150 late: 529,350. The offsets: a fixed delta of windows 0
/// to 19 in six bytes (two of header, one of the first row, three of the step), and one of windows 20 to 31 in
/// eight, whose first row, 441,150, has three and whose step begins at byte 11. The flag byte that is lost is
/// the one after the control byte at byte 2. The numbers: four short repeats; the lengths: 4 of 4 bits. Window
/// 28 begins 28 times 22,050 samples on, and 150 late; window 19 begins in time.
const EXPECTED: &str = "\
written: offsets 14 bytes, flags 4, named 4, numbers 8, lengths 4, names 20
window 23 (vocals) is already normalised, and begins at sample 507300
window 24 (other) is not normalised yet, and begins at sample 529350
window 28 (unnamed) is not normalised yet, and begins at sample 617550
damaged: column offsets: at byte 0: refusal 4: delta: packed magnitudes announced for a \
single row (no run begins like this: the bytes are damaged, or the offset is not a run's first byte)
damaged: column names: refusal 18: dictionary: a length is below 0, or the lengths do not add up to \
the block (give the lengths and the block of one dictionary, both whole; if they are, the file is damaged)
cut: window 23 (vocals) is already normalised, and begins at sample 507300
cut: column flags: at byte 0: refusal 13: the block of packed rows or of bytes that begins at byte 3 is cut \
(call again with more bytes; if there are none, the stream is cut or the offset is wrong)
cut: window 19 (vocals) is already normalised, and begins at sample 418950
cut: column offsets: at byte 6: refusal 12: the varint that begins at byte 11 is cut (call again with more bytes; \
if there are none, the stream is cut or the offset is wrong)
";

/// The page for users shows what the examples write, the chunk table's first lines.
const PAGE: &str = include_str!("../../../docs/USING.md");

fn on_the_page(output: &str, lines: usize) {
    let shown: String = output.split_inclusive('\n').take(lines).collect();
    assert!(PAGE.contains(&format!("```\n{shown}```\n")), "docs/USING.md does not show\n{shown}");
}

#[test]
fn chunk_table() {
    assert_eq!(chunk_table::report(), EXPECTED);
    on_the_page(EXPECTED, 5);
}

#[path = "../examples/preview.rs"]
mod preview;

/// Four runs of 500 chunks: two bytes of header each, 22,050 as a step in three, and the first rows 0,
/// 11,025,000, 22,050,000 and 33,075,000 in one, four, four and four. Chunk 1,234 begins 1,234 times
/// 22,050 samples on.
const PREVIEW: &str = "\
33 bytes, 4 runs, 2000 chunks
chunk 1234 is in the run at byte 15, whose first is chunk 1000
the preview begins at sample 27209700: 766 chunks are left
chunk 2000: refusal 16: there is no such row (ask for a row below the number of rows (of labels: of \
flags))
";

#[test]
fn start_at_a_chunk() {
    assert_eq!(preview::report().as_deref(), Ok(PREVIEW));
    on_the_page(PREVIEW, 4);
}
