//! The header compiled, and programs in C and C++ linked and run.
use std::fs;
use std::path::PathBuf;

use crate::compiler::{folder, here, C11, C99, CPP17, LANGUAGES};
use crate::declared::c::HEADER;

/// An example in C, by its file.
fn example(name: &str) -> PathBuf {
    here().join("examples").join(name)
}

/// A program of these tests.
fn source(name: &str) -> PathBuf {
    here().join("tests/header/c").join(name)
}

/// What an example in C writes, compiled as C99 and as C11.
fn writes(name: &str, expected: &str) {
    for language in [C99, C11] {
        assert_eq!(language.writes(&example(name)), expected, "{name}");
    }
}

#[test]
fn compiles_without_a_warning() {
    for language in LANGUAGES {
        language.accepts(here()).unwrap_or_else(|said| panic!("{language:?}:\n{said}"));
    }
}

/// A header with a warning is refused in every language.
#[test]
fn a_warning_is_refused() {
    let altered = folder();
    let narrow = "static inline int orc_narrow(uint64_t x)\n{\n    return x;\n}\n";
    fs::write(altered.join("menakovitsy.h"), format!("{HEADER}\n{narrow}")).unwrap();
    for language in LANGUAGES {
        let said = language.accepts(&altered).unwrap_err();
        assert!(said.contains("conversion"), "{said}");
    }
}

#[test]
fn the_example_in_c() {
    writes(
        "flags.c",
        "flag 23 is 1, flag 24 is 0\n\
         8 rows from 7 bytes: 300 300 300 300 300 1 2 3\n\
         the last run is direct: 3 rows of 4 bits in 4 bytes\n\
         cut: the run at byte 3 lacks its packed rows, from byte 5 on; 5 rows are read\n\
         damaged: refusal 4 at byte 0: delta: packed magnitudes announced for a single row (no run begins like \
         this: the bytes are damaged, or the offset is not a run's first byte)\n\
         a stream's answer has 14 words\n",
    );
}

/// Ten flags and then ten, all true; rows in batches; rows that are missing; the names of all rows.
#[test]
fn batches_in_c() {
    writes(
        "batches.c",
        "flags: 1111111111, next at byte 0, byte 1, bit 2\n\
         flags: 1111111111, next at byte 0, byte 2, bit 4\n\
         24 of 32 flags are true\n\
         3 rows: 300 300 300, next at byte 0, 3 to skip\n\
         3 rows: 300 300 1, next at byte 3, 1 to skip\n\
         2 rows: 2 3, next at byte 7, 0 to skip\n\
         the column has ended\n\
         with the missing ones: 300 -1 300 300\n\
         refusal 21: flags and rows are not lined up\n\
         names: vocals, none, drums\n",
    );
}

/// Flags written and read back, the bytes that they take, and what is refused.
#[test]
fn flags_written_in_c() {
    writes(
        "write_flags.c",
        "32 flags in 4 of 5 bytes: 00 ff ff 00\n\
         flag 23 is 1, flag 24 is 0\n\
         refused: the flags want 4 bytes\n\
         132 levels in 4 bytes: 7e 05 00 05\n",
    );
}

/// Rows rescued by positions: of a whole column, of a damaged one, and of one that ends too early.
#[test]
fn rescue_in_c() {
    writes(
        "rescue.c",
        "whole: 3 of 3 groups kept: kept 300 300 300 kept 300 300 1 2 kept 3 10 12 14 16 18\n\
         the last run damaged: 2 of 3 groups kept: kept 300 300 300 kept 300 300 1 2 replaced -1 -1 -1 -1 -1 -1\n\
         cut before the last group begins: refusal 17\n",
    );
}

/// A program in C++: the same library, by the same header. The patched run: four bytes of header, one of the base,
/// 20 of values, and an entry of 21 bits (a gap of 17 has 5, and the patch, 1,000,000 / 16, has 16).
#[test]
fn linked_from_cpp() {
    assert_eq!(
        CPP17.writes(&source("linked.cpp")),
        "rows: 300 300 300 300 300 1 2 3\n\
         kept 0 5\n\
         replaced 1 3\n\
         after the salvage: 300 300 300 300 300 -1 -1 -1\n\
         40 rows in 1 patched run of 28 bytes\n"
    );
}

/// Without `extern "C"` C++ looks for other names than the library has.
#[test]
fn a_header_without_extern_c_does_not_link() {
    let header = HEADER.replace("extern \"C\" {", "").replace("#ifdef __cplusplus\n}\n#endif\n", "");
    let altered = folder();
    fs::write(altered.join("menakovitsy.h"), &header).unwrap();
    // as C it is the same header
    C99.program(&altered, &example("flags.c")).unwrap();
    let said = CPP17.program(&altered, &source("linked.cpp")).unwrap_err();
    assert!(said.contains("orc_salvage("), "the linker names what it lacks:\n{said}");
}

/// A wrong index is named wrong in plain sight: the names that meant another thing in each function are gone.
#[test]
fn no_word_without_its_family() {
    let source = folder().join("old.c");
    for name in
        ["ORC_WORDS", "ORC_CASE", "ORC_NUMBER", "ORC_PLACE", "ORC_ROWS", "ORC_BYTES", "ORC_CUT", "ORC_KIND"]
    {
        fs::write(
            &source,
            format!("#include \"menakovitsy.h\"\nint main(void)\n{{\n    return {name};\n}}\n"),
        )
        .unwrap();
        let said = C99.program(here(), &source).expect_err(name);
        assert!(said.contains(name), "{said}");
    }
}
