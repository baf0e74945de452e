//! The header and the wrapper declare the functions that the Rattle sources export: each of them and no other,
//! with the same parameters in the same order, by type, constness and name. Nothing else would show a wrong
//! declaration: neither compiler nor linker compares it with the library.
use crate::declared::c::{Header, HEADER};
use crate::declared::{faults, rattle, rust, Function};

/// What is wrong with a header.
fn faults_of(header: &str) -> Vec<String> {
    let Header { functions, without_linkage, .. } = Header::of(header);
    let mut faults = faults(&rattle::exported(), &[&functions[..], &without_linkage].concat());
    let names = without_linkage.iter().map(|function| &function.name);
    faults.extend(names.map(|name| format!("{name} is not extern \"C\" for C++")));
    faults
}

/// A text in which the declaration that begins with `declaration` has one text instead of another. It has that
/// once, and the text has one such declaration.
fn altered(text: &str, declaration: &str, from: &str, to: &str) -> String {
    let (before, rest) = text.split_once(declaration).expect(declaration);
    assert!(!rest.contains(declaration), "{declaration:?} is there once");
    let (own, after) = rest.split_once(';').expect("a declaration ends");
    let own = format!("{declaration}{own};");
    assert_eq!(own.matches(from).count(), 1, "{from:?} is there once: {own}");
    format!("{before}{}{after}", own.replace(from, to))
}

/// The header with one text instead of another in a function's declaration.
fn header_with(function: &str, from: &str, to: &str) -> String {
    altered(HEADER, &format!("\nuint64_t {function}("), from, to)
}

const NONE: [String; 0] = [];

#[test]
fn the_header_declares_the_library() {
    assert_eq!(faults_of(HEADER), NONE);
}

#[test]
fn the_wrapper_declares_the_library() {
    assert_eq!(faults(&rattle::exported(), &rust::declared(&rust::sources())), NONE);
}

/// How each kind of parameter passes, on a function that is made up.
#[test]
fn rattle_as_c_sees_it() {
    let source = "// #[unsafe(no_mangle)]\n#[unsafe(no_mangle)]\npub extern \"C\" fn orc_all(a: &[u8], b: &mut [i64], c: u64,\n    \
                  d: i64,\n) -> u64\n    ensures { x }\n{\n    inner(a)\n}\n\npub extern \"C\" fn inner(a: u64) -> u64";
    let header =
        "uint64_t orc_all(const uint8_t *a, size_t a_len, int64_t *b, size_t b_len, uint64_t c, int64_t d);";
    let from_c = Header::of(header).without_linkage;
    assert_eq!(rattle::exported_by(source), from_c);
    let source =
        "extern \"C\" {\n    pub fn orc_all(a: *const u8, a_len: usize, b: *mut i64, b_len: usize, c: u64, \
                  d: i64) -> u64;\n}";
    assert_eq!(rust::declared(source), from_c);
}

#[test]
fn two_parameters_exchanged_are_refused() {
    let header = header_with("orc_salvage", "int64_t fill, uint64_t flag,", "uint64_t flag, int64_t fill,");
    assert_eq!(
        faults_of(&header),
        [
            "orc_salvage: parameter 7 is `uint64_t flag` instead of `int64_t fill`",
            "orc_salvage: parameter 8 is `int64_t fill` instead of `uint64_t flag`",
        ]
    );
    // two slices of one type: only their names tell them apart
    let header = header_with(
        "orc_salvage",
        "const uint64_t *starts, size_t starts_len,\n                     const uint64_t *counts, size_t counts_len,",
        "const uint64_t *counts, size_t counts_len,\n                     const uint64_t *starts, size_t starts_len,",
    );
    assert_eq!(
        faults_of(&header),
        [
            "orc_salvage: parameter 3 is `const uint64_t *counts` instead of `const uint64_t *starts`",
            "orc_salvage: parameter 4 is `size_t counts_len` instead of `size_t starts_len`",
            "orc_salvage: parameter 5 is `const uint64_t *starts` instead of `const uint64_t *counts`",
            "orc_salvage: parameter 6 is `size_t starts_len` instead of `size_t counts_len`",
        ]
    );
}

#[test]
fn a_header_without_extern_c_is_refused() {
    let header = HEADER.replace("#ifdef __cplusplus\nextern \"C\" {\n#endif\n", "");
    let header = header.replace("#ifdef __cplusplus\n}\n#endif\n", "");
    assert!(!header.contains("extern \"C\""));
    let names = rattle::exported().len();
    let faults = faults_of(&header);
    assert_eq!(faults.len(), names);
    assert!(faults.contains(&"orc_salvage is not extern \"C\" for C++".into()), "{faults:?}");
}

#[test]
fn a_wrong_type_is_refused() {
    for (function, from, to, fault) in [
        (
            "orc_part_take",
            "const uint8_t *part",
            "uint8_t *part",
            "parameter 5 is `uint8_t *part` instead of `const uint8_t *part`",
        ),
        (
            "orc_part_start",
            "uint64_t *state",
            "const uint64_t *state",
            "parameter 1 is `const uint64_t *state` instead of `uint64_t *state`",
        ),
        (
            "orc_narrowest_code",
            "uint64_t x",
            "uint8_t x",
            "parameter 1 is `uint8_t x` instead of `uint64_t x`",
        ),
        (
            "orc_read_from",
            "uint64_t row,",
            "size_t row,",
            "parameter 9 is `size_t row` instead of `uint64_t row`",
        ),
        (
            "orc_spread",
            "int64_t fill",
            "int64_t filled",
            "parameter 5 is `int64_t filled` instead of `int64_t fill`",
        ),
    ] {
        assert_eq!(faults_of(&header_with(function, from, to)), [format!("{function}: {fault}")]);
    }
    let returned = header_with("orc_version", "uint64_t", "uint8_t");
    assert_eq!(faults_of(&returned), ["orc_version returns `uint8_t` instead of `uint64_t`"]);
    let fewer = header_with("orc_count_true", "size_t packed_len, ", "");
    assert_eq!(faults_of(&fewer), ["orc_count_true has 4 parameters instead of 5"]);
}

#[test]
fn a_function_too_few_or_too_many_is_refused() {
    let declaration = "uint64_t orc_narrowest_code(uint64_t x);";
    let with = |other: &str| faults_of(&header_with("orc_narrowest_code", declaration, other));
    assert_eq!(with(""), ["orc_narrowest_code is not declared"]);
    assert_eq!(with(&declaration.repeat(2)), ["orc_narrowest_code is declared 2 times"]);
    let surplus = format!("{declaration} uint64_t orc_widest_code(uint64_t x);");
    assert_eq!(with(&surplus), ["orc_widest_code is not a function of the library"]);
}

/// The wrapper's declarations are held to the same.
#[test]
fn a_wrong_declaration_in_rust_is_refused() {
    let faults_with = |function: &str, from: &str, to: &str| {
        let sources = altered(&rust::sources(), &format!("pub fn {function}("), from, to);
        faults(&rattle::exported(), &rust::declared(&sources))
    };
    assert_eq!(
        faults_with("orc_part_take", "part: *const u8", "part: *mut u8"),
        ["orc_part_take: parameter 5 is `uint8_t *part` instead of `const uint8_t *part`"]
    );
    assert_eq!(
        faults_with("orc_salvage", "fill: i64,\n        flag: u64,", "flag: u64,\n        fill: i64,"),
        [
            "orc_salvage: parameter 7 is `uint64_t flag` instead of `int64_t fill`",
            "orc_salvage: parameter 8 is `int64_t fill` instead of `uint64_t flag`",
        ]
    );
    assert_eq!(
        faults_with("orc_narrowest_code", "pub fn orc_narrowest_code(x: u64) -> u64;", ""),
        ["orc_narrowest_code is not declared"]
    );
}

/// A change of the library that the header does not follow shows, too.
#[test]
fn a_library_that_has_moved_on_is_told() {
    let mut library: Vec<Function> = rattle::exported();
    let salvage = library.iter_mut().find(|function| function.name == "orc_salvage").unwrap();
    salvage.parameters.swap_remove(6);
    let header = Header::of(HEADER);
    assert_eq!(faults(&library, &header.functions), ["orc_salvage has 14 parameters instead of 13"]);
}
