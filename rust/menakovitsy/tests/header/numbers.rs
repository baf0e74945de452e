//! The header's numbers are the wrapper's: the words of each family, cases, kinds, forms and refusals; and it has
//! no others.
use std::fmt::Debug;

use menakovitsy::exported::{self, case, kind};
use menakovitsy::{narrowest_code, Form, Refusal};

use crate::declared::c::{Header, HEADER};

/// Constants of a module of the wrapper, by their names.
macro_rules! named {
    ($module:ident: $($name:ident)*) => {
        vec![$((stringify!($name), $module::$name as u64)),*]
    };
}

/// A family of answers: its name, how many words it has, and the place of each.
type Family = (&'static str, usize, Vec<(&'static str, u64)>);

/// Every family.
fn families() -> Vec<Family> {
    use exported::*;
    vec![
        ("RUN", RUN_WORDS, named!(run_word: CASE NUMBER PLACE KIND ROWS BYTES CUT CUT_AT WIDTH)),
        (
            "STREAM",
            STREAM_WORDS,
            named!(stream_word: CASE NUMBER PLACE ROWS BYTES CUT CUT_AT LAST LAST_KIND LAST_WIDTH LAST_ROWS LAST_BYTES),
        ),
        (
            "PART",
            PART_WORDS,
            named!(part_word: CASE NUMBER PLACE KIND ROWS BYTES CUT CUT_AT WIDTH START TAKEN),
        ),
        ("BATCH", BATCH_WORDS, named!(batch_word: CASE NUMBER PLACE ROWS NEXT_RUN NEXT_SKIP CUT CUT_AT)),
        (
            "FLAGS",
            FLAGS_WORDS,
            named!(flags_word: CASE NUMBER PLACE GIVEN NEXT_RUN NEXT_BYTES NEXT_BITS CUT CUT_AT),
        ),
        ("BYTES", BYTES_WORDS, named!(bytes_word: CASE NUMBER PLACE GIVEN NEXT_RUN NEXT_BYTES CUT CUT_AT)),
        ("COUNT", COUNT_WORDS, named!(count_word: CASE NUMBER PLACE TRUE CUT CUT_AT)),
        ("SPREAD", SPREAD_WORDS, named!(spread_word: CASE NUMBER PLACE ROWS)),
        ("LABEL", LABEL_WORDS, named!(label_word: CASE NUMBER PLACE START SIZE)),
        ("LABELS", LABELS_WORDS, named!(labels_word: CASE NUMBER PLACE ROWS REFUSED_ROW)),
        ("INDEX", INDEX_WORDS, named!(index_word: CASE NUMBER PLACE ENTRIES ROWS BYTES CUT CUT_AT)),
        ("ENTRY", ENTRY_WORDS, named!(entry_word: CASE NUMBER PLACE FIRST AT ROWS)),
        ("ROWS_FROM", ROWS_FROM_WORDS, named!(rows_from_word: CASE NUMBER PLACE ROWS)),
        ("SALVAGE", SALVAGE_WORDS, named!(salvage_word: CASE NUMBER PLACE BYTES REPORT)),
        ("RESCUE", RESCUE_WORDS, named!(rescue_word: CASE NUMBER PLACE ROWS KEPT)),
        ("CONVERT", CONVERT_WORDS, named!(convert_word: CASE NUMBER PLACE ALTERED BYTES CUT CUT_AT)),
        ("CHECK", CHECK_WORDS, named!(check_word: CASE RUNS ROWS BYTES)),
        ("COLUMN", COLUMN_WORDS, named!(column_word: CASE NUMBER PLACE RUNS ROWS BYTES)),
        ("BYTES_WRITTEN", BYTES_WRITTEN_WORDS, named!(bytes_written_word: CASE NUMBER PLACE TAKEN SIZE)),
    ]
}

/// The enumerators that names and numbers are in the header.
fn enumerators(prefix: &str, named: Vec<(&str, u64)>) -> Vec<(String, u64)> {
    named.into_iter().map(|(name, number)| (format!("{prefix}_{name}"), number)).collect()
}

#[test]
fn the_words_of_each_family() {
    let header = Header::of(HEADER);
    for (name, words, places) in families() {
        let last = places.iter().map(|(_, place)| *place).max();
        assert_eq!(last, Some(words as u64 - 1), "{name}: the last word has a name");
        let head = [("CASE", 0), ("NUMBER", 1), ("PLACE", 2)];
        assert!(name == "CHECK" || places.starts_with(&head), "{name}: what common code reads");
        let macro_name = format!("ORC_{name}_WORDS");
        assert_eq!(header.value(&macro_name), Some(words.to_string().as_str()), "{macro_name}");
        let of_header = header.enumerators(&format!("orc_{}_word", name.to_lowercase()));
        assert_eq!(of_header, enumerators(&format!("ORC_{name}"), places));
    }
}

#[test]
fn cases_and_kinds() {
    let header = Header::of(HEADER);
    for (name, numbers) in [
        ("CASE", named!(case: END NOT_ACCEPTED READ REFUSED FALLBACK MORE DIRECT)),
        ("KIND", named!(kind: SHORT_REPEAT DIRECT PATCHED_BASE DELTA BOOLEANS BYTE_VALUE)),
    ] {
        let of_header = header.enumerators(&format!("orc_{}", name.to_lowercase()));
        assert_eq!(of_header, enumerators(&format!("ORC_{name}"), numbers));
    }
}

#[test]
fn forms() {
    let header = Header::of(HEADER);
    let forms = [Form::ShortRepeat, Form::Direct, Form::FixedDelta, Form::PackedDelta, Form::Patched];
    let expected = forms.map(|form| (in_c("ORC_FORM", form), form.number()));
    assert_eq!(header.enumerators("orc_form"), expected);
}

/// The codes of the widths that the specification keeps.
#[test]
fn codes() {
    let header = Header::of(HEADER);
    let of_header = header.enumerators("orc_code");
    let kept = [1, 2, 4, 8, 16, 24, 32, 40, 48, 56, 64];
    let codes =
        kept.map(|bits| (format!("ORC_CODE_{bits}"), u64::from(narrowest_code(u64::MAX >> (64 - bits)))));
    assert_eq!(of_header, codes);
}

/// The name in the header of what has a name in the wrapper: `ORC_ENTRY_OVER_64` for `EntryOver64`.
fn in_c(prefix: &str, named: impl Debug) -> String {
    let mut name = String::from(prefix);
    let mut before = ' ';
    for c in format!("{named:?}").chars() {
        if c.is_uppercase() || c.is_ascii_digit() && !before.is_ascii_digit() {
            name.push('_');
        }
        name.push(c.to_ascii_uppercase());
        before = c;
    }
    name
}

#[test]
fn refusals() {
    let header = Header::of(HEADER);
    let end = ("ORC_END".to_string(), 0);
    let run = ("ORC_RUN".to_string(), 65536);
    let refusals = Refusal::ALL.map(|refusal| (in_c("ORC", refusal), refusal.number()));
    let expected: Vec<_> = [end].into_iter().chain(refusals).chain([run]).collect();
    assert_eq!(header.enumerators("orc_answer"), expected);
}

/// Nothing in the header that the tests above don't compare.
#[test]
fn no_other_enum_or_family() {
    let Header { enums, macros, .. } = Header::of(HEADER);
    let families = families().into_iter().map(|(name, ..)| name);
    let own_words = families.clone().map(|name| format!("orc_{}_word", name.to_lowercase()));
    let others = ["orc_answer", "orc_case", "orc_kind", "orc_form", "orc_code"].map(String::from);
    assert_eq!(sorted(enums.into_iter().map(|(name, _)| name)), sorted(own_words.chain(others)));

    let words = macros.into_iter().map(|(name, _)| name).filter(|name| name.ends_with("_WORDS"));
    // the state of the reader in parts is the library's own business; the others are compared with the sizes
    let others = ["STATE", "MAX", "TOO_FEW"];
    assert_eq!(sorted(words), sorted(families.chain(others).map(|name| format!("ORC_{name}_WORDS"))));
}

fn sorted(names: impl Iterator<Item = String>) -> Vec<String> {
    let mut names: Vec<String> = names.collect();
    names.sort();
    names
}
