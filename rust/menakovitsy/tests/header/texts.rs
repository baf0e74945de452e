//! Every refusal has a text in C: what the wrapper says of the same number.
use std::collections::BTreeMap;

use menakovitsy::exported::TOO_FEW_WORDS;
use menakovitsy::Refusal;

use crate::compiler::{here, LANGUAGES};

/// What `orc_refusal_text` says of each number that the program asks for.
fn texts(language: crate::compiler::Language) -> BTreeMap<u64, String> {
    let written = language.writes(&here().join("tests/header/c/texts.c"));
    let lines = written.lines().map(|line| line.split_once('\t').expect("a number and its text"));
    lines.map(|(number, text)| (number.parse().unwrap(), text.into())).collect()
}

/// The wrapper's text of a refusal, with the names that its functions have in C.
fn in_c(refusal: Refusal) -> String {
    let text = format!("{} ({})", refusal.meaning(), refusal.advice());
    text.replace("column_room", "ORC_COLUMN_ROOM").replace("boolean_room", "ORC_BOOLEAN_ROOM")
}

#[test]
fn the_same_text_for_each_number() {
    for language in LANGUAGES {
        let texts = texts(language);
        for refusal in Refusal::ALL {
            let said = texts.get(&refusal.number()).map(String::as_str);
            assert_eq!(said, Some(in_c(refusal).as_str()), "orc_refusal_text({})", refusal.number());
        }
    }
}

#[test]
fn a_text_for_every_other_number() {
    let texts = texts(LANGUAGES[0]);
    for (number, text) in &texts {
        match *number {
            0 | 65536 => assert_eq!(text, "nothing is refused"),
            // a run of orc_read_run, too, if it were that large
            number if number == TOO_FEW_WORDS - 1 => assert_eq!(text, "nothing is refused"),
            TOO_FEW_WORDS => assert!(text.contains("lend as many as"), "{text}"),
            number if matches!(Refusal::of_number(number), Refusal::Unknown(_)) => {
                assert!(
                    text.starts_with("a number that this header does not know (link the library"),
                    "{text}"
                );
            }
            _ => {}
        }
    }
    assert_eq!(texts.len(), 69);
}
