//! The C of the pages: every block is compiled, linked and run, as the body of a function of a user's program.
use std::fs;
use std::path::PathBuf;

use crate::compiler::{folder, here, C99};

/// What every block may use, as its readers have it: 32 flags, 24 true and 8 false.
const BEFORE: &str = "#include <inttypes.h>\n#include <stdio.h>\n\n#include \"menakovitsy.h\"\n\n\
                      static const uint8_t flags[] = {0x00, 0xFF, 0xFF, 0x00};\n\nint main(void)\n{\n";

/// The pages of the checkout.
fn pages() -> Vec<PathBuf> {
    let root = here().join("../..");
    let docs = fs::read_dir(root.join("docs")).expect("the pages are there: run this in a checkout");
    let docs =
        docs.map(|entry| entry.unwrap().path()).filter(|page| page.extension().is_some_and(|md| md == "md"));
    docs.chain(["README.md", "rust/README.md"].map(|page| root.join(page))).collect()
}

/// What stands between a line "```c" and a line "```" of a page.
fn blocks(page: &str) -> Vec<&str> {
    let fenced = page.split("\n```c\n").skip(1);
    fenced.map(|rest| rest.split_once("\n```\n").expect("a block is closed").0).collect()
}

#[test]
fn every_block_is_compiled_and_run() {
    let mut count = 0;
    for page in pages() {
        for block in blocks(&fs::read_to_string(&page).unwrap()) {
            let source = folder().join("block.c");
            fs::write(&source, format!("{BEFORE}{block}\nreturn 0;\n}}\n")).unwrap();
            assert_eq!(C99.writes(&source), "", "{}", page.display());
            count += 1;
        }
    }
    assert!(count > 0, "README.md has a block of C");
}
