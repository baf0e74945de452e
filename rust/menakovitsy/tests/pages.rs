//! The Rust of the pages: every block is compiled and run, in a project of a user of the crate.
//!
//! A block is what stands between a line "```rust" and a line "```" of README.md, rust/README.md and docs/*.md. It
//! is the body of a function that may end with `?`. It may use what [`BEFORE`] names, and the lines of a comment
//! before it that begins `<!-- rust` and is not shown:
//!
//! ````text
//! <!-- rust
//! let lengths = [5, 6];
//! -->
//! ```rust
//! assert_eq!(lengths.len(), 2);
//! ```
//! ````
//!
//! A block marked `rust,no_run` is only compiled, and one marked `rust,ignore` is not looked at. Rattle has no
//! colours of its own on a page, and is marked as Rust: its blocks begin with a room that no crate is called by.
mod project;

use std::fmt::Write;
use std::iter::Enumerate;
use std::path::{Path, PathBuf};
use std::str::Lines;
use std::{fs, mem};

use project::Project;

const HERE: &str = env!("CARGO_MANIFEST_DIR");

/// What every block may use, as its readers have it: five rows of 300, then 1, 2, 3 at byte 3, then 0 to 511 twice.
const BEFORE: &str = "\
    use menakovitsy::*;
    fn load(rows: &[i64]) {}
    let bytes = [&[0x0A, 0x01, 0x2C, 0x46, 0x02, 0x12, 0x30][..], &[0xC1, 0xFF, 0x00, 0x02].repeat(2)].concat();
    let column = bytes.clone();
    let mut rows = vec![0i64; 600];
    let mut values = [0i64; 8];
    let present = [0x7F, 0xFF];
    let data = [&[0xC1, 0xFF, 0x00, 0x02].repeat(2)[..], &[0x05, 0x01]].concat();
    let (block, lengths, numbers) = (&b\"drumsvocals\"[..], [5, 6], [1, 0]);
    let flags = [1u8, 0, 1];
";

/// A block of a page.
#[derive(Debug, PartialEq, Eq)]
struct Block {
    /// The line of its fence, from 1.
    line: usize,
    runs: bool,
    /// The lines of the comment before it, and its own.
    code: String,
}

/// A page's lines up to one that is `end`.
fn until(lines: &mut Enumerate<Lines>, end: &str) -> String {
    let body = lines.map(|(_, line)| line).take_while(|line| *line != end);
    body.fold(String::new(), |text, line| text + line + "\n")
}

/// The blocks of a page's text.
fn blocks(page: &str) -> Vec<Block> {
    let mut blocks = Vec::new();
    let (mut hidden, mut lines) = (String::new(), page.lines().enumerate());
    while let Some((number, line)) = lines.next() {
        match line.strip_prefix("```") {
            Some(mark @ ("rust" | "rust,no_run")) => {
                let code = mem::take(&mut hidden) + &until(&mut lines, "```");
                if !code.starts_with("use format::") {
                    blocks.push(Block { line: number + 1, runs: mark == "rust", code });
                }
            }
            Some(_) => drop(until(&mut lines, "```")),
            None if line == "<!-- rust" => hidden = until(&mut lines, "-->"),
            None => {}
        }
    }
    blocks
}

/// The pages of the checkout that this crate stands in; none if it stands elsewhere.
fn pages() -> Vec<PathBuf> {
    let root = Path::new(HERE).join("../..");
    if !root.join("crates").is_dir() {
        return Vec::new();
    }
    let docs = fs::read_dir(root.join("docs")).unwrap().map(|entry| entry.unwrap().path());
    let mut pages: Vec<PathBuf> =
        docs.filter(|page| page.extension().is_some_and(|end| end == "md")).collect();
    pages.extend(["README.md", "rust/README.md"].map(|page| root.join(page)));
    pages.sort();
    pages
}

/// Makes the project's program of blocks, a module each, named after its page and line.
fn write(project: &Project, blocks: &[(String, Block)]) {
    let mut main = String::from("#![allow(unused)]\n");
    let mut calls = String::new();
    for (page, Block { line, runs, code }) in blocks {
        let name = format!("{page}_line_{line}");
        let body = format!(
            "pub fn run() -> Result<(), Box<dyn std::error::Error>> {{\n{BEFORE}    {{\n{code}    }}\n    Ok(())\n}}\n"
        );
        fs::write(project.0.join("src").join(format!("{name}.rs")), body).unwrap();
        writeln!(main, "mod {name};").unwrap();
        if *runs {
            writeln!(calls, "    {name}::run().expect(\"{name}\");\n    println!(\"ran {name}\");").unwrap();
        }
    }
    fs::write(project.0.join("src/main.rs"), format!("{main}\nfn main() {{\n{calls}}}\n")).unwrap();
}

/// A page's name as a module's.
fn name_of(page: &Path) -> String {
    let folder = page.parent().and_then(Path::file_name).filter(|folder| *folder == "rust");
    let stem = page.file_stem().unwrap().to_str().unwrap().to_lowercase();
    format!("{}{}", if folder.is_some() { "rust_" } else { "" }, stem.replace('-', "_"))
}

#[test]
fn every_block_compiles_and_runs() {
    let pages = pages();
    let mut all = Vec::new();
    for page in &pages {
        let text = fs::read_to_string(page).unwrap();
        all.extend(blocks(&text).into_iter().map(|block| (name_of(page), block)));
    }
    let runs = all.iter().filter(|(_, block)| block.runs);
    let run: Vec<String> = runs.map(|(page, block)| format!("ran {page}_line_{}", block.line)).collect();
    assert_eq!(run.is_empty(), pages.is_empty(), "no page has a block");
    let project = Project::new("pages", Path::new(HERE));
    write(&project, &all);
    let mut cargo = project.cargo();
    cargo.env("MENAKOVITSY_LIB_DIR", env!("MENAKOVITSY_LINKED"));
    let said = project.run(cargo);
    assert_eq!(said.lines().filter(|line| line.starts_with("ran ")).collect::<Vec<_>>(), run);
}

/// A block that a reader could not compile is refused, and its page and line are named.
#[test]
fn a_wrong_block_is_refused() {
    let page = "Text.\n\n```rust\nlet rows = count_true(&bytes, 32)?;\n```\n";
    let wrong: Vec<_> = blocks(page).into_iter().map(|block| (String::from("page"), block)).collect();
    let project = Project::new("wrong", Path::new(HERE));
    write(&project, &wrong);
    let mut cargo = project.cargo();
    cargo.env("MENAKOVITSY_LIB_DIR", env!("MENAKOVITSY_LINKED"));
    let built = cargo.output().unwrap();
    let said = String::from_utf8_lossy(&built.stderr);
    assert!(
        !built.status.success() && said.contains("src/page_line_3.rs") && said.contains("RowNumber"),
        "{said}"
    );
}

#[test]
fn what_a_block_is() {
    let page = "\
A text with ```rust in it.
```sh
```
```rust
let a = 1;

assert_eq!(a, 1);
```
<!-- rust
let b = 2;
-->
Text between.
```rust,no_run
open(b)?;
```
```rust,ignore
nonsense
```
```rust
use format::Answer;
```
<!-- a comment -->
```rust
c();
```
";
    let block = |line, runs, code: &str| Block { line, runs, code: code.into() };
    assert_eq!(
        blocks(page),
        [
            block(4, true, "let a = 1;\n\nassert_eq!(a, 1);\n"),
            block(13, false, "let b = 2;\nopen(b)?;\n"),
            block(23, true, "c();\n"),
        ]
    );
}
