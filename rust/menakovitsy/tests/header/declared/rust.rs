//! The functions that the wrapper declares, in its blocks of `extern "C"`.
use std::fs;
use std::path::Path;

use super::{enclosed, listed, number, tokens, without_line_comments, Function, Parameter};

/// The text of all files of the wrapper's module `exported`.
pub fn sources() -> String {
    let src = Path::new(env!("CARGO_MANIFEST_DIR")).join("src");
    let folder = fs::read_dir(src.join("exported")).expect("the module has a folder");
    let files = folder.map(|entry| entry.unwrap().path()).chain([src.join("exported.rs")]);
    files.map(|file| fs::read_to_string(file).expect("a source can be read")).collect()
}

/// Those that a text declares.
pub fn declared(text: &str) -> Vec<Function> {
    let text = without_line_comments(text);
    let tokens = tokens(&text);
    let blocks = (0..tokens.len()).filter(|at| tokens[*at..].starts_with(&["extern", "\"C\"", "{"]));
    blocks.flat_map(|at| functions(enclosed(&tokens[at + 2..]).0)).collect()
}

fn functions(block: &[&str]) -> Vec<Function> {
    let declarations = block.split(|token| *token == ";").filter(|tokens| !tokens.is_empty());
    declarations.map(function).collect()
}

fn function(tokens: &[&str]) -> Function {
    assert_eq!(tokens[..2], ["pub", "fn"], "a function that users can call");
    let (parameters, rest) = enclosed(&tokens[3..]);
    assert_eq!(rest[..2], ["-", ">"], "{} returns something", tokens[2]);
    Function {
        name: tokens[2].into(),
        parameters: listed(parameters).map(parameter).collect(),
        returns: number(rest[2]).into(),
    }
}

fn parameter(tokens: &[&str]) -> Parameter {
    let kind = match tokens[2..] {
        [kind] => number(kind).into(),
        ["*", "const", element] => format!("const {} *", number(element)),
        ["*", "mut", element] => format!("{} *", number(element)),
        _ => panic!("{} is a {}: say in `declared::rust` what it is in C", tokens[0], tokens[2..].concat()),
    };
    Parameter { kind, name: tokens[0].into() }
}
