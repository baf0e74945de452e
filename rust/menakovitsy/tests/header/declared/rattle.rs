//! The functions that the Rattle sources export, lowered as the compiler does: a number passes as itself, and a
//! slice as a pointer and, after it, the length in elements.
use std::fs;
use std::path::{Path, PathBuf};

use super::{enclosed, listed, number, tokens, without_line_comments, Function, Parameter};

/// Parameters that have another name in C, each with its function. A slice's length is NAME_len there, and this
/// one is a length without its slice.
pub const RENAMED: [(&str, &str, &str); 1] = [("orc_label_column", "block", "block_len")];

/// What marks an exported function.
const EXPORTED: [&str; 11] = ["#", "[", "unsafe", "(", "no_mangle", ")", "]", "pub", "extern", "\"C\"", "fn"];

/// Those of all crates of the checkout that these tests stand in.
pub fn exported() -> Vec<Function> {
    let crates = Path::new(env!("CARGO_MANIFEST_DIR")).join("../../crates");
    assert!(
        crates.is_dir(),
        "{} is not there: these tests compare with the Rattle sources, so run them in a checkout",
        crates.display()
    );
    let mut functions: Vec<Function> = sources(&crates)
        .iter()
        .flat_map(|source| exported_by(&fs::read_to_string(source).expect("a source can be read")))
        .collect();
    for (function, name, other) in RENAMED {
        let function = functions.iter_mut().find(|own| own.name == function);
        let parameters = function.into_iter().flat_map(|own| &mut own.parameters);
        let renamed = parameters.filter(|own| own.name == name).map(|own| own.name = other.into()).count();
        assert_eq!(renamed, 1, "RENAMED has {name}, which no parameter is called any more");
    }
    functions
}

fn sources(crates: &Path) -> Vec<PathBuf> {
    let folder =
        |path: &Path| fs::read_dir(path).expect("a folder can be read").map(|entry| entry.unwrap().path());
    let sources = folder(crates).map(|path| path.join("src")).filter(|src| src.is_dir());
    sources
        .flat_map(|src| folder(&src))
        .filter(|file| file.extension().is_some_and(|rt| rt == "rt"))
        .collect()
}

/// Those of one source.
pub fn exported_by(source: &str) -> Vec<Function> {
    let source = without_line_comments(source);
    let tokens = tokens(&source);
    let marked = tokens.iter().filter(|token| **token == "no_mangle").count();
    let found = (0..tokens.len()).filter(|at| tokens[*at..].starts_with(&EXPORTED));
    let functions: Vec<Function> = found.map(|at| function(&tokens[at + EXPORTED.len()..])).collect();
    assert_eq!(functions.len(), marked, "a function is exported that these tests don't find");
    functions
}

fn function(tokens: &[&str]) -> Function {
    let (parameters, rest) = enclosed(&tokens[1..]);
    assert_eq!(rest[..2], ["-", ">"], "{} returns something", tokens[0]);
    Function {
        name: tokens[0].into(),
        parameters: listed(parameters).flat_map(lowered).collect(),
        returns: number(rest[2]).into(),
    }
}

fn lowered(parameter: &[&str]) -> Vec<Parameter> {
    let (name, kind) = (parameter[0], &parameter[2..]);
    let slice =
        |kind: String| vec![Parameter::new(&kind, name), Parameter::new("size_t", &format!("{name}_len"))];
    match *kind {
        [kind] => vec![Parameter::new(number(kind), name)],
        ["&", "[", element, "]"] => slice(format!("const {} *", number(element))),
        ["&", "mut", "[", element, "]"] => slice(format!("{} *", number(element))),
        _ => panic!("{name} is a {}: say in `declared::rattle` how it passes", kind.concat()),
    }
}
