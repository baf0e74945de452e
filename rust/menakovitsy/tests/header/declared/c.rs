//! What the header declares: functions, enumerators and macros.
use super::{enclosed, listed, tokens, Function, Parameter};

pub const HEADER: &str = include_str!("../../../menakovitsy.h");

/// What a header has, each kind in its order.
#[derive(Debug, Default, PartialEq)]
pub struct Header {
    /// Those that a C++ program may link, too: in a block of `extern "C"` that only C++ sees.
    pub functions: Vec<Function>,
    /// Those that stand outside such a block.
    pub without_linkage: Vec<Function>,
    /// Each enum with its enumerators.
    pub enums: Vec<(String, Vec<(String, u64)>)>,
    /// Each macro that has a value, by its name (with its parameter, if it has one), and the value's text.
    pub macros: Vec<(String, String)>,
}

impl Header {
    pub fn of(text: &str) -> Self {
        let text = without_comments(text);
        let mut header = Header { macros: macros(&text), ..Header::default() };
        let (code, for_cpp) = without_conditions(&text);
        let tokens = tokens(&code);
        let mut rest = &tokens[..];
        while !rest.is_empty() {
            rest = header.take(rest, for_cpp);
        }
        header
    }

    /// The enumerators of an enum; none if there is no such enum.
    pub fn enumerators(&self, name: &str) -> &[(String, u64)] {
        self.enums.iter().find(|(own, _)| own == name).map_or(&[], |(_, enumerators)| enumerators)
    }

    /// The value of a macro, if it has one.
    pub fn value(&self, name: &str) -> Option<&str> {
        self.macros.iter().find(|(own, _)| own == name).map(|(_, value)| value.as_str())
    }

    /// Takes one declaration, and answers what is after it.
    fn take<'a, 'b>(&mut self, tokens: &'a [&'b str], linkage: bool) -> &'a [&'b str] {
        match tokens {
            ["enum", name, enumerators @ ..] => {
                let (inside, rest) = enclosed(enumerators);
                self.enums.push(((*name).into(), listed(inside).map(enumerator).collect()));
                assert_eq!(rest[0], ";", "enum {name} ends");
                &rest[1..]
            }
            ["static", "inline", definition @ ..] => {
                let body = definition.iter().position(|token| *token == "{").expect("a function has a body");
                enclosed(&definition[body..]).1
            }
            _ => {
                let end = tokens.iter().position(|token| *token == ";").expect("a declaration ends");
                let functions = if linkage { &mut self.functions } else { &mut self.without_linkage };
                functions.push(function(&tokens[..end]));
                &tokens[end + 1..]
            }
        }
    }
}

fn without_comments(text: &str) -> String {
    let after = |part: &str| part.split_once("*/").expect("a comment is closed").1.to_string();
    let mut parts = text.split("/*");
    let first = parts.next().unwrap_or_default().to_string();
    parts.map(after).fold(first, |text, part| text + " " + &part)
}

/// The lines that are not the preprocessor's, and whether C++ has all declarations in a block of `extern "C"`.
fn without_conditions(text: &str) -> (String, bool) {
    const OPEN: &str = "#ifdef __cplusplus\nextern \"C\" {\n#endif\n";
    const CLOSE: &str = "#ifdef __cplusplus\n}\n#endif\n";
    let declarations = text.split_once(OPEN).and_then(|(_, rest)| rest.split_once(CLOSE));
    let linkage = declarations.is_some_and(|(inside, _)| !inside.contains("__cplusplus"));
    let code = text.replace(OPEN, "").replace(CLOSE, "");
    let code = code.lines().filter(|line| !line.starts_with('#')).collect::<Vec<_>>().join("\n");
    (code, linkage)
}

fn macros(text: &str) -> Vec<(String, String)> {
    let defined = text.lines().filter_map(|line| line.strip_prefix("#define "));
    let split = defined.filter_map(|line| line.split_once(' '));
    split.map(|(name, value)| (name.into(), value.trim().into())).collect()
}

fn enumerator(tokens: &[&str]) -> (String, u64) {
    match tokens {
        [name, "=", value] => ((*name).into(), value.parse().expect("an enumerator is a number")),
        _ => panic!("{} is an enumerator without a number", tokens.concat()),
    }
}

fn function(tokens: &[&str]) -> Function {
    let open = tokens.iter().position(|token| *token == "(").expect("a function has parameters, or void");
    let (parameters, rest) = enclosed(&tokens[open..]);
    assert!(rest.is_empty(), "{} has something after its parameters", tokens[open - 1]);
    let parameters =
        if parameters == ["void"] { Vec::new() } else { listed(parameters).map(parameter).collect() };
    Function { name: tokens[open - 1].into(), parameters, returns: tokens[..open - 1].join(" ") }
}

fn parameter(tokens: &[&str]) -> Parameter {
    let (name, kind) = tokens.split_last().expect("a parameter has a name");
    Parameter { kind: kind.join(" "), name: (*name).into() }
}
