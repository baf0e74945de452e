//! Functions as they are declared, each as C sees it: by the Rattle sources, by the header, and by the wrapper.
//! Whatever language a declaration is in, its types are given here as C writes them.
use std::fmt;

pub mod c;
pub mod rattle;
pub mod rust;

/// A parameter: its type in C, and its name.
#[derive(Debug, Clone, PartialEq, Eq)]
pub struct Parameter {
    pub kind: String,
    pub name: String,
}

/// A function with C linkage.
#[derive(Debug, Clone, PartialEq, Eq)]
pub struct Function {
    pub name: String,
    pub parameters: Vec<Parameter>,
    pub returns: String,
}

impl Parameter {
    pub fn new(kind: &str, name: &str) -> Self {
        Parameter { kind: kind.into(), name: name.into() }
    }
}

impl fmt::Display for Parameter {
    fn fmt(&self, f: &mut fmt::Formatter) -> fmt::Result {
        let space = if self.kind.ends_with('*') { "" } else { " " };
        write!(f, "`{}{space}{}`", self.kind, self.name)
    }
}

/// The type in C of a number of Rattle or Rust.
pub fn number(kind: &str) -> &'static str {
    match kind {
        "u8" => "uint8_t",
        "i64" => "int64_t",
        "u64" => "uint64_t",
        "usize" => "size_t",
        _ => {
            panic!("{kind} is a type that these tests don't know: say in `declared::number` what it is in C")
        }
    }
}

/// What is wrong with declarations of the library's functions, a line for each fault.
pub fn faults(library: &[Function], declared: &[Function]) -> Vec<String> {
    let mut faults = Vec::new();
    for function in library {
        let found: Vec<&Function> = declared.iter().filter(|other| other.name == function.name).collect();
        match found[..] {
            [found] => faults.extend(function.faults_of(found)),
            [] => faults.push(format!("{} is not declared", function.name)),
            _ => faults.push(format!("{} is declared {} times", function.name, found.len())),
        }
    }
    let surplus = declared.iter().filter(|other| library.iter().all(|function| function.name != other.name));
    faults.extend(surplus.map(|other| format!("{} is not a function of the library", other.name)));
    faults
}

impl Function {
    fn faults_of(&self, declared: &Function) -> Vec<String> {
        let Function { name, parameters, returns } = self;
        let mut faults = Vec::new();
        if *returns != declared.returns {
            faults.push(format!("{name} returns `{}` instead of `{returns}`", declared.returns));
        }
        if parameters.len() != declared.parameters.len() {
            let (own, others) = (parameters.len(), declared.parameters.len());
            faults.push(format!("{name} has {others} parameters instead of {own}"));
            return faults;
        }
        let pairs = parameters.iter().zip(&declared.parameters).enumerate();
        let other = pairs.filter(|(_, (own, declared))| own != declared);
        faults.extend(other.map(|(place, (own, declared))| {
            format!("{name}: parameter {} is {declared} instead of {own}", place + 1)
        }));
        faults
    }
}

/// The words and signs of a text without comments: names and numbers, texts in quotes, and any other sign.
pub fn tokens(text: &str) -> Vec<&str> {
    let mut tokens = Vec::new();
    let mut rest = text.trim_start();
    while let Some(first) = rest.chars().next() {
        let is_word = |c: char| c.is_ascii_alphanumeric() || c == '_';
        let length = match first {
            '"' => 2 + rest[1..].find('"').expect("a quote is closed"),
            _ if is_word(first) => rest.find(|c| !is_word(c)).unwrap_or(rest.len()),
            _ => first.len_utf8(),
        };
        tokens.push(&rest[..length]);
        rest = rest[length..].trim_start();
    }
    tokens
}

/// What stands between the sign that a list of tokens begins with and the one that closes it, and what is after.
pub fn enclosed<'a, 'b>(tokens: &'a [&'b str]) -> (&'a [&'b str], &'a [&'b str]) {
    let close = match tokens[0] {
        "(" => ")",
        "{" => "}",
        other => panic!("{other} encloses nothing"),
    };
    let mut depth = 0;
    for (place, token) in tokens.iter().enumerate() {
        depth += isize::from(*token == tokens[0]) - isize::from(*token == close);
        if depth == 0 {
            return (&tokens[1..place], &tokens[place + 1..]);
        }
    }
    panic!("{} is not closed by {close}", tokens[0]);
}

/// The parts of a list between its commas. A comma after the last is allowed.
pub fn listed<'a, 'b>(tokens: &'a [&'b str]) -> impl Iterator<Item = &'a [&'b str]> {
    tokens.split(|token| *token == ",").filter(|part| !part.is_empty())
}

/// A text without what `//` begins, to the end of each line.
pub fn without_line_comments(text: &str) -> String {
    text.lines().map(|line| line.split("//").next().unwrap_or_default()).collect::<Vec<_>>().join("\n")
}
