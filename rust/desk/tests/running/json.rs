//! JSON lines, read strictly: a line is an object without others inside it.

/// A member's value: a number by its digits.
#[derive(Debug, Clone, PartialEq, Eq)]
pub enum Value {
    Number(String),
    Text(String),
}

/// A line: its members in order.
#[derive(Debug, Clone, PartialEq, Eq)]
pub struct Object(pub Vec<(String, Value)>);

impl Object {
    /// What a member says, digits or text.
    pub fn get(&self, name: &str) -> Option<&str> {
        self.0.iter().find(|(member, _)| member == name).map(|(_, value)| match value {
            Value::Number(text) | Value::Text(text) => text.as_str(),
        })
    }

    pub fn kind(&self) -> &str {
        self.get("type").expect("every line has a type")
    }

    /// A number that a member is.
    pub fn number(&self, name: &str) -> i128 {
        match self.0.iter().find(|(member, _)| member == name) {
            Some((_, Value::Number(digits))) => digits.parse().expect("a number"),
            other => panic!("{name}: {other:?}"),
        }
    }
}

/// The lines of a text, each of which must be an object whose first member is its type.
pub fn objects(text: &str) -> Vec<Object> {
    assert!(text.is_empty() || text.ends_with('\n'), "{text}");
    let objects: Vec<Object> = text.lines().map(object).collect();
    assert!(objects.iter().all(|object| object.0[0].0 == "type"), "{text}");
    objects
}

fn object(line: &str) -> Object {
    let mut rest = line.strip_prefix('{').unwrap_or_else(|| panic!("{line}"));
    let mut members: Vec<(String, Value)> = Vec::new();
    loop {
        let (name, after) = string(rest);
        assert!(members.iter().all(|(other, _)| *other != name), "{name} comes twice: {line}");
        let (value, after) = value(after.strip_prefix(':').unwrap_or_else(|| panic!("{line}")));
        members.push((name, value));
        rest = match after.strip_prefix(',') {
            Some(more) => more,
            None => {
                assert_eq!(after, "}", "{line}");
                return Object(members);
            }
        };
    }
}

fn value(text: &str) -> (Value, &str) {
    if text.starts_with('"') {
        let (text, rest) = string(text);
        return (Value::Text(text), rest);
    }
    let end = text.find([',', '}']).unwrap_or(text.len());
    let digits = text[..end].strip_prefix('-').unwrap_or(&text[..end]);
    let leading = digits.len() > 1 && digits.starts_with('0');
    assert!(!digits.is_empty() && !leading && digits.bytes().all(|byte| byte.is_ascii_digit()), "{text}");
    (Value::Number(text[..end].into()), &text[end..])
}

/// A text in quotation marks, and what comes after it.
fn string(text: &str) -> (String, &str) {
    let mut found = String::new();
    let mut characters = text.strip_prefix('"').unwrap_or_else(|| panic!("{text}")).chars();
    loop {
        match characters.next().expect("a closing quotation mark") {
            '"' => return (found, characters.as_str()),
            '\\' => found.push(match characters.next().expect("a character") {
                'n' => '\n',
                'u' => {
                    let digits: String = characters.by_ref().take(4).collect();
                    let code = u32::from_str_radix(&digits, 16).expect("four digits");
                    char::from_u32(code).expect("a character")
                }
                other @ ('"' | '\\') => other,
                other => panic!("\\{other} is not escaped"),
            }),
            control if control < ' ' => panic!("{text:?}"),
            other => found.push(other),
        }
    }
}
