//! JSON lines: each line is an object without others inside it, and its first member is `type`.
use std::fmt::Write;

/// The largest number up to which readers that keep numbers as doubles have each whole one: 2^53.
const DOUBLES: u64 = 1 << 53;

/// What help texts say of it.
pub const HELP: &str =
    "With --json each line of output is a JSON object without others inside it. Its first member, type,
says what it is. Numbers are JSON numbers, whole and exact. Many readers round those beyond 2^53
(9007199254740992): a row that large has a second member, whose name ends in _text, with its digits
as a string. A file that is refused has a last line of type refused: refusal (its number), byte and
row (where), cut_byte (if a field is cut there), meaning, advice, runs, rows and bytes (of what is
before it) and length (of the file).
";

/// A line as it grows.
pub struct Object {
    line: String,
}

impl Object {
    pub fn new(kind: &str) -> Self {
        let mut object = Object { line: "{".into() };
        object.member("type", &quoted(kind));
        object
    }

    pub fn text(mut self, name: &str, text: &str) -> Self {
        self.member(name, &quoted(text));
        self
    }

    /// A count, or a place in a file.
    pub fn number(mut self, name: &str, number: u64) -> Self {
        self.member(name, &number.to_string());
        self
    }

    pub fn optional(self, name: &str, number: Option<u64>) -> Self {
        match number {
            Some(number) => self.number(name, number),
            None => self,
        }
    }

    /// A row, and its digits if many readers would round it.
    pub fn row(mut self, name: &str, row: i64) -> Self {
        self.member(name, &row.to_string());
        if row.unsigned_abs() > DOUBLES {
            self.member(&format!("{name}_text"), &quoted(&row.to_string()));
        }
        self
    }

    /// The whole line.
    pub fn line(self) -> String {
        self.line + "}\n"
    }

    fn member(&mut self, name: &str, value: &str) {
        let comma = if self.line.len() > 1 { "," } else { "" };
        write!(self.line, "{comma}\"{name}\":{value}").expect("a string takes it");
    }
}

/// A text in quotation marks.
fn quoted(text: &str) -> String {
    let mut quoted = String::from("\"");
    for character in text.chars() {
        match character {
            '"' => quoted.push_str("\\\""),
            '\\' => quoted.push_str("\\\\"),
            '\n' => quoted.push_str("\\n"),
            control if control < ' ' => {
                write!(quoted, "\\u{:04x}", u32::from(control)).expect("a string takes it")
            }
            other => quoted.push(other),
        }
    }
    quoted + "\""
}

#[cfg(test)]
mod tests {
    use super::*;

    #[test]
    fn objects() {
        let line =
            Object::new("a").number("n", u64::MAX).text("t", "\"\\\n\t\u{1}ü").optional("no", None).line();
        assert_eq!(
            line,
            "{\"type\":\"a\",\"n\":18446744073709551615,\"t\":\"\\\"\\\\\\n\\u0009\\u0001ü\"}\n"
        );
    }

    #[test]
    fn rows_that_many_readers_round() {
        let row = |row| Object::new("row").row("value", row).line();
        assert_eq!(row(-9_007_199_254_740_992), "{\"type\":\"row\",\"value\":-9007199254740992}\n");
        let text = "{\"type\":\"row\",\"value\":9007199254740993,\"value_text\":\"9007199254740993\"}\n";
        assert_eq!(row(9_007_199_254_740_993), text);
    }
}
