//! Numbers for a person.

/// A number with a comma between thousands.
pub fn separated(number: u64) -> String {
    let digits = number.to_string();
    let mut text = String::new();
    for (place, digit) in digits.chars().enumerate() {
        if place > 0 && (digits.len() - place).is_multiple_of(3) {
            text.push(',');
        }
        text.push(digit);
    }
    text
}

/// A number of things: `1 row`, `2 rows`.
pub fn many(number: u64, one: &str) -> String {
    format!("{number} {one}{}", plural(number))
}

/// The same with a comma between thousands.
pub fn many_separated(number: u64, one: &str) -> String {
    format!("{} {one}{}", separated(number), plural(number))
}

fn plural(number: u64) -> &'static str {
    if number == 1 {
        ""
    } else {
        "s"
    }
}

#[cfg(test)]
mod tests {
    use super::*;

    #[test]
    fn thousands() {
        let numbers = [0, 7, 999, 1000, 12_345, 999_999, 1_000_000, u64::MAX].map(separated);
        let written =
            ["0", "7", "999", "1,000", "12,345", "999,999", "1,000,000", "18,446,744,073,709,551,615"];
        assert_eq!(numbers, written);
    }

    #[test]
    fn one_or_more() {
        assert_eq!([many(0, "row"), many(1, "row"), many(2, "row")], ["0 rows", "1 row", "2 rows"]);
        assert_eq!(many_separated(1200, "byte"), "1,200 bytes");
    }
}
