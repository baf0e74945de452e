//! Rows that are missing: a column's rows spread over its flags.
use crate::Refusal;

/// What spreading rows answers: the rows of the places that it filled, one a flag.
#[derive(Debug, Clone, PartialEq, Eq)]
pub enum Spread {
    Given(Vec<i64>),
    Refused(Refusal),
}

/// "21 (place 0) if the flags that are not 0 are not exactly as many as the rows; then 8 if there are
/// fewer places than flags. Otherwise place i gets the next row if flag i is not 0, and else `fill`."
pub fn spread(flags: &[u8], rows: &[i64], fill: i64, places: usize) -> Spread {
    let set = flags.iter().filter(|flag| **flag != 0).count();
    if set != rows.len() {
        return Spread::Refused(Refusal::whole(21, 0));
    }
    if places < flags.len() {
        return Spread::Refused(Refusal::whole(8, 0));
    }
    let mut next = rows.iter();
    let place = |flag: &u8| match flag {
        0 => fill,
        _ => *next.next().expect("a row for each flag that is set"),
    };
    Spread::Given(flags.iter().map(place).collect())
}
