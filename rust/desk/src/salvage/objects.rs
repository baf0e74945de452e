//! What `salvage` says, as JSON lines.
use menakovitsy::Refused;

use super::Salvage;
use crate::json::Object;

/// A line a group, and the last one, with a note if there is one.
pub fn salvaged(salvage: &Salvage, note: Option<&str>) -> String {
    let groups: String = salvage.report.lines().filter_map(group).map(Object::line).collect();
    let last = Object::new("salvaged").number("kept_rows", salvage.kept_rows.0 as u64);
    let last = last.number("lost_rows", salvage.lost_rows.0 as u64);
    let last = last.number("replaced_groups", salvage.replaced_groups as u64);
    groups + &note.into_iter().fold(last, |last, note| last.text("note", note)).line()
}

/// A line of the report: what became of a group, its number, its rows.
fn group(line: &str) -> Option<Object> {
    let mut words = line.split(' ');
    let (became, number, rows) = (words.next()?, words.next()?.parse().ok()?, words.next()?.parse().ok()?);
    Some(Object::new("group").number("group", number).text("became", became).number("rows", rows))
}

pub fn refused(refused: &Refused, advice: &str) -> String {
    let object = Object::new("refused").number("refusal", refused.refusal.number());
    object.text("meaning", &refused.meaning()).text("advice", advice).line()
}
