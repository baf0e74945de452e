//! What is said of two files.
use super::{Compared, Row, Rows, Side};
use crate::advice::wrapped;
use crate::annotate::counts;
use crate::json::Object;
use crate::numbers::many;
use crate::walk::RunInfo;

/// The text. What to do about a refusal is said once.
pub fn text(compared: &Compared, names: &[String; 2], rows_only: bool) -> String {
    let (number, runs, rows) = match compared {
        Compared::Equal(all) => return format!("equal: {}\n", counts(*all)),
        Compared::Parted(number, runs, rows) => (number, runs, rows),
    };
    if let ([Side::Refused(trouble), Side::Refused(_)], false) = (runs, rows_only) {
        let begin = format!("both break off after {}, which are equal\n", counts(trouble.before));
        return begin + &both(runs, names, true, run);
    }
    let mut text = String::new();
    if !rows_only {
        text += &format!("first run that differs: run {number}\n");
        text += &both(runs, names, true, run);
    }
    let said = !rows_only && runs.iter().any(|side| matches!(side, Side::Refused(_)));
    let (begin, sides) = match rows {
        Rows::Equal(rows) => return text + &format!("rows: all {rows} are equal\n"),
        Rows::Parted(rows, sides @ [Side::Refused(_), Side::Refused(_)]) => {
            (format!("rows: the first {rows} are equal, and then both break off\n"), sides)
        }
        Rows::Parted(row, sides) => (format!("first row that differs: row {row}\n"), sides),
    };
    text + &begin
        + &both(sides, names, !said, |Row { value, at }| format!("{value}, in the run at byte {at}"))
}

fn run(RunInfo { at, first, kind, bits, rows, bytes }: &RunInfo) -> String {
    let [rows, bits, bytes] = [(*rows, "row"), (*bits, "bit"), (*bytes, "byte")].map(|(n, of)| many(n, of));
    format!("byte {at}, row {first}: {kind}, {rows} of {bits}, {bytes}")
}

/// A line for each file; with `advice` a refusal says what to do.
fn both<T>(sides: &[Side<T>; 2], names: &[String; 2], advice: bool, here: impl Fn(&T) -> String) -> String {
    let wide = names.iter().map(|name| name.chars().count()).max().unwrap_or(0);
    let line = |(side, name): (&Side<T>, &String)| {
        let said = match side {
            Side::Here(found) => here(found),
            Side::Ended(all) => format!("has ended: {}", counts(*all)),
            Side::Refused(trouble) => {
                let (at, refused) = (trouble.before.bytes, trouble.refused);
                let number = refused.refusal.number();
                let said = format!("breaks off at byte {at}: refusal {number}: {}", refused.meaning());
                match advice {
                    true => format!("{said}\n    what to do: {}", wrapped(&trouble.advice(), 16)),
                    false => said,
                }
            }
        };
        format!("  {name:<wide$}  {said}\n")
    };
    sides.iter().zip(names).map(line).collect()
}

/// The same as JSON lines.
pub fn objects(compared: &Compared, rows_only: bool) -> String {
    let (number, runs, rows) = match compared {
        Compared::Equal(all) => {
            let object = Object::new("equal").number("runs", all.runs).number("rows", all.rows);
            return object.number("bytes", all.bytes).line();
        }
        Compared::Parted(number, runs, rows) => (number, runs, rows),
    };
    let mut text = String::new();
    if !rows_only {
        let object = Object::new("run_differs").number("run", *number);
        text += &members(object, runs, |object, of, run: &RunInfo| {
            let object = object.number(&of("byte"), run.at).number(&of("row"), run.first);
            let object = object.text(&of("kind"), run.kind.name()).number(&of("bits"), run.bits);
            object.number(&of("rows"), run.rows).number(&of("bytes"), run.bytes)
        });
    }
    text + &match rows {
        Rows::Equal(rows) => Object::new("rows_equal").number("rows", *rows).line(),
        Rows::Parted(number, sides) => {
            let object = Object::new("row_differs").number("row", *number);
            members(object, sides, |object, of, row: &Row| {
                object.number(&of("byte"), row.at).row(&of("value"), row.value)
            })
        }
    }
}

/// A line with the members of both files; `here` is given what turns a member's name into the file's.
fn members<T>(
    object: Object,
    sides: &[Side<T>; 2],
    here: impl Fn(Object, &dyn Fn(&str) -> String, &T) -> Object,
) -> String {
    let all = sides.iter().zip(["a", "b"]).fold(object, |object, (side, name)| {
        let of = |member: &str| format!("{name}_{member}");
        match side {
            Side::Here(found) => here(object, &of, found),
            Side::Ended(all) => object.number(&of("end"), all.bytes),
            Side::Refused(trouble) => {
                let refused = trouble.refused;
                let object = object.number(&of("refused"), refused.refusal.number());
                let object = object.number(&of("byte"), trouble.before.bytes);
                let object = object.text(&of("meaning"), &refused.meaning());
                object.text(&of("advice"), &trouble.advice())
            }
        }
    });
    all.line()
}
