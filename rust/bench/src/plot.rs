//! The plot, as SVG: direct runs by width as lines, the others as bars.
use std::fmt::Write as _;

use crate::cases::Group;
use crate::measure::Times;
use crate::table::Row;

const WIDTH: f64 = 900.0;
const LEFT: f64 = 290.0;
const RIGHT: f64 = 40.0;
const LINES_TOP: f64 = 70.0;
const LINES_HEIGHT: f64 = 300.0;
const BAR: f64 = 7.0;

/// A candidate: its name, its colour, and its time.
type Candidate = (&'static str, &'static str, fn(&Times) -> Option<f64>);

const CANDIDATES: [Candidate; 4] = [
    ("ours, a run a call", "#0b6e4f", |times| times.ours),
    ("ours, a stream", "#6aa84f", |times| times.stream),
    ("the Rust decoders", "#c8553d", |times| times.rust),
    ("a plain copy", "#8d99ae", |times| Some(times.copy)),
];

struct Plot(String);

impl Plot {
    fn put(&mut self, element: std::fmt::Arguments) {
        self.0.write_fmt(element).expect("a string takes it");
        self.0.push('\n');
    }

    fn text(&mut self, x: f64, y: f64, anchor: &str, size: u32, text: &str) {
        self.put(format_args!(
            r##"<text x="{x:.1}" y="{y:.1}" text-anchor="{anchor}" font-size="{size}" fill="#222">{text}</text>"##
        ));
    }

    fn line(&mut self, from: (f64, f64), to: (f64, f64), colour: &str) {
        let ((x1, y1), (x2, y2)) = (from, to);
        self.put(format_args!(
            r#"<line x1="{x1:.1}" y1="{y1:.1}" x2="{x2:.1}" y2="{y2:.1}" stroke="{colour}"/>"#
        ));
    }

    fn legend(&mut self, timed: &[Candidate]) {
        let mut x = LEFT - 230.0;
        for (name, colour, _) in timed {
            self.put(format_args!(r#"<rect x="{x:.1}" y="40" width="12" height="12" fill="{colour}"/>"#));
            self.text(x + 18.0, 50.5, "start", 12, name);
            x += 165.0;
        }
        self.text(x, 50.5, "start", 12, "dashed: signed");
    }

    /// Direct runs: a line for each candidate and flag.
    fn lines(&mut self, rows: &[&Row], timed: &[Candidate]) {
        let highest = highest(rows, timed);
        let step = (WIDTH - LEFT - RIGHT) / 31.0;
        let bottom = LINES_TOP + LINES_HEIGHT;
        let y = |time: f64| bottom - time / highest * LINES_HEIGHT;
        for tick in ticks(highest) {
            self.line((LEFT, y(tick)), (WIDTH - RIGHT, y(tick)), "#e3e3e3");
            self.text(LEFT - 8.0, y(tick) + 4.0, "end", 11, &format!("{tick}"));
        }
        self.text(
            LEFT,
            LINES_TOP - 4.0,
            "start",
            11,
            "nanoseconds a row, direct runs of 512 rows, by width in bits",
        );
        for (k, bits) in model::WIDTHS.iter().enumerate() {
            self.text(LEFT + step * k as f64, bottom + 16.0, "middle", 10, &bits.to_string());
        }
        for (_, colour, time) in timed {
            for signed in [false, true] {
                let dash = if signed { r#" stroke-dasharray="5 4""# } else { "" };
                let rows = rows.iter().filter(|row| row.case.signed == signed);
                let path =
                    path(rows.map(|row| time(&row.times)), |k, time| (LEFT + step * k as f64, y(time)));
                self.put(format_args!(
                    r#"<path d="{path}" fill="none" stroke="{colour}" stroke-width="2"{dash}/>"#
                ));
            }
        }
    }

    /// Other runs: a bar for each candidate. Answers where it ends.
    fn bars(&mut self, top: f64, title: &str, rows: &[&Row], timed: &[Candidate]) -> f64 {
        let highest = highest(rows, timed);
        let x = |time: f64| LEFT + time / highest * (WIDTH - LEFT - RIGHT);
        let pitch = BAR * timed.len() as f64 + 8.0;
        let bottom = top + 10.0 + pitch * rows.len() as f64;
        self.text(LEFT, top, "start", 11, title);
        for tick in ticks(highest) {
            self.line((x(tick), top + 6.0), (x(tick), bottom), "#e3e3e3");
            self.text(x(tick), bottom + 14.0, "middle", 11, &format!("{tick}"));
        }
        for (k, row) in rows.iter().enumerate() {
            let from = top + 10.0 + pitch * k as f64;
            let flag = if row.case.signed { "signed" } else { "unsigned" };
            self.text(LEFT - 8.0, from + pitch / 2.0, "end", 11, &format!("{}, {flag}", row.case.name));
            for (bar, (_, colour, time)) in timed.iter().enumerate() {
                let Some(time) = time(&row.times) else { continue };
                self.put(format_args!(
                    r#"<rect x="{LEFT:.1}" y="{:.1}" width="{:.1}" height="{:.1}" fill="{colour}"/>"#,
                    from + BAR * bar as f64,
                    (x(time) - LEFT).max(1.0),
                    BAR - 1.0
                ));
            }
        }
        bottom + 50.0
    }
}

/// A line through the times, in the order of the widths. A width that was not timed is a hole in it.
fn path(times: impl Iterator<Item = Option<f64>>, point: impl Fn(usize, f64) -> (f64, f64)) -> String {
    let mut path = String::new();
    let mut pen = 'M';
    for (k, time) in times.enumerate() {
        let Some(time) = time else {
            pen = 'M';
            continue;
        };
        let (x, y) = point(k, time);
        write!(path, "{pen}{x:.1} {y:.1} ").expect("a string takes it");
        pen = 'L';
    }
    path.trim_end().into()
}

fn highest(rows: &[&Row], timed: &[Candidate]) -> f64 {
    let times = rows.iter().flat_map(|row| timed.iter().filter_map(|(_, _, time)| time(&row.times)));
    times.fold(0.1, f64::max) * 1.05
}

/// Round numbers up to the highest, at most eight.
fn ticks(highest: f64) -> Vec<f64> {
    let steps = [0.1, 0.2, 0.5, 1.0, 2.0, 5.0, 10.0, 20.0, 50.0, 100.0, 200.0, 500.0, 1000.0];
    let step = steps.into_iter().find(|step| highest / step <= 8.0).unwrap_or(highest);
    (0..=8).map(|k| (f64::from(k) * step * 10.0).round() / 10.0).filter(|tick| *tick <= highest).collect()
}

/// The whole plot.
pub fn svg(rows: &[Row]) -> String {
    let any = |candidate: &Candidate| rows.iter().any(|row| candidate.2(&row.times).is_some());
    let timed: Vec<Candidate> = CANDIDATES.into_iter().filter(any).collect();
    let of = |keep: fn(Group) -> bool| rows.iter().filter(|row| keep(row.case.group)).collect::<Vec<_>>();
    let mut plot = Plot(String::new());
    plot.text(LEFT, 24.0, "start", 16, "Reading integer runs: nanoseconds a row, less is better");
    plot.legend(&timed);
    plot.lines(&of(|group| matches!(group, Group::Direct(_))), &timed);
    let top = LINES_TOP + LINES_HEIGHT + 60.0;
    let long = of(|group| group == Group::Long);
    let top = plot.bars(top, "nanoseconds a row, other runs in long buffers", &long, &timed);
    let single = of(|group| group == Group::Single);
    let height = plot.bars(top, "nanoseconds a row, one short run by itself", &single, &timed);
    format!(
        "<svg xmlns=\"http://www.w3.org/2000/svg\" viewBox=\"0 0 {WIDTH} {height:.0}\" \
         font-family=\"sans-serif\">\n<rect width=\"100%\" height=\"100%\" fill=\"#fff\"/>\n{}</svg>\n",
        plot.0
    )
}
