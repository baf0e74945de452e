//! The picture: along the file, a lane for each kind, a bar as high as its values are wide for each run, and the
//! damage. Bars begin and end at whole pixels, so that nothing is half shown.
use menakovitsy::Refused;

use super::strip::{Share, Shares, Strip, LANES};
use super::End;
use crate::numbers::{many_separated, separated};
use crate::stream::{RunKind, Stream};
use crate::walk::RunInfo;
use svg::Svg;

mod svg;

/// A colour for each kind, which also eyes that see few colours tell apart; and the damage's.
const COLOURS: [&str; LANES] = ["#e69f00", "#0072b2", "#009e73", "#a05195"];
const DAMAGE: &str = "#c62828";

// All in pixels. A lane is 64 high: a pixel for each bit.
const WIDE: f64 = 1080.0;
const LEFT: f64 = 180.0;
const RIGHT: f64 = 1060.0;
const TOP: f64 = 92.0;
const LANE: f64 = 64.0;
const BETWEEN: f64 = 26.0;
/// How wide the file is.
const PIXELS: usize = (RIGHT - LEFT) as usize;
/// The bar of a run whose values have no bits, and the least width of what is shown.
const LEAST: f64 = 3.0;
/// A run's width is written above its bar if there is room for it.
const ROOM: f64 = 13.0;

/// A bin has this many runs on the average, or more.
const RUNS_A_BIN: f64 = 12.0;

/// Of many runs, a bar goes on as long as its mean width and its part of the bytes stay this near: what differs
/// less is where runs begin and end, and nothing about the file.
const SAME_BITS: f64 = 1.0;
const SAME_PART: f64 = 0.05;

const GREY: &str = "font-size=\"11\" fill=\"#555\"";
const SMALL: &str = "font-size=\"10\" fill=\"#777\" text-anchor=\"end\"";

/// What there is to draw.
pub struct Picture<'a> {
    pub name: &'a str,
    pub strip: &'a Strip,
    pub stream: Stream,
    pub end: &'a End<'a>,
}

/// A bar of many runs: its first pixel, what stands in it and in all that stands there.
struct Bar {
    from: usize,
    share: Share,
    all: f64,
}

impl Bar {
    fn part(&self) -> f64 {
        self.share.bytes / self.all
    }

    /// Whether another bin is like these.
    fn is_like(&self, share: Share, all: f64) -> bool {
        (share.mean() - self.share.mean()).abs() < SAME_BITS
            && (share.bytes / all - self.part()).abs() < SAME_PART
    }
}

impl Picture<'_> {
    pub fn svg(&self) -> String {
        let end = self.bottom(self.kinds().len() - 1);
        let mut svg = Svg::new(WIDE, end + 56.0, DAMAGE);
        self.title(&mut svg);
        self.lanes(&mut svg);
        match self.strip.few() {
            Some(runs) => runs.iter().for_each(|run| self.run(&mut svg, run)),
            None => self.bars(&mut svg),
        }
        self.axis(&mut svg, end);
        if let Some(trouble) = &self.end.trouble {
            self.damage(&mut svg, &trouble.refused, end);
        }
        svg.end()
    }

    fn kinds(&self) -> &'static [RunKind] {
        self.stream.kinds()
    }

    /// The bottom of a lane.
    fn bottom(&self, lane: usize) -> f64 {
        TOP + LANE + lane as f64 * (LANE + BETWEEN)
    }

    /// The pixel that a byte stands at.
    fn x(&self, byte: u64) -> f64 {
        (LEFT + (RIGHT - LEFT) * (byte as f64 / self.end.length.max(1) as f64)).round()
    }

    /// How high values of a width are shown. Byte runs have but one width, and fill their lane.
    fn high(&self, bits: f64) -> f64 {
        match self.stream {
            Stream::Integers(_) => bits.round().clamp(LEAST, LANE),
            _ => LANE,
        }
    }

    fn title(&self, svg: &mut Svg) {
        let all = self.end.walked.all;
        let end = match &self.end.trouble {
            None => "read whole".into(),
            Some(trouble) => format!("breaks off at byte {}", separated(trouble.before.bytes)),
        };
        svg.text(16.0, 28.0, "font-size=\"16\" font-weight=\"bold\"", self.name);
        let about = format!(
            "{}; {}, {}; {end}",
            many_separated(self.end.length, "byte"),
            many_separated(all.runs, "run"),
            many_separated(all.rows, "row")
        );
        svg.text(16.0, 48.0, "fill=\"#555\"", &about);
    }

    /// Each lane with its name, its counts, a line at 0 bits and one at 64.
    fn lanes(&self, svg: &mut Svg) {
        for (lane, kind) in self.kinds().iter().enumerate() {
            let (low, high) = (self.bottom(lane), self.bottom(lane) - LANE);
            let count = self.end.summary.of(*kind);
            svg.rect([16.0, high + 2.0, 12.0, 12.0], &format!("fill=\"{}\"", COLOURS[lane]), None);
            svg.text(34.0, high + 12.0, "font-weight=\"bold\"", kind.name());
            let counts = [(count.runs, "run"), (count.rows, "row"), (count.bytes, "byte")];
            for (line, (number, what)) in counts.into_iter().enumerate() {
                svg.text(34.0, high + 28.0 + 14.0 * line as f64, GREY, &many_separated(number, what));
            }
            for (y, bits, dash) in [(low, "0", ""), (high, "64", " stroke-dasharray=\"2 4\"")] {
                svg.line([LEFT, y, RIGHT, y], &format!("stroke=\"#bbb\"{dash}"));
                if let Stream::Integers(_) = self.stream {
                    svg.text(LEFT - 6.0, y + 3.5, SMALL, bits);
                }
            }
        }
        if let Stream::Integers(_) = self.stream {
            svg.text(LEFT - 6.0, self.bottom(0) - LANE - 9.0, SMALL, "bits");
        }
    }

    /// A run: its bar, its width above it, and all that is known of it for a pointer that rests on it.
    fn run(&self, svg: &mut Svg, run: &RunInfo) {
        let Some(lane) = self.strip.lane(run.kind) else { return };
        let (from, to) = (self.x(run.at), self.x(run.at + run.bytes));
        let high = self.high(run.bits as f64);
        let [at, first, rows, bytes] = [run.at, run.first, run.rows, run.bytes].map(separated);
        let about =
            format!("byte {at}, row {first}: {}, {} bits, {rows} rows, {bytes} bytes", run.kind, run.bits);
        // Runs that touch each other stay two.
        let between = if to - from > 4.0 { 1.0 } else { 0.0 };
        let wide = (to - from - between).max(1.0);
        let top = self.bottom(lane) - high;
        svg.rect([from, top, wide, high], &format!("fill=\"{}\"", COLOURS[lane]), Some(&about));
        if wide >= ROOM {
            let style = "font-size=\"10\" text-anchor=\"middle\" fill=\"#444\"";
            svg.text(from + wide / 2.0, top - 3.0, style, &run.bits.to_string());
        }
    }

    /// Many runs: for each bin and each kind how wide the kind's values are there on the average, and how large its
    /// part of the bytes is. Bins that are alike are one bar.
    fn bars(&self, svg: &mut Svg) {
        let each = self.end.length as f64 / PIXELS as f64;
        let edges: Vec<usize> = (0..=self.bins()).map(|bin| bin * PIXELS / self.bins()).collect();
        let bin =
            |edges: &[usize]| (edges[0], self.strip.between(edges[0] as f64 * each, edges[1] as f64 * each));
        let bins: Vec<(usize, Shares)> = edges.windows(2).map(bin).collect();
        for lane in 0..self.kinds().len() {
            let mut bar: Option<Bar> = None;
            for (from, shares) in &bins {
                let (share, all) = (shares[lane], shares.iter().map(|share| share.bytes).sum());
                match &mut bar {
                    Some(bar) if share.bytes > 0.0 && bar.is_like(share, all) => {
                        bar.share.add(share, 1.0);
                        bar.all += all;
                    }
                    _ => {
                        self.bar(svg, lane, bar.take(), *from);
                        bar = (share.bytes > 0.0).then_some(Bar { from: *from, share, all });
                    }
                }
            }
            self.bar(svg, lane, bar, PIXELS);
        }
        let about = "a bar: the mean width, darker if the kind has more of the bytes there";
        svg.text(RIGHT, 48.0, &format!("{GREY} text-anchor=\"end\""), about);
    }

    /// How many bins there are, each of whole pixels: as many as have a number of runs on the average. In a bin of
    /// one or two runs it would be chance how much of each kind it has.
    fn bins(&self) -> usize {
        let shown = self.end.walked.all.without(self.end.walked.passed);
        let part = shown.bytes as f64 / self.end.length.max(1) as f64;
        let bins = shown.runs as f64 / part.max(f64::MIN_POSITIVE) / RUNS_A_BIN;
        (bins as usize).clamp(1, PIXELS)
    }

    /// Draws a bar, up to a pixel.
    fn bar(&self, svg: &mut Svg, lane: usize, bar: Option<Bar>, to: usize) {
        let Some(bar) = bar else { return };
        let high = self.high(bar.share.mean());
        let dark = 0.35 + 0.65 * bar.part();
        let style = format!("fill=\"{}\" fill-opacity=\"{dark:.2}\"", COLOURS[lane]);
        let (from, wide) = (LEFT + bar.from as f64, (to - bar.from) as f64);
        svg.rect([from, self.bottom(lane) - high, wide, high], &style, None);
    }

    fn axis(&self, svg: &mut Svg, y: f64) {
        let all = self.end.length;
        for byte in (0..=all).step_by(step(all) as usize) {
            let x = self.x(byte);
            svg.line([x, y, x, y + 5.0], "stroke=\"#777\"");
            // The last may stand at the picture's edge.
            let anchor = if x > RIGHT - 30.0 { "end" } else { "middle" };
            svg.text(x, y + 18.0, &format!("{GREY} text-anchor=\"{anchor}\""), &separated(byte));
        }
        svg.text(34.0, y + 18.0, GREY, "byte of the file");
    }

    /// From the refused run to the file's end; and where the cut field begins.
    fn damage(&self, svg: &mut Svg, refused: &Refused, end: f64) {
        let from = self.x(self.end.walked.all.bytes).min(RIGHT - 2.0 * LEAST);
        let top = TOP - 8.0;
        svg.rect([from, top, RIGHT - from, end - top], "fill=\"url(#damage)\"", Some(&refused.to_string()));
        svg.line([from, top, from, end], &format!("stroke=\"{DAMAGE}\" stroke-width=\"2\""));
        let label = |svg: &mut Svg, x: f64, y: f64, what: &str| {
            let (anchor, x) = if x > (LEFT + RIGHT) / 2.0 { ("end", x - 4.0) } else { ("start", x + 4.0) };
            let style = format!("fill=\"{DAMAGE}\" font-weight=\"bold\" text-anchor=\"{anchor}\"");
            svg.text(x, y, &style, what);
        };
        let (number, at) = (refused.refusal.number(), separated(self.end.walked.all.bytes));
        label(svg, from, top + 4.0, &format!("refusal {number} at byte {at}"));
        if let Some(byte) = refused.cut {
            let x = self.x((byte.0 as u64).min(self.end.length)).clamp(from, RIGHT);
            let style = format!("stroke=\"{DAMAGE}\" stroke-width=\"1.5\" stroke-dasharray=\"5 3\"");
            svg.line([x, top, x, end + 26.0], &style);
            let field = refused.refusal.cut_field().unwrap_or("field");
            let at = separated(byte.0 as u64);
            label(svg, x, end + 36.0, &format!("the {field} that begins at byte {at} is cut"));
        }
    }
}

/// A round number of bytes, about a tenth of all; of a very long file a fifth, since its numbers are long.
fn step(all: u64) -> u64 {
    let part = if all < 1_000_000_000 { all / 10 } else { all / 5 };
    let mut step = 1;
    loop {
        for times in [1, 2, 5] {
            if part <= step * times {
                return step * times;
            }
        }
        step *= 10;
    }
}
