//! SVG text, an element a line.
use std::fmt::Write;

pub struct Svg {
    text: String,
}

impl Svg {
    /// An empty picture, white, whose edges are crisp, with a hatching named `damage` of one colour.
    pub fn new(wide: f64, high: f64, damage: &str) -> Self {
        let text = format!(
            "<svg xmlns=\"http://www.w3.org/2000/svg\" width=\"{wide}\" height=\"{high}\" viewBox=\"0 0 {wide} \
             {high}\" font-family=\"DejaVu Sans, Helvetica, Arial, sans-serif\" font-size=\"12\" \
             fill=\"#222\" shape-rendering=\"crispEdges\">\n<defs><pattern id=\"damage\" width=\"8\" height=\"8\" \
             shape-rendering=\"auto\" patternUnits=\"userSpaceOnUse\" patternTransform=\"rotate(45)\"><rect width=\"8\" height=\"8\" \
             fill=\"{damage}\" fill-opacity=\"0.08\"/><rect width=\"2.5\" height=\"8\" fill=\"{damage}\" \
             fill-opacity=\"0.4\"/></pattern></defs>\n<rect width=\"{wide}\" height=\"{high}\" \
             fill=\"#fff\"/>\n"
        );
        Svg { text }
    }

    pub fn text(&mut self, x: f64, y: f64, style: &str, text: &str) {
        self.put(format_args!("<text x=\"{x}\" y=\"{y}\" {style}>{}</text>", escaped(text)));
    }

    pub fn line(&mut self, [x, y, to_x, to_y]: [f64; 4], style: &str) {
        self.put(format_args!("<line x1=\"{x}\" y1=\"{y}\" x2=\"{to_x}\" y2=\"{to_y}\" {style}/>"));
    }

    /// A bar: its first pixel, its top, how wide and how high it is, and what a pointer that
    /// rests on it is told.
    pub fn rect(&mut self, [x, y, wide, high]: [f64; 4], style: &str, about: Option<&str>) {
        let about = about.map_or(String::new(), |about| format!("<title>{}</title>", escaped(about)));
        self.put(format_args!(
            "<rect x=\"{x}\" y=\"{y}\" width=\"{wide}\" height=\"{high}\" {style}>{about}</rect>"
        ));
    }

    pub fn end(self) -> String {
        self.text + "</svg>\n"
    }

    fn put(&mut self, element: std::fmt::Arguments) {
        writeln!(self.text, "{element}").expect("a string takes it");
    }
}

fn escaped(text: &str) -> String {
    text.replace('&', "&amp;").replace('<', "&lt;").replace('>', "&gt;").replace('"', "&quot;")
}
