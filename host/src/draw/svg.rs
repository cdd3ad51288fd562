//! Lines and text of an SVG, without script or style sheet. The background is opaque, so that the colours are those
//! chosen here in a light and in a dark viewer.

use std::fmt::Write;

const PAPER: &str = "#fbfbf8";
const LOW_DBM: f64 = -124.0;
const HIGH_DBM: f64 = -80.0;

/// Where samples and levels stand in the picture.
pub struct Plot {
    pub left: f64,
    pub right: f64,
    pub top: f64,
    pub bottom: f64,
    from: f64,
    per_sample: f64,
}

impl Plot {
    /// Left and right, top and bottom, first and last sample.
    pub fn new((left, right): (f64, f64), (top, bottom): (f64, f64), (from, to): (f64, f64)) -> Self {
        Self {
            left,
            right,
            top,
            bottom,
            from,
            per_sample: (right - left) / (to - from),
        }
    }

    pub fn x(&self, sample: f64) -> f64 {
        self.left + (sample - self.from) * self.per_sample
    }

    pub fn sample(&self, x: f64) -> f64 {
        self.from + (x - self.left) / self.per_sample
    }

    pub fn y(&self, dbm: f64) -> f64 {
        self.top + (HIGH_DBM - dbm) / (HIGH_DBM - LOW_DBM) * (self.bottom - self.top)
    }
}

pub struct Svg(String);

impl Svg {
    pub fn new(width: f64, height: f64) -> Self {
        Self(format!(
            "<svg xmlns=\"http://www.w3.org/2000/svg\" viewBox=\"0 0 {width} {height}\" width=\"{width}\" height=\"{height}\" \
             font-family=\"DejaVu Sans, Verdana, Arial, sans-serif\">\n\
             <rect width=\"{width}\" height=\"{height}\" fill=\"{PAPER}\"/>\n"
        ))
    }

    pub fn done(mut self) -> String {
        self.add(format_args!("</svg>"));
        self.0
    }

    fn add(&mut self, text: std::fmt::Arguments) {
        writeln!(self.0, "{text}").expect("a string takes text");
    }

    /// `dash` is empty for a whole line.
    pub fn line(&mut self, a: (f64, f64), b: (f64, f64), colour: &str, width: f64, dash: &str) {
        let dash = if dash.is_empty() {
            String::new()
        } else {
            format!(" stroke-dasharray=\"{dash}\"")
        };
        self.add(format_args!(
            "<line x1=\"{:.1}\" y1=\"{:.1}\" x2=\"{:.1}\" y2=\"{:.1}\" stroke=\"{colour}\" stroke-width=\"{width}\"{dash}/>",
            a.0, a.1, b.0, b.1
        ));
    }

    pub fn polyline(&mut self, points: &[(f64, f64)], colour: &str) {
        let points: Vec<String> = points.iter().map(|(x, y)| format!("{x:.1},{y:.1}")).collect();
        self.add(format_args!(
            "<polyline fill=\"none\" stroke=\"{colour}\" stroke-width=\"1.2\" points=\"{}\"/>",
            points.join(" ")
        ));
    }

    pub fn circle(&mut self, (x, y): (f64, f64), colour: &str) {
        self.add(format_args!(
            "<circle cx=\"{x:.1}\" cy=\"{y:.1}\" r=\"3\" fill=\"none\" stroke=\"{colour}\" stroke-width=\"1.5\"/>"
        ));
    }

    pub fn frame(&mut self, p: &Plot, colour: &str) {
        self.line((p.left, p.top), (p.left, p.bottom), colour, 1.0, "");
        self.line((p.left, p.bottom), (p.right, p.bottom), colour, 1.0, "");
    }

    pub fn band(&mut self, (left, top): (f64, f64), (right, bottom): (f64, f64), colour: &str) {
        self.add(format_args!(
            "<rect x=\"{left:.1}\" y=\"{top:.1}\" width=\"{:.1}\" height=\"{:.1}\" fill=\"{colour}\"/>",
            right - left,
            bottom - top
        ));
    }

    /// `anchor` is start, middle or end.
    pub fn text(&mut self, x: f64, y: f64, size: f64, colour: &str, anchor: &str, text: &str) {
        self.add(format_args!(
            "<text x=\"{x:.1}\" y=\"{y:.1}\" font-size=\"{size}\" fill=\"{colour}\" text-anchor=\"{anchor}\">{text}</text>"
        ));
    }
}
