//! bench.svg, from the results: plain SVG with its own background, light or dark as the reader's system asks.
use crate::report::{commas, cost, KINDS};
use crate::results::Results;
use crate::shapes::{Shape, GROWING, LENGTHS, SLOW};
use std::fmt::Write;

const WIDTH: f64 = 940.0;
const LEFT: f64 = 400.0;
const RIGHT: f64 = 870.0;
/// The readers with their names on the page. Each has a colour and a shape of its own.
const READERS: [(&str, &str); 4] = [("rust", "the Rust"), ("rust-lto", "with LTO"), ("loose", "ours, loose"), ("strict", "ours, strict")];
const STYLE: &str = "text{font:13px sans-serif;fill:#24292f}.h{font-weight:bold;font-size:15px}.n{font-size:12px}.t{font-size:12px;font-style:italic}.bg{fill:#ffffff;stroke:#d0d7de}\
.axis{stroke:#8c959f}.grid{stroke:#e4e8ec}.rust{fill:#bc4c00;stroke:#bc4c00}.rust-lto{fill:#ffffff;stroke:#bc4c00}.loose{fill:#0969da;stroke:#0969da}.strict{fill:#1a7f37;stroke:#1a7f37}\
.open{fill:#ffffff}polyline,polyline.rust,polyline.loose,polyline.strict{fill:none;stroke-width:2}\
@media(prefers-color-scheme:dark){text{fill:#e6edf3}.bg{fill:#0d1117;stroke:#30363d}.axis{stroke:#8b949e}.grid{stroke:#21262d}\
.rust{fill:#f0883e;stroke:#f0883e}.rust-lto{fill:#0d1117;stroke:#f0883e}.loose{fill:#58a6ff;stroke:#58a6ff}.strict{fill:#3fb950;stroke:#3fb950}.open{fill:#0d1117}}";

struct Svg(String);

impl Svg {
    fn add(&mut self, element: std::fmt::Arguments) {
        self.0.write_fmt(element).expect("a String takes all");
        self.0.push('\n');
    }

    fn text(&mut self, class: &str, x: f64, y: f64, anchor: &str, text: &str) {
        let text = text.replace('&', "&amp;").replace('<', "&lt;").replace('`', "");
        self.add(format_args!("<text class=\"{class}\" x=\"{x:.1}\" y=\"{y:.1}\" text-anchor=\"{anchor}\">{text}</text>"));
    }

    /// The title of an axis that goes up.
    fn upright(&mut self, x: f64, y: f64, text: &str) {
        self.add(format_args!("<text class=\"t\" x=\"{x:.1}\" y=\"{y:.1}\" text-anchor=\"middle\" transform=\"rotate(-90 {x:.1} {y:.1})\">{text}</text>"));
    }

    fn line(&mut self, class: &str, from: (f64, f64), to: (f64, f64)) {
        self.add(format_args!("<line class=\"{class}\" x1=\"{:.1}\" y1=\"{:.1}\" x2=\"{:.1}\" y2=\"{:.1}\"/>", from.0, from.1, to.0, to.1));
    }

    fn bar(&mut self, class: &str, y: f64, width: f64) {
        self.add(format_args!("<rect class=\"{class}\" x=\"{LEFT}\" y=\"{y:.1}\" width=\"{width:.1}\" height=\"13\"/>"));
    }

    /// A mark: a circle for the Rust, a square for ours that is loose, a triangle for the strict one. `open` is its look where two lengths are told apart.
    fn mark(&mut self, reader: &str, open: &str, (x, y): (f64, f64)) {
        match reader {
            "rust" => self.add(format_args!("<circle class=\"rust{open}\" cx=\"{x:.1}\" cy=\"{y:.1}\" r=\"4\"/>")),
            "loose" => self.add(format_args!("<rect class=\"loose{open}\" x=\"{:.1}\" y=\"{:.1}\" width=\"7.4\" height=\"7.4\"/>", x - 3.7, y - 3.7)),
            _ => self.add(format_args!("<polygon class=\"strict{open}\" points=\"{x:.1},{:.1} {:.1},{:.1} {:.1},{:.1}\"/>", y - 5.0, x - 4.8, y + 3.6, x + 4.8, y + 3.6)),
        }
    }
}

/// A logarithmic axis, from `low` at `from` to `high` at `to`.
struct Axis {
    low: f64,
    high: f64,
    from: f64,
    to: f64,
}

impl Axis {
    fn at(&self, value: f64) -> f64 {
        self.from + (self.to - self.from) * (value / self.low).ln() / (self.high / self.low).ln()
    }

    /// The powers of ten on it.
    fn tens(&self) -> Vec<f64> {
        (-1..12).map(|i| 10f64.powi(i)).filter(|t| self.low <= *t && *t <= self.high).collect()
    }
}

fn tick(ten: f64) -> String {
    if ten < 1.0 { ten.to_string() } else { commas(ten) }
}

/// The marks and the names of the readers that a part shows.
fn legend(svg: &mut Svg, y: f64, shown: &[&str]) {
    for (i, (reader, name)) in READERS.iter().filter(|r| shown.contains(&r.0)).enumerate() {
        let x = LEFT + 120.0 * i as f64;
        svg.mark(reader, "", (x + 5.0, y - 4.0));
        svg.text("", x + 17.0, y, "start", name);
    }
}

/// Bars of one measure, a group for each kind of lines, from 0 on.
fn bars(svg: &mut Svg, title: &str, axis: &str, of: impl Fn(&str, &str) -> Option<f64>, top: f64) -> f64 {
    svg.text("h", 20.0, top, "start", title);
    let values = || KINDS.iter().flat_map(|(kind, _)| READERS.iter().filter_map(|(reader, _)| of(kind, reader)));
    let most = values().fold(1f64, f64::max);
    let mut y = top + 20.0;
    for (kind, name) in KINDS {
        svg.text("", 20.0, y + 12.0, "start", name);
        for (reader, words) in READERS {
            let Some(n) = of(kind, reader) else { continue };
            let width = (RIGHT - LEFT) * n / most;
            svg.text("n", LEFT - 10.0, y + 11.0, "end", words);
            svg.bar(reader, y, width);
            svg.text("n", LEFT + width + 6.0, y + 11.0, "start", &commas(n));
            y += 17.0;
        }
        y += 9.0;
    }
    svg.line("axis", (LEFT, top + 14.0), (LEFT, y - 6.0));
    svg.text("t", LEFT, y + 8.0, "start", axis);
    y + 18.0
}

/// One field of the middle part: cost a byte against length for one shape.
fn field(svg: &mut Svg, results: &Results, shape: &Shape, left: f64, y: &Axis) {
    let x = Axis { low: LENGTHS[0] as f64, high: LENGTHS[2] as f64, from: left, to: left + 200.0 };
    svg.text("", left + 100.0, y.to - 12.0, "middle", shape.what);
    for ten in y.tens() {
        svg.line("grid", (x.from, y.at(ten)), (x.to, y.at(ten)));
        svg.text("n", left - 6.0, y.at(ten) + 4.0, "end", &tick(ten));
    }
    svg.line("axis", (x.from, y.from), (x.to, y.from));
    svg.line("axis", (x.from, y.from), (x.from, y.to));
    for bytes in LENGTHS {
        svg.text("n", x.at(bytes as f64), y.from + 17.0, "middle", &commas(bytes as f64));
    }
    svg.text("t", left + 100.0, y.from + 34.0, "middle", "bytes of the line, logarithmic");
    svg.upright(left - 36.0, (y.from + y.to) / 2.0, "instructions a byte, logarithmic");
    for (reader, _) in READERS {
        let costs: Result<Vec<f64>, String> = LENGTHS.iter().map(|b| results.a_byte(shape.name, *b, reader)).collect();
        let Ok(costs) = costs else { continue };
        let points: Vec<(f64, f64)> = LENGTHS.iter().zip(costs).map(|(b, c)| (x.at(*b as f64), y.at(c))).collect();
        let path: Vec<String> = points.iter().map(|p| format!("{:.1},{:.1}", p.0, p.1)).collect();
        svg.add(format_args!("<polyline class=\"{reader}\" points=\"{}\"/>", path.join(" ")));
        points.iter().for_each(|p| svg.mark(reader, "", *p));
    }
}

fn fields(svg: &mut Svg, results: &Results, top: f64) -> f64 {
    svg.text("h", 20.0, top, "start", "Instructions a byte, by the line's length");
    legend(svg, top, &["rust", "loose", "strict"]);
    let y = Axis { low: 0.1, high: 100.0, from: top + 230.0, to: top + 50.0 };
    for (i, shape) in GROWING.iter().enumerate() {
        field(svg, results, shape, 80.0 + 300.0 * i as f64, &y);
    }
    y.from + 50.0
}

/// One slow line: for each reader the cost a byte at 1,024 bytes (open) and at 8,192 (full).
fn pair(svg: &mut Svg, results: &Results, shape: &Shape, y: f64, x: &Axis) -> Result<(), String> {
    svg.text("n", LEFT - 10.0, y + 4.0, "end", shape.what);
    svg.line("grid", (x.from, y), (x.to, y));
    for (reader, up) in [("rust", -4.5), ("loose", 4.5)] {
        let (a, b) = (results.a_byte(shape.name, LENGTHS[1], reader)?, results.a_byte(shape.name, LENGTHS[2], reader)?);
        svg.line(reader, (x.at(a), y + up), (x.at(b), y + up));
        svg.mark(reader, " open", (x.at(a), y + up));
        svg.mark(reader, "", (x.at(b), y + up));
        if b > 100.0 {
            svg.text("n", x.at(b) + 8.0, y + up + 4.0, "start", &cost(b));
        }
    }
    Ok(())
}

fn pairs(svg: &mut Svg, results: &Results, top: f64) -> Result<f64, String> {
    svg.text("h", 20.0, top, "start", "Lines made to be slow: at 1,024 bytes (open) and at 8,192 (full)");
    legend(svg, top + 22.0, &["rust", "loose"]);
    let mut most = 10f64;
    for row in SLOW.iter().flat_map(|s| LENGTHS[1..].iter().map(move |b| (s, b))) {
        most = most.max(results.a_byte(row.0.name, *row.1, "rust")?).max(results.a_byte(row.0.name, *row.1, "loose")?);
    }
    let x = Axis { low: 0.1, high: most, from: LEFT, to: RIGHT };
    let first = top + 50.0;
    let bottom = first - 6.0 + 24.0 * SLOW.len() as f64;
    for ten in x.tens() {
        svg.line("grid", (x.at(ten), first - 16.0), (x.at(ten), bottom));
        svg.text("n", x.at(ten), bottom + 17.0, "middle", &tick(ten));
    }
    svg.line("axis", (x.from, bottom), (x.to, bottom));
    svg.text("t", (x.from + x.to) / 2.0, bottom + 34.0, "middle", "instructions a byte, logarithmic");
    for (i, shape) in SLOW.iter().enumerate() {
        pair(svg, results, shape, first + 24.0 * i as f64, &x)?;
    }
    Ok(bottom + 50.0)
}

/// The bars of the measures of gate lines: instructions, and nanoseconds if there are some.
fn gate_lines(svg: &mut Svg, results: &Results) -> f64 {
    let y = bars(svg, "Instructions a line", "instructions a line, from 0", |kind, reader| results.a_line(kind, reader).ok(), 32.0);
    let Ok(native) = results.words(&["about", "native"]) else { return y };
    let nanos = |kind: &str, reader: &str| results.number(&["nanos", kind, reader], 0).ok();
    bars(svg, "Nanoseconds a line", &format!("nanoseconds a line, from 0, on {native}"), nanos, y + 25.0)
}

pub fn picture(results: &Results) -> Result<String, String> {
    let mut svg = Svg(String::new());
    let a = gate_lines(&mut svg, results);
    let b = fields(&mut svg, results, a + 25.0);
    let height = pairs(&mut svg, results, b + 25.0)?;
    Ok(format!(
        "<svg xmlns=\"http://www.w3.org/2000/svg\" viewBox=\"0 0 {WIDTH} {height}\" width=\"{WIDTH}\" height=\"{height}\" role=\"img\" aria-label=\"Instructions of the Rust and of ours\">\n\
         <style>{STYLE}</style>\n<rect class=\"bg\" x=\"0.5\" y=\"0.5\" width=\"{}\" height=\"{}\" rx=\"6\"/>\n{}</svg>\n",
        WIDTH - 1.0,
        height - 1.0,
        svg.0
    ))
}
