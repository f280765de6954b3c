//! The time against n as a drawing: one panel for each family, both scales logarithmic.

use std::fmt::Write;

use sighting::PLACES;

use crate::measure::Pass;

const WIDTH: f64 = 380.0;
const HEIGHT: f64 = 262.0;
const LEFT: f64 = 64.0;
const TOP: f64 = 34.0;
const RIGHT: f64 = 12.0;
const BOTTOM: f64 = 48.0;

/// A contender's name, its stroke and its time.
type Line = (&'static str, &'static str, fn(&Pass) -> Option<f64>);

const LINES: [Line; 4] = [
    ("library, one pass", r##"stroke="#0b5fa5" stroke-width="2.5""##, |p| Some(p.library)),
    ("plain Rust, same engine", r##"stroke="#222" stroke-width="1.5" stroke-dasharray="2 4""##, |p| Some(p.plain)),
    ("library, n + 1 filterings", r##"stroke="#c0392b" stroke-width="2""##, |p| Some(p.separate)),
    ("Gecode, n + 1 clones", r##"stroke="#2e8b57" stroke-width="2""##, |p| p.gecode),
];

/// The range of times in a panel, as powers of ten.
fn decades(passes: &[Pass]) -> (i32, i32) {
    let times = passes.iter().flat_map(|p| LINES.iter().filter_map(|line| line.2(p)));
    let (low, high) = times.fold((f64::MAX, f64::MIN), |(low, high), t| (low.min(t), high.max(t)));
    (low.log10().floor() as i32, high.log10().ceil() as i32)
}

struct Panel {
    low: i32,
    high: i32,
}

impl Panel {
    /// All panels have the same scale, up to the most answers of any.
    fn x(&self, n: usize) -> f64 {
        LEFT + (n as f64).log2() / (PLACES as f64).log2() * (WIDTH - LEFT - RIGHT)
    }

    fn y(&self, microseconds: f64) -> f64 {
        let part = (microseconds.log10() - self.low as f64) / (self.high - self.low).max(1) as f64;
        HEIGHT - BOTTOM - part * (HEIGHT - TOP - BOTTOM)
    }

    fn grid(&self, svg: &mut String, passes: &[Pass]) -> std::fmt::Result {
        for power in self.low..=self.high {
            let (y, label) = (self.y(10f64.powi(power)), 10f64.powi(power));
            writeln!(svg, r##"<line x1="{LEFT}" y1="{y:.1}" x2="{:.1}" y2="{y:.1}" stroke="#ddd"/>"##, WIDTH - RIGHT)?;
            writeln!(svg, r#"<text x="{:.1}" y="{:.1}" text-anchor="end">{label} µs</text>"#, LEFT - 4.0, y + 4.0)?;
        }
        for pass in passes {
            let (x, y) = (self.x(pass.n), HEIGHT - BOTTOM + 16.0);
            writeln!(svg, r#"<text x="{x:.1}" y="{y:.1}" text-anchor="middle">{}</text>"#, pass.n)?;
        }
        let (x, y) = ((LEFT + WIDTH - RIGHT) / 2.0, HEIGHT - BOTTOM + 30.0);
        writeln!(svg, r#"<text x="{x:.1}" y="{y:.1}" text-anchor="middle">answers n</text>"#)
    }

    fn line(&self, svg: &mut String, passes: &[Pass], line: &Line) -> std::fmt::Result {
        let points = passes.iter().filter_map(|p| line.2(p).map(|t| (self.x(p.n), self.y(t))));
        let points: Vec<String> = points.map(|(x, y)| format!("{x:.1},{y:.1}")).collect();
        if points.is_empty() {
            return Ok(());
        }
        writeln!(svg, r#"<polyline points="{}" fill="none" {}/>"#, points.join(" "), line.1)
    }
}

fn panel(svg: &mut String, title: &str, passes: &[Pass]) -> std::fmt::Result {
    let (low, high) = decades(passes);
    let panel = Panel { low, high };
    writeln!(svg, r#"<text x="{LEFT}" y="20" font-weight="bold">{title}</text>"#)?;
    panel.grid(svg, passes)?;
    LINES.iter().try_for_each(|line| panel.line(svg, passes, line))
}

fn legend(svg: &mut String, y: f64) -> std::fmt::Result {
    for (i, (name, stroke, _)) in LINES.iter().enumerate() {
        let x = LEFT + i as f64 * 175.0;
        writeln!(svg, r#"<line x1="{x}" y1="{y}" x2="{}" y2="{y}" {stroke}/>"#, x + 20.0)?;
        writeln!(svg, r#"<text x="{}" y="{}">{name}</text>"#, x + 25.0, y + 4.0)?;
    }
    Ok(())
}

/// The drawing for these families and their times.
pub fn svg(families: &[(String, Vec<Pass>)]) -> Result<String, std::fmt::Error> {
    let (width, height) = (2.0 * WIDTH, HEIGHT * families.len().div_ceil(2) as f64 + 30.0);
    let mut svg = format!(
        "<svg xmlns=\"http://www.w3.org/2000/svg\" viewBox=\"0 0 {width} {height}\" font-family=\"sans-serif\" font-size=\"11\">\n"
    );
    writeln!(svg, "<title>Time of all alternatives against the number of answers n</title>")?;
    writeln!(svg, r#"<rect width="{width}" height="{height}" fill="white"/>"#)?;
    for (i, (title, passes)) in families.iter().enumerate() {
        let (x, y) = ((i % 2) as f64 * WIDTH, (i / 2) as f64 * HEIGHT);
        writeln!(svg, r#"<g transform="translate({x} {y})">"#)?;
        panel(&mut svg, title, passes)?;
        writeln!(svg, "</g>")?;
    }
    legend(&mut svg, height - 16.0)?;
    svg += "</svg>\n";
    Ok(svg)
}
