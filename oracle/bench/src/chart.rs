//! The chart: time for a call against the number pooled.

use crate::calls::Both;
use crate::table::said;

/// A call's times at each number pooled.
pub struct Line {
    pub name: String,
    pub points: [(usize, Both); 3],
}

impl Line {
    /// How many times as long the call takes among 4,000 as among 1,000.
    pub fn growing(&self) -> String {
        let [_, (_, some), (_, most)] = self.points;
        let (port, rust) = (most.port / some.port, most.rust / some.rust);
        format!("growth from 1,000 to 4,000 pooled, {}: port {port:.2} (to reach 2), rust {rust:.2}", self.name)
    }
}

// A panel for each line, two beside one another, in points.
const WIDTH: f64 = 390.0;
const HEIGHT: f64 = 260.0;
const LEFT: f64 = 62.0;
const RIGHT: f64 = 104.0;
const TOP: f64 = 40.0;
const BOTTOM: f64 = 44.0;
/// Above the panels: what the lines mean.
const HEAD: f64 = 46.0;

/// A panel's place and the decades that its axis shows.
struct Panel {
    x: f64,
    y: f64,
    low: i32,
    high: i32,
}

impl Panel {
    fn of(line: &Line, place: usize) -> Panel {
        let all = line.points.iter().flat_map(|(_, t)| [t.rust, t.port]);
        let (low, high) = all.fold((f64::MAX, 0f64), |(low, high), t| (low.min(t), high.max(t)));
        let (low, high) = (low.log10().floor() as i32, high.log10().ceil() as i32);
        let (column, row) = ((place % 2) as f64, (place / 2) as f64);
        Panel { x: column * WIDTH, y: HEAD + row * HEIGHT, low, high: high.max(low + 1) }
    }

    /// Where a number pooled stands: by its logarithm, from 100 to 4,000.
    fn across(&self, pooled: usize) -> f64 {
        let part = (pooled as f64 / 100.0).ln() / 40f64.ln();
        self.x + LEFT + part * (WIDTH - LEFT - RIGHT)
    }

    /// Where a time stands: by its logarithm.
    fn down(&self, ns: f64) -> f64 {
        let part = (ns.log10() - f64::from(self.low)) / f64::from(self.high - self.low);
        self.y + HEIGHT - BOTTOM - part * (HEIGHT - TOP - BOTTOM)
    }

    fn title(&self, name: &str) -> String {
        text(self.x + LEFT, self.y + TOP - 14.0, "start", "bold", name)
    }

    /// The decades as lines with their times, and the numbers pooled.
    fn axes(&self) -> String {
        let (left, right) = (self.across(100), self.across(4_000));
        let mut svg = String::new();
        for decade in self.low..=self.high {
            let ns = 10f64.powi(decade);
            let y = self.down(ns);
            svg += &format!("<path d=\"M{left:.1} {y:.1}H{right:.1}\" stroke=\"#bbb\" stroke-width=\"0.7\"/>\n");
            svg += &text(left - 8.0, y + 4.0, "end", "normal", &decade_name(decade));
        }
        let foot = self.down(10f64.powi(self.low));
        for (pooled, name) in [(100, "100"), (1_000, "1,000"), (4_000, "4,000")] {
            let x = self.across(pooled);
            svg += &format!("<path d=\"M{x:.1} {foot:.1}v5\" stroke=\"#000\" stroke-width=\"0.7\"/>\n");
            svg += &text(x, foot + 17.0, "middle", "normal", name);
        }
        svg + &text((left + right) / 2.0, foot + 32.0, "middle", "normal", "pooled")
    }

    /// One side: the port's line is whole, with full circles; the Rust's is dashed, with empty squares.
    fn side(&self, points: &[(usize, f64)], port: bool) -> String {
        let places: Vec<(f64, f64)> = points.iter().map(|&(pooled, ns)| (self.across(pooled), self.down(ns))).collect();
        let path: Vec<String> = places.iter().map(|(x, y)| format!("{x:.1} {y:.1}")).collect();
        let dashes = if port { "" } else { " stroke-dasharray=\"7 4\"" };
        let mut svg = format!("<path d=\"M{}\" fill=\"none\" stroke=\"#000\" stroke-width=\"1.6\"{dashes}/>\n", path.join("L"));
        for (x, y) in places {
            svg += &mark(x, y, port);
        }
        svg
    }

    /// The last times, beside their points, apart from one another.
    fn labels(&self, last: Both) -> String {
        let (mut port, mut rust) = (self.down(last.port), self.down(last.rust));
        let apart = 15.0 - (port - rust).abs();
        if apart > 0.0 {
            let below = if port > rust { &mut port } else { &mut rust };
            *below += apart / 2.0;
            let above = if port > rust { &mut rust } else { &mut port };
            *above -= apart / 2.0;
        }
        let x = self.across(4_000) + 10.0;
        text(x, port + 4.0, "start", "bold", &format!("port {}", said(last.port)))
            + &text(x, rust + 4.0, "start", "normal", &format!("Rust {}", said(last.rust)))
    }
}

fn mark(x: f64, y: f64, port: bool) -> String {
    if port {
        format!("<circle cx=\"{x:.1}\" cy=\"{y:.1}\" r=\"3.6\" fill=\"#000\"/>\n")
    } else {
        let (x, y) = (x - 3.5, y - 3.5);
        format!("<rect x=\"{x:.1}\" y=\"{y:.1}\" width=\"7\" height=\"7\" fill=\"#fff\" stroke=\"#000\" stroke-width=\"1.4\"/>\n")
    }
}

fn text(x: f64, y: f64, anchor: &str, weight: &str, words: &str) -> String {
    format!("<text x=\"{x:.1}\" y=\"{y:.1}\" text-anchor=\"{anchor}\" font-weight=\"{weight}\">{words}</text>\n")
}

fn decade_name(decade: i32) -> String {
    let units = ["ns", "us", "ms", "s"];
    let unit = (decade / 3).clamp(0, 3);
    format!("{} {}", 10f64.powi(decade - unit * 3), units[unit as usize])
}

/// What the lines mean, above the panels.
fn key() -> String {
    let side = |x: f64, port: bool, name: &str| {
        let dashes = if port { "" } else { " stroke-dasharray=\"7 4\"" };
        format!("<path d=\"M{x:.1} 30h44\" fill=\"none\" stroke=\"#000\" stroke-width=\"1.6\"{dashes}/>\n")
            + &mark(x + 22.0, 30.0, port)
            + &text(x + 52.0, 34.0, "start", "normal", name)
    };
    text(LEFT, 16.0, "start", "normal", "Time for one call against the number pooled; both axes by logarithm")
        + &side(LEFT, true, "the port")
        + &side(LEFT + 140.0, false, "the Rust")
}

/// One panel for each line.
pub fn svg(lines: &[Line]) -> String {
    let rows = lines.len().div_ceil(2) as f64;
    let (width, height) = (WIDTH * 2.0, HEAD + HEIGHT * rows);
    let mut svg = format!(
        "<svg xmlns=\"http://www.w3.org/2000/svg\" width=\"{width}\" height=\"{height}\" viewBox=\"0 0 {width} {height}\" \
         font-family=\"sans-serif\" font-size=\"12\">\n<rect width=\"{width}\" height=\"{height}\" fill=\"#fff\"/>\n"
    );
    svg += &key();
    for (place, line) in lines.iter().enumerate() {
        let panel = Panel::of(line, place);
        let side = |of: fn(&Both) -> f64| line.points.each_ref().map(|(pooled, t)| (*pooled, of(t)));
        svg += &panel.title(&line.name);
        svg += &panel.axes();
        svg += &panel.side(&side(|t| t.rust), false);
        svg += &panel.side(&side(|t| t.port), true);
        svg += &panel.labels(line.points[2].1);
    }
    svg + "</svg>\n"
}
