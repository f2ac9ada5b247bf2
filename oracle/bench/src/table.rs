//! The table of what was measured.

use crate::calls::Both;
use crate::chart::Line;

/// What was measured, in sections.
#[derive(Default)]
pub struct Table {
    sections: Vec<Section>,
}

struct Section {
    title: String,
    rows: Vec<Row>,
}

struct Row {
    name: String,
    times: Both,
    /// The ratio to reach.
    goal: Option<f64>,
    /// The longest call of those that the row is the mean of.
    longest: Option<Both>,
}

/// Nanoseconds in a unit that suits them, to three digits.
pub fn said(ns: f64) -> String {
    let (unit, size) = match ns {
        t if t < 1e3 => ("ns", 1.0),
        t if t < 1e6 => ("us", 1e3),
        t if t < 1e9 => ("ms", 1e6),
        _ => ("s", 1e9),
    };
    format!("{} {unit}", digits(ns / size))
}

/// A whole number with commas.
pub fn commas(n: usize) -> String {
    if n < 1_000 { n.to_string() } else { format!("{},{:03}", commas(n / 1_000), n % 1_000) }
}

fn digits(x: f64) -> String {
    match x {
        x if x < 10.0 => format!("{x:.2}"),
        x if x < 100.0 => format!("{x:.1}"),
        x => format!("{x:.0}"),
    }
}

impl Table {
    /// Begins a section and prints its title.
    pub fn section(&mut self, title: &str) {
        println!("{title}");
        self.sections.push(Section { title: title.into(), rows: Vec::new() });
    }

    /// A row of the last section, printed at once. Where the times are a mean, `longest` has those of the longest call.
    pub fn row(&mut self, name: &str, times: Both, goal: Option<f64>, longest: Option<Both>) {
        let row = Row { name: name.into(), times, goal, longest };
        println!("{}", row.line());
        self.sections.last_mut().expect("a row stands in a section").rows.push(row);
    }

    fn rows(&self) -> impl Iterator<Item = &Row> {
        self.sections.iter().flat_map(|section| &section.rows)
    }

    /// The longest single call of either side, by name.
    fn longest(&self) -> Vec<String> {
        let mut said_of = Vec::new();
        for (side, of) in [("port", port as fn(&Both) -> f64), ("rust", rust)] {
            let calls = self.rows().filter_map(|row| row.longest.as_ref().map(|times| (row, of(times))));
            if let Some((row, ns)) = calls.max_by(|a, b| a.1.total_cmp(&b.1)) {
                said_of.push(format!("longest single call of the {side}: {} ({})", said(ns), row.name));
            }
        }
        said_of
    }

    /// Prints how times grow, the longest single calls, and the rows whose ratio is above what is to be reached.
    pub fn print_end(&self, lines: &[Line]) {
        for text in lines.iter().map(Line::growing).chain(self.longest()) {
            println!("{text}");
        }
        let above: Vec<&Row> = self.rows().filter(|row| row.missed()).collect();
        println!("above what is to be reached: {} of {} rows", above.len(), self.rows().filter(|r| r.goal.is_some()).count());
        for row in above {
            println!("    {}: {}, to reach {}", row.name, digits(row.times.ratio()), row.said_goal());
        }
    }

    pub fn markdown(&self, lines: &[Line]) -> String {
        let mut text = String::new();
        for section in &self.sections {
            text.push_str(&format!("### {}\n\n", section.title));
            text.push_str("| call | rust | port | ratio | to reach | longest call: rust | port |\n|---|---|---|---|---|---|---|\n");
            for row in &section.rows {
                text.push_str(&row.markdown());
            }
            text.push('\n');
        }
        for line in lines.iter().map(Line::growing).chain(self.longest()) {
            text.push_str(&format!("- {line}\n"));
        }
        text
    }
}

fn port(times: &Both) -> f64 {
    times.port
}

fn rust(times: &Both) -> f64 {
    times.rust
}

impl Row {
    fn line(&self) -> String {
        let (rust, port) = (said(self.times.rust), said(self.times.port));
        let ratio = digits(self.times.ratio());
        let goal = if self.goal.is_some() { format!(" (to reach {})", self.said_goal()) } else { String::new() };
        let most = |t: &Both| format!("   longest: rust {}, port {}", said(t.rust), said(t.port));
        let longest = self.longest.as_ref().map_or(String::new(), most);
        format!("{:58} rust {rust:>8}   port {port:>8}   ratio {ratio:>5}{goal}{longest}", self.name)
    }

    fn markdown(&self) -> String {
        let (rust, port) = (said(self.times.rust), said(self.times.port));
        let ratio = digits(self.times.ratio());
        let longest = |of: fn(&Both) -> f64| self.longest.as_ref().map_or(String::new(), |t| said(of(t)));
        let (most_rust, most_port) = (longest(crate::table::rust), longest(crate::table::port));
        format!("| {} | {rust} | {port} | {ratio} | {} | {most_rust} | {most_port} |\n", self.name, self.said_goal())
    }

    fn said_goal(&self) -> String {
        self.goal.map_or(String::new(), |goal| goal.to_string())
    }

    fn missed(&self) -> bool {
        self.goal.is_some_and(|goal| self.times.ratio() > goal)
    }
}
