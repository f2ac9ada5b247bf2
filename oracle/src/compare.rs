//! The port against the Rust: seeds of every profile through both, a table of
//! what was answered, and the smallest script for each disagreement.

use std::collections::BTreeMap;
use std::io::{Read, Write};
use std::path::{Path, PathBuf};
use std::process::{Command, Stdio};
use std::sync::mpsc;
use std::time::{Duration, Instant};

use crate::driver::{Driver, OVERFLOW};
use crate::expected;
use crate::forms;
use crate::gen::{self, Profile};
use crate::profiles::PROFILES;

/// How long the port may take for one script.
const PATIENCE: Duration = Duration::from_secs(60);
/// How long the search for a smaller script may take.
const SHRINKING: Duration = Duration::from_secs(20);

pub struct Options {
    pub seeds: u64,
    pub first_seed: u64,
    pub profiles: Vec<&'static Profile>,
    pub all_profiles: bool,
    pub forms: Option<Vec<String>>,
    pub port: Option<String>,
    pub budget: Option<u64>,
    pub lines: usize,
    /// For how many disagreements the smallest script is searched.
    pub shrink: usize,
}

/// What the Rust answered to a script.
pub struct Answers {
    pub texts: Vec<String>,
    pub forms: Vec<&'static str>,
    /// The last answer is no answer: a sum did not fit.
    pub ended: bool,
}

pub fn answers(script: &[u8]) -> Answers {
    let mut driver = Driver::default();
    let mut answers = Answers { texts: Vec::new(), forms: Vec::new(), ended: false };
    for line in forms::lines(script) {
        let reply = driver.answer(line);
        answers.texts.push(reply.text);
        answers.forms.push(reply.form);
        if reply.end {
            answers.ended = true;
            break;
        }
    }
    answers
}

/// A script to which the two gave different answers.
struct Disagreement {
    profile: &'static str,
    seed: u64,
    script: Vec<u8>,
    at: usize,
    rust: String,
    port: String,
}

#[derive(Default)]
struct Tally {
    scripts: u64,
    lines: u64,
    ends: u64,
    disagreements: u64,
}

/// Runs the comparison; true if nothing disagreed and nothing was missed.
pub fn compare(options: &Options) -> bool {
    let started = Instant::now();
    let port = Port::new(options.port.as_deref());
    if !port.exists() {
        println!("no port at {}: only document 01's example is checked", port.program.display());
        return crate::selfcheck();
    }

    let mut by_profile: BTreeMap<&str, Tally> = BTreeMap::new();
    let mut outcomes: BTreeMap<(&str, String), u64> = BTreeMap::new();
    let mut disagreements: Vec<Disagreement> = Vec::new();
    'all: for seed in options.first_seed..options.first_seed + options.seeds {
        for profile in &options.profiles {
            if options.budget.is_some_and(|s| started.elapsed() >= Duration::from_secs(s)) {
                println!("stopped before seed {seed} of {}: the time given is over", profile.name);
                break 'all;
            }
            let script = gen::script(seed, profile, options.lines, options.forms.as_deref());
            let rust = answers(&script);
            let tally = by_profile.entry(profile.name).or_default();
            tally.scripts += 1;
            tally.ends += u64::from(rust.ended);
            let compared = rust.texts.len() - usize::from(rust.ended);
            tally.lines += compared as u64;
            for (form, text) in rust.forms.iter().zip(&rust.texts).take(compared) {
                *outcomes.entry((form, outcome(text))).or_default() += 1;
            }
            if let Some((at, rust, port)) = port.differs(&script, &rust) {
                tally.disagreements += 1;
                let profile = profile.name;
                disagreements.push(Disagreement { profile, seed, script, at, rust, port });
            }
        }
    }

    print_table(&by_profile, &outcomes);
    let found: Vec<(&str, &str)> = outcomes.keys().map(|(f, o)| (*f, o.as_str())).collect();
    let missed = expected::missed(options, &found);
    for (form, outcome) in &missed {
        println!("never occurred: {form}: {outcome}");
    }
    report(&port, &disagreements, options.shrink);
    println!(
        "{} scripts, {} disagreements, {} outcomes missed, {:.1} s",
        by_profile.values().map(|t| t.scripts).sum::<u64>(),
        disagreements.len(),
        missed.len(),
        started.elapsed().as_secs_f64()
    );
    disagreements.is_empty() && missed.is_empty()
}

/// The kind of an answer: its words without ids and sums.
fn outcome(text: &str) -> String {
    let inner = text.trim_start_matches('(').trim_end_matches(')');
    match inner.split([' ', '(']).next() {
        Some("refused" | "verdict" | "no") => inner.to_string(),
        Some(word) => word.to_string(),
        None => String::new(),
    }
}

fn print_table(by_profile: &BTreeMap<&str, Tally>, outcomes: &BTreeMap<(&str, String), u64>) {
    println!("{:<12}{:>8}{:>9}{:>9}{:>12}", "profile", "scripts", "lines", "ends", "disagree");
    let mut all = Tally::default();
    let row = |name: &str, t: &Tally| {
        println!("{name:<12}{:>8}{:>9}{:>9}{:>12}", t.scripts, t.lines, t.ends, t.disagreements);
    };
    for profile in PROFILES {
        if let Some(tally) = by_profile.get(profile.name) {
            row(profile.name, tally);
            all.scripts += tally.scripts;
            all.lines += tally.lines;
            all.ends += tally.ends;
            all.disagreements += tally.disagreements;
        }
    }
    row("all", &all);
    println!("(ends: scripts cut at a sum of the Rust that does not fit 64 bits)\n");

    println!("{:<12}{:>9}  answers", "form", "lines");
    let mut refusals: BTreeMap<u32, u64> = BTreeMap::new();
    for form in forms::NAMES.iter().chain(&["unread"]) {
        let mut sum = 0;
        let mut list = Vec::new();
        for ((_, outcome), count) in outcomes.iter().filter(|((f, _), _)| f == form) {
            sum += count;
            list.push(format!("{outcome} {count}").replace("refused ", "#"));
            if let Some(number) = outcome.strip_prefix("refused ") {
                *refusals.entry(number.parse().unwrap_or(0)).or_default() += count;
            }
        }
        if sum > 0 {
            println!("{form:<12}{sum:>9}  {}", list.join(", "));
        }
    }
    println!("(#N: refused with N)\n");
    let list: Vec<String> = refusals.iter().map(|(n, count)| format!("{n}: {count}")).collect();
    println!("refusals    {}\n", list.join(", "));
}

/// Prints the disagreements, the first ones with their smallest script.
fn report(port: &Port, disagreements: &[Disagreement], shrink: usize) {
    for (count, d) in disagreements.iter().enumerate() {
        println!(
            "disagreement: profile {}, seed {}, line {}\n  rust: {}\n  port: {}",
            d.profile,
            d.seed,
            d.at + 1,
            shortened(&d.rust),
            shortened(&d.port)
        );
        if count >= shrink {
            continue;
        }
        let small = port.shrink(&d.script);
        let rust = answers(&small);
        println!("  smallest script found, {} lines:", forms::lines(&small).len());
        for line in forms::lines(&small) {
            println!("    {}", shortened(&line.escape_ascii().to_string()));
        }
        if let Some((_, rust, port)) = port.differs(&small, &rust) {
            println!("  its last answer\n    rust: {rust}\n    port: {port}");
        }
    }
}

fn shortened(text: &str) -> String {
    if text.len() <= 600 {
        return text.into();
    }
    let cut: String = text.chars().take(600).collect();
    format!("{cut}.. ({} bytes)", text.len())
}

/// The program that is compared.
struct Port {
    program: PathBuf,
    arguments: Vec<String>,
}

impl Port {
    /// "PATH ARGUMENT.."; by default poolrun in the repository's target/bin.
    fn new(named: Option<&str>) -> Self {
        let Some(named) = named else {
            return Port { program: default_port(), arguments: Vec::new() };
        };
        let mut words = named.split_whitespace().map(String::from);
        Port { program: words.next().unwrap_or_default().into(), arguments: words.collect() }
    }

    fn exists(&self) -> bool {
        self.program.is_file()
    }

    /// The lines that the port prints, or why there are none.
    fn run(&self, script: &[u8]) -> Result<Vec<String>, String> {
        let mut child = Command::new(&self.program)
            .args(&self.arguments)
            .stdin(Stdio::piped())
            .stdout(Stdio::piped())
            .stderr(Stdio::null())
            .spawn()
            .map_err(|e| format!("the port does not start: {e}"))?;
        let (mut input, mut output) = (child.stdin.take().unwrap(), child.stdout.take().unwrap());
        let script = script.to_vec();
        // A port that stops reading early is judged by what it printed.
        std::thread::spawn(move || drop(input.write_all(&script)));
        let (sender, receiver) = mpsc::channel();
        std::thread::spawn(move || {
            let mut all = Vec::new();
            let read = output.read_to_end(&mut all);
            drop(sender.send(read.map(|_| all)));
        });
        let read = receiver.recv_timeout(PATIENCE);
        if read.is_err() {
            drop(child.kill());
        }
        drop(child.wait());
        let bytes = read.map_err(|_| "the port does not end".to_string())?;
        let bytes = bytes.map_err(|e| e.to_string())?;
        let lines = forms::lines(&bytes);
        Ok(lines.iter().map(|line| line.escape_ascii().to_string()).collect())
    }

    /// The first line answered differently, with both answers.
    fn differs(&self, script: &[u8], rust: &Answers) -> Option<(usize, String, String)> {
        let compared = rust.texts.len() - usize::from(rust.ended);
        if rust.ended && rust.texts[compared] != OVERFLOW {
            // The Rust may only stop at a sum.
            return Some((compared, rust.texts[compared].clone(), "not asked".into()));
        }
        let port = match self.run(script) {
            Ok(lines) => lines,
            Err(why) => return Some((0, rust.texts.first().cloned().unwrap_or_default(), why)),
        };
        let nothing = String::from("nothing");
        for (at, text) in rust.texts.iter().take(compared).enumerate() {
            let answer = port.get(at).unwrap_or(&nothing);
            if answer != text {
                return Some((at, text.clone(), answer.clone()));
            }
        }
        if !rust.ended && port.len() > compared {
            return Some((compared, nothing, port[compared].clone()));
        }
        None
    }

    /// A script as small as can be found on which the two still disagree.
    fn shrink(&self, script: &[u8]) -> Vec<u8> {
        shrink(script, |script| self.differs(script, &answers(script)).map(|found| found.0))
    }
}

/// Takes lines out as long as there is a line that `differs` names.
fn shrink(script: &[u8], differs: impl Fn(&[u8]) -> Option<usize>) -> Vec<u8> {
    let started = Instant::now();
    let Some(at) = differs(script) else { return script.to_vec() };
    let mut lines = forms::lines(script);
    lines.truncate(at + 1);
    if differs(&forms::join(&lines)).is_none() {
        // The end of the script itself is what they disagree on.
        return script.to_vec();
    }
    let mut chunk = lines.len().div_ceil(2);
    loop {
        let mut removed = false;
        let mut from = 0;
        while from < lines.len() {
            if started.elapsed() > SHRINKING {
                return forms::join(&lines);
            }
            let mut fewer = lines.clone();
            fewer.drain(from..(from + chunk).min(lines.len()));
            match differs(&forms::join(&fewer)) {
                Some(at) => {
                    fewer.truncate(at + 1);
                    lines = fewer;
                    removed = true;
                }
                None => from += chunk,
            }
        }
        if chunk == 1 && !removed {
            return forms::join(&lines);
        }
        if !removed || chunk > lines.len() {
            chunk = chunk.div_ceil(2).min(lines.len().max(1));
        }
    }
}

/// poolrun, seen from the repository's root, from here, or from where this was built.
fn default_port() -> PathBuf {
    let here = Path::new("target/bin/poolrun");
    let above = Path::new("../target/bin/poolrun");
    let built = Path::new(env!("CARGO_MANIFEST_DIR")).join("../target/bin/poolrun");
    for path in [here, above] {
        if path.is_file() {
            return path.to_path_buf();
        }
    }
    if built.is_file() { built } else { PathBuf::from("target/bin/poolrun") }
}

#[cfg(test)]
mod tests;
