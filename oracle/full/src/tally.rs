//! What a run has seen, and the table of it.

use std::collections::BTreeMap;
use std::time::Duration;

/// The outcomes that a run has to have seen: accepted, replaced, verdict needed,
/// and the refusals of a submission.
pub const OUTCOMES: &[u64] =
    &[0, 100, 101, 1, 2, 3, 4, 5, 7, 8, 9, 10, 20, 22, 23, 24, 25, 26, 27, 28, 29, 30];
/// And of a start.
const STARTS: &[u64] = &[0, 6];

/// And of the other calls, by the first word of their form: a number stands for a refusal, 0 and those
/// from 100 on for what is none.
const KINDS: &[(&str, &[u64])] = &[
    ("return", &[0, 1, 3, 20, 23, 27]),
    ("block", &[100, 1, 2, 20]),
    ("invalidate", &[0, 20]),
    ("open", &[0, 20]),
    ("next", &[102, 103, 21]),
    ("answer", &[101, 104, 105, 106, 1, 21]),
    ("rebroadcast", &[0, 1, 2]),
    ("fee", &[0, 3]),
    ("wait", &[0, 3]),
    ("histogram", &[0, 2, 11]),
];

/// What else a run has to have met, and how often.
pub const FULL_POOL: &str = "calls that left 4,095 entries";
pub const FULL_STORE: &str = "calls that left all 65,536 box records in use";
pub const INPUTS: &str = "5,000 inputs accepted";
pub const TOO_MANY: &str = "5,001 inputs refused";
pub const WALK: &str = "a walk of exactly 500 visits";
pub const LONG_WALK: &str = "a walk cut off at 500 visits";
pub const DEEP: &str = "a chain of 600 ancestors";
pub const EVICTS: &str = "an admission that evicts";
pub const GONE: &str = "a newcomer evicted at once";
pub const LOSERS: &str = "4,000 losers or more";
pub const WINNERS: &str = "a loser to 4,000 or more";
pub const ALL_PEERS: &str = "calls that left all 256 peer records in use";
pub const FULL_CACHE: &str = "10,000 ids in the cache, and more";
pub const EMPTY: &str = "capacity 0: accepted, pool empty";
pub const BIG_BLOCK: &str = "a block that takes 2,000 or more out of a full pool";
pub const DOUBLE_SPENDS: &str = "a block that drives out what it does not confirm";
pub const OVERFULL: &str = "returns beyond the capacity";
pub const SENT_BACK: &str = "what a block took, given back";
pub const SWEPT: &str = "a pass over 4,095 entries, ended";
pub const LONG_PASS: &str = "a pass of 100 answers or more";
pub const AT_LIMIT: &str = "a pass that ended at its limit";
pub const CUT_OFF: &str = "a start that cut a pass off";
pub const RESENT: &str = "a rebroadcast of 100 ids or more";
const MEETINGS: &[&str] = &[
    FULL_POOL, FULL_STORE, INPUTS, TOO_MANY, WALK, LONG_WALK, DEEP, EVICTS, GONE, LOSERS, WINNERS,
    ALL_PEERS, FULL_CACHE, EMPTY, BIG_BLOCK, DOUBLE_SPENDS, OVERFULL, SENT_BACK,
    SWEPT, LONG_PASS, AT_LIMIT, CUT_OFF, RESENT,
];

#[derive(Default)]
pub struct Tally {
    /// In the order in which they were run.
    shapes: Vec<(&'static str, Counts)>,
    outcomes: BTreeMap<u64, u64>,
    starts: BTreeMap<u64, u64>,
    kinds: BTreeMap<&'static str, BTreeMap<u64, u64>>,
    met: BTreeMap<&'static str, u64>,
    disagreements: u64,
    /// Whole pools compared, and samples asked beside them.
    pub pools: u64,
    pub samples: u64,
    /// Calls on disturbed words.
    pub junk: u64,
    /// Scripts that ended at a sum of the Rust that does not fit.
    pub unfit: u64,
    /// Time in calls, of this script.
    pub rust: Duration,
    pub port: Duration,
}

#[derive(Default)]
struct Counts {
    scripts: u64,
    calls: u64,
    accepted: u64,
    replaced: u64,
    needed: u64,
    refused: u64,
    /// Calls that are neither starts nor submissions.
    others: u64,
    entries: usize,
    records: usize,
    rust: Duration,
    port: Duration,
}

impl Tally {
    pub fn shape(&mut self, name: &'static str) {
        self.shapes.push((name, Counts::default()));
    }

    fn counts(&mut self) -> &mut Counts {
        &mut self.shapes.last_mut().expect("a shape").1
    }

    pub fn start(&mut self, number: u64) {
        *self.starts.entry(number).or_default() += 1;
    }

    /// An answer of a call that is neither a start nor a submission.
    pub fn kind(&mut self, name: &'static str, number: u64) {
        *self.kinds.entry(name).or_default().entry(number).or_default() += 1;
        self.counts().others += 1;
    }

    pub fn outcome(&mut self, number: u64, entries: usize, records: usize) {
        *self.outcomes.entry(number).or_default() += 1;
        let counts = self.counts();
        match number {
            port::ACCEPTED => counts.accepted += 1,
            port::REPLACED => counts.replaced += 1,
            port::VERDICT_NEEDED => counts.needed += 1,
            _ => counts.refused += 1,
        }
        self.size(entries, records);
    }

    /// What a changing call left in use.
    pub fn size(&mut self, entries: usize, records: usize) {
        let counts = self.counts();
        counts.entries = counts.entries.max(entries);
        counts.records = counts.records.max(records);
    }

    pub fn meet(&mut self, what: &'static str) {
        *self.met.entry(what).or_default() += 1;
    }

    pub fn disagree(&mut self, what: &str) {
        println!("disagreement: {what}");
        self.disagreements += 1;
    }

    pub fn script(&mut self, calls: u64) {
        let (rust, port) = (std::mem::take(&mut self.rust), std::mem::take(&mut self.port));
        let counts = self.counts();
        counts.scripts += 1;
        counts.calls += calls;
        counts.rust += rust;
        counts.port += port;
    }

    /// Prints the table. True if nothing disagreed and, where `all` shapes were
    /// run, everything was met.
    pub fn print(&self, all: bool) -> bool {
        println!(
            "{:10} {:>7} {:>8} {:>8} {:>8} {:>7} {:>8} {:>8} {:>8} {:>8} {:>8} {:>8}",
            "shape", "scripts", "calls", "accepted", "replaced", "needed", "refused", "others",
            "entries", "records", "rust s", "port s"
        );
        let mut total = Counts::default();
        for (name, c) in &self.shapes {
            row(name, c);
            total.scripts += c.scripts;
            total.calls += c.calls;
            total.accepted += c.accepted;
            total.replaced += c.replaced;
            total.needed += c.needed;
            total.refused += c.refused;
            total.others += c.others;
            total.entries = total.entries.max(c.entries);
            total.records = total.records.max(c.records);
            total.rust += c.rust;
            total.port += c.port;
        }
        row("all", &total);

        let mut missing = Vec::new();
        let counted = |seen: &BTreeMap<u64, u64>, number: &u64| seen.get(number).copied().unwrap_or(0);
        let list = |name: &str, wanted: &[u64], seen: &BTreeMap<u64, u64>| {
            let each = |number: &u64| format!(" {number}: {}", counted(seen, number));
            println!("{name}:{}", wanted.iter().map(each).collect::<Vec<_>>().join(","));
        };
        list("outcomes (0 accepted, 100 replaced, 101 verdict needed)", &OUTCOMES[..3], &self.outcomes);
        list("refusals", &OUTCOMES[3..], &self.outcomes);
        list("starts", STARTS, &self.starts);
        missing.extend(OUTCOMES.iter().filter(|n| counted(&self.outcomes, n) == 0).map(|n| format!("outcome {n}")));
        let none = BTreeMap::new();
        for (name, wanted) in KINDS {
            let seen = self.kinds.get(name).unwrap_or(&none);
            list(name, wanted, seen);
            missing.extend(wanted.iter().filter(|n| counted(seen, n) == 0).map(|n| format!("{name} {n}")));
        }
        missing.extend(STARTS.iter().filter(|n| counted(&self.starts, n) == 0).map(|n| format!("start {n}")));
        for what in MEETINGS {
            let times = self.met.get(what).copied().unwrap_or(0);
            println!("{what}: {times}");
            if times == 0 {
                missing.push(what.to_string());
            }
        }
        println!("whole pools compared: {}, samples beside them: {}", self.pools, self.samples);
        println!("calls on disturbed words, only their kind of outcome looked at: {}", self.junk);
        println!("scripts that ended at a sum that does not fit: {}", self.unfit);
        println!("disagreements: {}", self.disagreements);
        if all && !missing.is_empty() {
            println!("never met: {}", missing.join(", "));
        }
        self.disagreements == 0 && (!all || missing.is_empty())
    }
}

fn row(name: &str, c: &Counts) {
    println!(
        "{name:10} {:>7} {:>8} {:>8} {:>8} {:>7} {:>8} {:>8} {:>8} {:>8} {:>8.1} {:>8.1}",
        c.scripts,
        c.calls,
        c.accepted,
        c.replaced,
        c.needed,
        c.refused,
        c.others,
        c.entries,
        c.records,
        c.rust.as_secs_f64(),
        c.port.as_secs_f64()
    );
}
