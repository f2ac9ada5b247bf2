//! The port and the Rust in one driver: same inputs, same machine, both built for release. It prints ratios.
mod calls;
mod chart;
mod lookup;
mod others;
mod pools;
mod slow;
mod submission;
mod table;

use std::process::exit;

use calls::{compare, Both};
use chart::Line;
use oracle::rng::Rng;
use submission::Kind;
use table::Table;

const USAGE: &str = "\
bench [--only A,B,..] [--markdown FILE] [--svg FILE]
    --only ..         only these: weight lookup submission row block fees cache peers inputs slow buckets intake
    --markdown FILE   writes the table
    --svg FILE        writes the chart; it needs lookup and submission";

/// How many are pooled.
const SIZES: [usize; 3] = [100, 1_000, 4_000];
const LARGE: [usize; 2] = [1_000, 4_000];

/// What a run has measured.
#[derive(Default)]
struct Run {
    table: Table,
    lines: Vec<Line>,
}

/// What can be asked for with --only, its title, and what it measures.
type Part = (&'static str, &'static str, fn(&mut Run));

const PARTS: &[Part] = &[
    ("weight", "base weight: fee x 1024 / factor (100,000 pairs, all agree)", weights),
    ("lookup", "finding a pooled id (half of those asked are pooled)", lookups),
    ("submission", "a submission (2 inputs, 3 outputs; both sides agree on every answer)", submissions),
    ("row", "submissions in a row to a full pool", rows),
    ("block", "blocks and returns", blocks),
    ("fees", "fee queries", fees),
    ("cache", "a full cache of ids once found invalid", cached),
    ("peers", "all peer records used", charged),
    ("inputs", "many confirmed inputs", inputs),
    ("slow", "many boxes in a store of full size (the Rust without its stop after 500 ms)", slow_shapes),
    ("buckets", "ids chosen into one bucket, where the key is known and where it is not", buckets),
    ("intake", "a turn of the intake, beside a VecDeque for each peer", intake),
];

/// The base weight as 128-bit arithmetic has it.
fn wide(fee: u64, factor: u64) -> u64 {
    if factor == 0 {
        return 0;
    }
    u64::try_from(u128::from(fee) * 1024 / u128::from(factor)).unwrap_or(u64::MAX)
}

fn weight(run: &mut Run, name: &str, fee_bits: u32, factor: impl Fn(u64) -> u64, goal: Option<f64>) {
    let mut rng = Rng::new(1);
    let pairs: Vec<(u64, u64)> =
        (0..100_000).map(|_| (rng.next() >> (64 - fee_bits), factor(rng.next()))).collect();
    let there = |&(fee, factor): &(u64, u64)| wide(fee, factor);
    let here = |&(fee, factor): &(u64, u64)| port::fee_per_factor(fee, factor, 0, false);
    run.table.row(name, compare(&pairs, there, here), goal, None);
}

fn weights(run: &mut Run) {
    weight(run, "any fee, sizes 1 to 98,304", 64, |r| r % 98_304 + 1, Some(2.0));
    weight(run, "fees below 2^34, sizes 1 to 98,304", 34, |r| r % 98_304 + 1, Some(2.0));
    weight(run, "any fee, costs below 2^32", 64, |r| r >> 32 | 1, Some(3.0));
    weight(run, "any fee, factors of 64 bits", 64, |r| r | 1, None);
}

/// Measures at each size, for a line of the chart.
fn line(run: &mut Run, name: &str, measure: impl Fn(&mut Table, usize) -> Both) {
    let points = SIZES.map(|pooled| (pooled, measure(&mut run.table, pooled)));
    run.lines.push(Line { name: name.into(), points });
}

fn lookups(run: &mut Run) {
    line(run, "finding an id (contains)", lookup::measure);
}

fn submissions(run: &mut Run) {
    for kind in [Kind::NoParent, Kind::Chain, Kind::Full] {
        line(run, &format!("a submission: {}", kind.name()), |table, pooled| submission::measure(table, pooled, kind));
    }
}

fn rows(run: &mut Run) {
    for pooled in SIZES {
        submission::steady(&mut run.table, pooled, 5_000);
    }
}

fn blocks(run: &mut Run) {
    others::block(&mut run.table, 1_000);
    for boxes in [true, false] {
        others::hour(&mut run.table, 1_000, boxes);
    }
    others::returns(&mut run.table, 1_000);
}

fn fees(run: &mut Run) {
    for pooled in LARGE {
        others::fees(&mut run.table, pooled);
    }
}

fn cached(run: &mut Run) {
    for pooled in LARGE {
        submission::cached(&mut run.table, pooled);
    }
}

fn charged(run: &mut Run) {
    for pooled in LARGE {
        submission::charged(&mut run.table, pooled);
    }
}

fn inputs(run: &mut Run) {
    for pooled in LARGE {
        slow::confirmed_inputs(&mut run.table, pooled, 3_000);
    }
}

fn slow_shapes(run: &mut Run) {
    slow::outputs_of_one(&mut run.table);
    slow::long_return(&mut run.table, false);
    slow::long_return(&mut run.table, true);
    slow::long_block(&mut run.table);
}

fn buckets(run: &mut Run) {
    lookup::one_bucket(&mut run.table, 2_000);
    lookup::boxes_of_one_bucket(&mut run.table, 2_000);
}

fn intake(run: &mut Run) {
    for (name, rust, port) in intake_oracle::bench::rows() {
        run.table.row(name, Both { rust, port }, None, None);
    }
}

/// The parts with these names.
fn named(names: &str) -> Vec<&'static Part> {
    let part = |name| PARTS.iter().find(|part| part.0 == name).unwrap_or_else(|| fail(USAGE));
    names.split(',').map(part).collect()
}

fn main() {
    let args: Vec<String> = std::env::args().skip(1).collect();
    let (mut parts, mut markdown, mut svg) = (PARTS.iter().collect::<Vec<&Part>>(), None, None);
    for pair in args.chunks(2) {
        match pair {
            [name, value] if name == "--only" => parts = named(value),
            [name, value] if name == "--markdown" => markdown = Some(value),
            [name, value] if name == "--svg" => svg = Some(value),
            _ => fail(USAGE),
        }
    }
    let mut run = Run::default();
    for (_, title, measure) in parts {
        run.table.section(title);
        measure(&mut run);
    }
    run.table.print_end(&run.lines);
    if let Some(file) = markdown {
        write(file, &run.table.markdown(&run.lines));
    }
    if let Some(file) = svg {
        write(file, &chart::svg(&run.lines));
    }
}

fn write(file: &str, text: &str) {
    std::fs::write(file, text).unwrap_or_else(|e| fail(&format!("{file}: {e}")));
}

fn fail(message: &str) -> ! {
    eprintln!("{message}");
    exit(2)
}
