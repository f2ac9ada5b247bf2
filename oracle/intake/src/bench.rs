//! A turn beside the model's: with every place taken, with one handle in each line, with one line, and with none.
use std::hint::black_box;
use std::time::Instant;

use gunthyd::Intake;

use crate::model::{Model, LINES, PLACES};

/// Nanoseconds for a turn: the best of many rounds of `turns` in a row. Copying the queue between them is not timed.
fn time<Q: Clone>(queue: &Q, turns: usize, turn: impl Fn(&mut Q) -> u64) -> f64 {
    let mut best = f64::MAX;
    for _ in 0..300 {
        let mut q = queue.clone();
        let began = Instant::now();
        for _ in 0..turns {
            black_box(turn(black_box(&mut q)));
        }
        best = best.min(began.elapsed().as_nanos() as f64 / turns as f64);
    }
    best
}

/// A row's name, and nanoseconds of the model and of the port.
pub type Row = (&'static str, f64, f64);

fn row(name: &'static str, lines: usize, handles: usize, turns: usize) -> Row {
    let (mut port, mut model) = (Intake::new(), Model::new(LINES - 1));
    for n in 0..lines * handles {
        let (line, handle) = ((n % lines) as u64, n as u64);
        assert_eq!(port.put(line, handle).is_ok(), model.put(line, handle));
    }
    let (mut p, mut m) = (port.clone(), model.clone());
    for _ in 0..turns {
        assert_eq!(p.turn().map(|s| (s.line, s.handle)), m.turn());
    }
    let there = time(&model, turns, |q| q.turn().map_or(0, |s| s.0 ^ s.1));
    let here = time(&port, turns, |q| q.turn().map_or(0, |s| s.line ^ s.handle));
    (name, there, here)
}

/// Both sides agree on every answer.
pub fn rows() -> [Row; 4] {
    [
        row("every line holds 16: 4,096 turns", LINES, PLACES, LINES * PLACES),
        row("every line holds 1: 256 turns", LINES, 1, LINES),
        row("one line holds 16: 16 turns", 1, PLACES, PLACES),
        row("no line holds any: 256 turns", 1, 0, LINES),
    ]
}

pub fn print() {
    println!("a turn of the intake, beside a VecDeque for each peer (both sides agree on every answer)");
    for (name, there, here) in rows() {
        println!("{name:44} rust {there:6.1} ns   port {here:6.1} ns   ratio {:.1}", here / there);
    }
}
