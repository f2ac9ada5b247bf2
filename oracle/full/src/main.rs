//! The proved pool, linked as a static library, against the Rust, call by call
//! and at full size.

mod script;
mod shapes;
mod tally;

use std::process::exit;
use std::time::Instant;

use port::{Port, FULL};
use script::Script;
use shapes::{Shape, SHAPES};
use tally::Tally;

const USAGE: &str = "\
full [--seed0 S] [--scripts N] [--shapes A,B,..]
    --seed0 S     the first seed of every shape, by default 1
    --scripts N   N scripts of every shape instead of its own number
    --shapes ..   only these";

fn main() {
    oracle::driver::keep_panics_quiet();
    let args: Vec<String> = std::env::args().skip(1).collect();
    let (mut seed0, mut scripts, mut shapes) = (1, None, SHAPES.iter().collect::<Vec<&Shape>>());
    for pair in args.chunks(2) {
        match pair {
            [name, value] if name == "--seed0" => seed0 = number(value),
            [name, value] if name == "--scripts" => scripts = Some(number(value)),
            [name, value] if name == "--shapes" => {
                shapes = value.split(',').map(shape).collect();
            }
            _ => fail(USAGE),
        }
    }
    // only the whole run has to meet every outcome
    let all = shapes.len() == SHAPES.len() && scripts.is_none();
    let began = Instant::now();
    let mut port = Port::new(FULL);
    let mut tally = Tally::default();
    for shape in shapes {
        tally.shape(shape.name);
        for k in 0..scripts.unwrap_or(shape.scripts) {
            let mut script = Script::new(&mut port, &mut tally, shape.name, seed0 + k);
            (shape.make)(&mut script);
            script.finish();
        }
    }
    let well = tally.print(all);
    println!("{:.0} s", began.elapsed().as_secs_f64());
    exit(if well { 0 } else { 1 })
}

fn shape(name: &str) -> &'static Shape {
    let known = || SHAPES.iter().map(|s| s.name).collect::<Vec<_>>().join(" ");
    let found = SHAPES.iter().find(|s| s.name == name);
    found.unwrap_or_else(|| fail(&format!("no shape {name}; there are {}", known())))
}

fn number(word: &str) -> u64 {
    word.parse().unwrap_or_else(|_| fail(&format!("not a number: {word}")))
}

fn fail(message: &str) -> ! {
    eprintln!("{message}");
    exit(2)
}
