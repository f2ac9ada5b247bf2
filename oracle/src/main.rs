//! The oracle: the Rust of the pool, speaking the forms of poolrun.

mod compare;
mod expected;
mod gen;
mod noise;
mod odd;
mod profiles;
mod sources;
mod stored;

use std::io::{self, BufRead, Write};
use std::process::exit;

use compare::Options;
use oracle::driver::Driver;
use oracle::{driver, forms, rng};
use profiles::PROFILES;

pub const EXAMPLE: (&[u8], &str) =
    (include_bytes!("../example.forms"), include_str!("../example.answers"));

const USAGE: &str = "\
oracle run [FILE]                    answer the forms in FILE or on standard input
oracle gen SEED PROFILE [LINES]      write a script
oracle compare N [OPTIONS]           N seeds of every profile through the port and the Rust
    --port \"PATH ARGUMENT..\"         the port, by default target/bin/poolrun
    --profiles A,B,..                only these profiles
    --forms A,B,..                   only lines of these forms
    --seed0 S                        the first seed, by default 1
    --lines L                        lines of a script
    --budget SECONDS                 begin no script after that time
    --shrink COUNT                   search the smallest script of so many disagreements
oracle answers DIR [--forms A,B,..]  write DIR/stdin and DIR/stdout, the list to replay
oracle noise BYTES SEED [--forms ..]  write random and mutated bytes
oracle sources                       the Rust files this program was built from
oracle selfcheck                     document 01's example
oracle profiles                      the names of the profiles";

fn main() {
    driver::keep_panics_quiet();
    let args: Vec<String> = std::env::args().skip(1).collect();
    let args: Vec<&str> = args.iter().map(String::as_str).collect();
    let done = match args.as_slice() {
        ["run"] => run(&mut io::stdin().lock()),
        ["run", file] => match std::fs::File::open(file) {
            Ok(file) => run(&mut io::BufReader::new(file)),
            Err(e) => fail(&format!("{file}: {e}")),
        },
        ["gen", seed, profile] => write_script(seed, profile, gen::LINES),
        ["gen", seed, profile, lines] => write_script(seed, profile, number(lines) as usize),
        ["compare", seeds, rest @ ..] => leave(compare::compare(&options(seeds, rest))),
        ["answers", folder] => stored::write(folder, None),
        ["answers", folder, "--forms", list] => stored::write(folder, Some(&form_names(list))),
        ["noise", bytes, seed] => noise::write(number(bytes) as usize, number(seed), None),
        ["noise", bytes, seed, "--forms", list] => {
            noise::write(number(bytes) as usize, number(seed), Some(&form_names(list)))
        }
        ["sources"] => leave(sources::print()),
        ["selfcheck"] => leave(selfcheck()),
        ["profiles"] => writeln!(io::stdout(), "{}", names()),
        _ => fail(USAGE),
    };
    // A reader that went away is no fault of ours.
    if let Err(e) = done {
        if e.kind() != io::ErrorKind::BrokenPipe {
            fail(&e.to_string());
        }
    }
}

fn leave(well: bool) -> ! {
    exit(if well { 0 } else { 1 })
}

fn fail(message: &str) -> ! {
    eprintln!("{message}");
    exit(2)
}

fn number(word: &str) -> u64 {
    word.parse().unwrap_or_else(|_| fail(&format!("not a number: {word}")))
}

fn names() -> String {
    PROFILES.iter().map(|p| p.name).collect::<Vec<_>>().join(" ")
}

fn profile(name: &str) -> &'static gen::Profile {
    gen::find(name).unwrap_or_else(|| fail(&format!("no profile {name}; there are {}", names())))
}

fn form_names(list: &str) -> Vec<String> {
    let list: Vec<String> = list.split(',').map(String::from).collect();
    if let Some(other) = list.iter().find(|f| !forms::NAMES.contains(&f.as_str())) {
        fail(&format!("no form {other}; there are {}", forms::NAMES.join(" ")));
    }
    list
}

fn options(seeds: &str, rest: &[&str]) -> Options {
    let mut options = Options {
        seeds: number(seeds),
        first_seed: 1,
        profiles: PROFILES.iter().collect(),
        all_profiles: true,
        forms: None,
        port: None,
        budget: None,
        lines: gen::LINES,
        shrink: 6,
    };
    for pair in rest.chunks(2) {
        match pair {
            ["--port", port] => options.port = Some(port.to_string()),
            ["--seed0", seed] => options.first_seed = number(seed),
            ["--budget", seconds] => options.budget = Some(number(seconds)),
            ["--shrink", count] => options.shrink = number(count) as usize,
            ["--lines", lines] => options.lines = number(lines) as usize,
            ["--profiles", list] => {
                options.profiles = list.split(',').map(profile).collect();
                options.all_profiles = false;
            }
            ["--forms", list] => options.forms = Some(form_names(list)),
            _ => fail(USAGE),
        }
    }
    options
}

/// Answers line by line; after a sum that does not fit it says no more.
fn run(input: &mut dyn BufRead) -> io::Result<()> {
    let mut driver = Driver::default();
    let mut out = io::BufWriter::new(io::stdout().lock());
    let mut line = Vec::new();
    let mut ended = false;
    loop {
        line.clear();
        if input.read_until(b'\n', &mut line)? == 0 {
            break;
        }
        if line.last() == Some(&b'\n') {
            line.pop();
        }
        if !ended {
            let reply = driver.answer(&line);
            writeln!(out, "{}", reply.text)?;
            ended = reply.end;
        }
    }
    out.flush()
}

fn write_script(seed: &str, name: &str, lines: usize) -> io::Result<()> {
    io::stdout().lock().write_all(&gen::script(number(seed), profile(name), lines, None))
}

/// Document 01's example, answered by the Rust.
pub fn selfcheck() -> bool {
    let answers: String =
        compare::answers(EXAMPLE.0).texts.iter().map(|text| format!("{text}\n")).collect();
    if answers == EXAMPLE.1 {
        println!("oracle: example agrees");
        return true;
    }
    println!("oracle: example differs. The Rust answers:\n{answers}document 01 has:\n{}", EXAMPLE.1);
    false
}
