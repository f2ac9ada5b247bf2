//! `intake_oracle [LISTS]` compares; `intake_oracle bench` prints times.
use intake_oracle::{bench, compare};

fn main() {
    let word = std::env::args().nth(1);
    if word.as_deref() == Some("bench") {
        return bench::print();
    }
    let lists = word.map_or(1_200, |n| n.parse().expect("a number of lists, or bench"));
    let seen = compare::run(lists);
    println!(
        "intake: {} lists, {} calls: {} stored, {} refused for a full line, {} for its number, {} served, {} none; {} wraps, {} waits at the bound; all agree",
        seen.lists, seen.calls, seen.stored, seen.full, seen.no_line, seen.served, seen.none, seen.wrapped, seen.at_bound
    );
    let missing = seen.missing();
    if !missing.is_empty() {
        println!("intake: never occurred: {}", missing.join(", "));
        std::process::exit(1);
    }
}
