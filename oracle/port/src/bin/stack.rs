//! Every exported call at full size, in a thread of 128 KiB of stack: it says which of them need more. A stack that is too small ends the process, so each call
//! is run in a process of its own.

use std::process::{exit, Command, Stdio};
use std::thread;

use oracle::driver::PEERS;
use oracle::forms::{Id, Output, Return, Settings, Tx, Verdict};
use port::{
    fee_per_factor, id_of, words_of, Block, GivenBack, Port, Submission, ACCEPTED, APPLIED, CANDIDATE, DONE, FULL, INVALID, MISSING, REPLACED, VALID,
};

const USAGE: &str = "\
stack [--least]
    --least   prints the least stack on which each call ends, in steps of 4 KiB";

/// The stack that every call must do with, and what `--least` tries: from what a thread has at least up to this.
const STACK: usize = 128 << 10;
const STEP: usize = 4 << 10;
const SMALLEST: usize = 16 << 10;
const LARGEST: usize = 2 << 20;

/// A call that is ready to be made: it gives what the port answers.
type Ready = Box<dyn FnOnce() -> u64 + Send>;

/// A call's name, how it is made ready, and what it answers.
type Case = (&'static str, fn() -> Ready, u64);

const CASES: &[Case] = &[
    ("start", start, 0),
    ("process: 4,095 losers", losers, REPLACED),
    ("process: 5,000 inputs", many_inputs, ACCEPTED),
    ("process: 500 visits along a chain", long_walk, ACCEPTED),
    ("process: 500 visits to one of 1,400 inputs", wide_walk, ACCEPTED),
    ("process: evicts one, 256 peers charged", evicts, ACCEPTED),
    ("process: invalid, 10,000 ids cached", invalid, 9),
    ("return_to_pool: 20,000 inputs", long_return, DONE),
    ("invalidate", invalidate, DONE),
    ("apply_block_at: all of 4,095", block, APPLIED),
    ("open", open, DONE),
    ("next", next, CANDIDATE),
    ("answer: valid", || answer(true, Verdict::Ok(1)), VALID),
    ("answer: invalid", || answer(true, Verdict::Bad), INVALID),
    ("answer: missing", || answer(false, Verdict::None), MISSING),
    ("select_for_rebroadcast", rebroadcast, 4_095),
    ("recommended_fee", || asked(|port| port.recommended_fee(60, 1_024).expect("a fee")), 10),
    ("expected_wait_ms_at", || asked(|port| port.expected_wait_ms_at(60_000, 1, 1_024).expect("a wait")), 0),
    ("pool_histogram_at", histogram, 1_001),
    ("len", || asked(|port| port.len() as u64), 4_095),
    ("contains", || asked(|port| port.contains(0, &id(1, 7))), 1),
    ("spending_tx", || asked(|port| port.spending_tx(&id(2, 7)).map_or(0, |row| row.base)), FEE + 7),
    ("top", || asked(|port| port.top(usize::MAX).len() as u64), 4_095),
    ("find_entry", || asked(|port| port.rank(4_095, words_of(&id(1, 0)))), 4_094),
    ("fee_per_factor", || Box::new(|| fee_per_factor(u64::MAX, 1_024, 0, false)), u64::MAX),
];

/// Of the lowest in the pool; with 1,024 bytes it is the base.
const FEE: u64 = 1_000;

/// The n-th id of a kind.
fn id(kind: u64, n: u64) -> Id {
    id_of(&[kind, 0, 0, n])
}

fn settings() -> Settings {
    Settings {
        capacity: 4_095,
        min_fee: 10,
        by_cycle: false,
        interval: 30_000,
        rebroadcast: 4_095,
        ttl: 1_800_000,
        cache: 10_000,
        block_limit: 1 << 63,
        peer_limit: 1 << 63,
    }
}

fn empty() -> Port {
    let mut port = Port::new(FULL);
    assert_eq!(port.start(&settings()), 0);
    port
}

/// A return of kind 1: it spends the n-th box of kind 2 and makes boxes of kind 3.
fn given(n: u64, inputs: Vec<Id>, outputs: u64) -> GivenBack {
    GivenBack::of(&Return {
        id: id(1, n),
        fee: FEE + n,
        size: 1_024,
        cost: 0,
        measured: None,
        created: 0,
        checked: 0,
        peer: None,
        inputs,
        outputs: (0..outputs).map(|k| (id(3, n << 16 | k), 50)).collect(),
    })
}

/// 4,095 entries of so many records; the n-th spends the n-th box of kind 2.
fn crowd(records: u64) -> Port {
    let mut port = empty();
    for n in 0..4_095 {
        assert_eq!(port.return_to_pool(&given(n, vec![id(2, n)], records - 1)), DONE);
    }
    port
}

/// A submission of kind 4.
fn tx(n: u64, inputs: Vec<(Id, bool)>, outputs: u64, fee: u64) -> Tx {
    let output = |k| Output { box_id: id(5, n << 16 | k), value: fee, fee: k == 0, height: 50 };
    let outputs = (0..outputs).map(output).collect();
    Tx { time: 0, id: id(4, n), peer: None, size: 1_024, preheader: 50, inputs, outputs, verdict: Verdict::Ok(1) }
}

fn process(mut port: Port, tx: &Tx) -> Ready {
    let words = Submission::of(tx);
    Box::new(move || port.process(&words, FULL.answer_words))
}

/// A query of a full pool.
fn asked(query: impl FnOnce(&Port) -> u64 + Send + 'static) -> Ready {
    let port = crowd(16);
    Box::new(move || query(&port))
}

fn start() -> Ready {
    let mut port = Port::new(FULL);
    Box::new(move || port.start(&settings()))
}

fn losers() -> Ready {
    let inputs = (0..4_095).map(|n| (id(2, n), true)).collect();
    process(crowd(15), &tx(0, inputs, 1, 1 << 40))
}

fn many_inputs() -> Ready {
    let inputs = (0..5_000).map(|n| (id(6, n), true)).collect();
    process(crowd(14), &tx(0, inputs, 1, 1 << 40))
}

fn submit(port: &mut Port, tx: &Tx, answer: u64) {
    assert_eq!(port.process(&Submission::of(tx), FULL.answer_words), answer);
}

/// The newcomer has 600 ancestors.
fn long_walk() -> Ready {
    let mut port = empty();
    submit(&mut port, &tx(0, vec![(id(6, 0), true)], 1, FEE), ACCEPTED);
    for n in 1..600 {
        submit(&mut port, &tx(n, vec![(id(5, (n - 1) << 16), false)], 1, FEE), ACCEPTED);
    }
    process(port, &tx(600, vec![(id(5, 599 << 16), false)], 1, FEE))
}

/// Each output of one that has many inputs is spent.
fn wide_walk() -> Ready {
    let mut port = empty();
    let inputs = (0..1_400).map(|n| (id(6, n), true)).collect();
    submit(&mut port, &tx(0, inputs, 500, FEE), ACCEPTED);
    let inputs = (0..500).map(|n| (id(5, n), false)).collect();
    process(port, &tx(1, inputs, 1, FEE))
}

fn evicts() -> Ready {
    let mut port = crowd(15);
    let remote = |n: u64| Tx { peer: Some(n % PEERS as u64), ..tx(n, vec![(id(6, n), true)], 1, FEE + 5_000) };
    for n in 0..PEERS as u64 {
        submit(&mut port, &remote(n), ACCEPTED);
    }
    process(port, &remote(PEERS as u64))
}

fn bad(n: u64) -> Tx {
    Tx { verdict: Verdict::Bad, ..tx(n, vec![(id(6, n), true)], 1, FEE) }
}

fn invalid() -> Ready {
    let mut port = crowd(15);
    for n in 0..10_000 {
        submit(&mut port, &bad(n), 9);
    }
    process(port, &bad(10_000))
}

fn long_return() -> Ready {
    let mut port = empty();
    let words = given(0, (0..20_000).map(|n| id(6, n)).collect(), 100);
    Box::new(move || port.return_to_pool(&words))
}

fn invalidate() -> Ready {
    let mut port = crowd(16);
    for n in 0..10_000 {
        assert_eq!(port.invalidate(0, &id(7, n)), DONE);
    }
    Box::new(move || port.invalidate(0, &id(1, 2_000)))
}

fn block() -> Ready {
    let mut port = crowd(16);
    let txs: Vec<(Id, Vec<Id>)> = (0..4_095).map(|n| (id(1, n), vec![id(2, n), id(6, n)])).collect();
    let words = Block::of(&txs);
    Box::new(move || port.apply_block_at(60_000, &words, FULL.answer_words))
}

fn open() -> Ready {
    let mut port = crowd(16);
    Box::new(move || port.open(60_000, 1 << 40, 50))
}

/// A pass of which the first candidate has 5,000 inputs.
fn opened() -> Port {
    let mut port = crowd(14);
    let words = given(4_095, (0..5_000).map(|n| id(6, n)).collect(), 1);
    assert_eq!(port.return_to_pool(&words), DONE);
    assert_eq!(port.open(60_000, 1 << 40, 50), DONE);
    port
}

fn next() -> Ready {
    let mut port = opened();
    Box::new(move || port.next())
}

fn answer(flag: bool, verdict: Verdict) -> Ready {
    let mut port = opened();
    assert_eq!(port.next(), CANDIDATE);
    let flags = vec![flag; 5_000];
    Box::new(move || port.answer(&flags, verdict))
}

fn rebroadcast() -> Ready {
    let port = crowd(16);
    let confirmed: Vec<u64> = (0..4_095).flat_map(|n| words_of(&id(2, n))).collect();
    let mut answer = vec![0; FULL.answer_words];
    Box::new(move || port.select_for_rebroadcast(&confirmed, &mut answer).map_or(u64::MAX, |count| count as u64))
}

fn histogram() -> Ready {
    let port = crowd(16);
    let mut answer = vec![0; FULL.answer_words];
    Box::new(move || port.pool_histogram_at(60_000, 1_000, 100_000, &mut answer).map_or(u64::MAX, |pairs| pairs as u64))
}

/// Makes the call ready here and makes it in a thread of so many bytes of stack.
fn run((name, ready, expected): &Case, stack: usize) {
    let call = ready();
    let thread = thread::Builder::new().stack_size(stack).spawn(call).expect("a thread");
    let answer = thread.join().expect("a call does not panic");
    assert_eq!(answer, *expected, "{name}");
}

/// Whether the call ends on so many bytes of stack.
fn ends(name: &str, stack: usize) -> bool {
    let this = std::env::current_exe().expect("the name of this program");
    let mut child = Command::new(this);
    child.args(["--call", name, &stack.to_string()]).stderr(Stdio::null());
    child.status().expect("this program once more").success()
}

/// The least number of steps of stack on which the call ends.
fn least(name: &str) -> Option<usize> {
    let (mut low, mut high) = (SMALLEST / STEP - 1, LARGEST / STEP);
    if !ends(name, high * STEP) {
        return None;
    }
    while high - low > 1 {
        let middle = (low + high) / 2;
        if ends(name, middle * STEP) {
            high = middle;
        } else {
            low = middle;
        }
    }
    Some(high)
}

fn print_least() {
    for (name, ..) in CASES {
        match least(name) {
            Some(steps) => println!("{name:44} {:5} KiB", steps * STEP >> 10),
            None => println!("{name:44} FAILS on any stack"),
        }
    }
}

/// Prints for each call whether it does with the stack. True if all do.
fn print_all() -> bool {
    let mut failed = 0;
    for (name, ..) in CASES {
        let said = match ends(name, STACK) {
            true => "ends",
            false if ends(name, LARGEST) => "NEEDS MORE",
            false => "FAILS on any stack",
        };
        failed += usize::from(said != "ends");
        println!("{name:44} {said}");
    }
    println!("{failed} of {} calls do not end in a thread of {} KiB of stack", CASES.len(), STACK >> 10);
    failed == 0
}

fn main() {
    let args: Vec<String> = std::env::args().skip(1).collect();
    let args: Vec<&str> = args.iter().map(String::as_str).collect();
    match args[..] {
        [] => exit(if print_all() { 0 } else { 1 }),
        ["--least"] => print_least(),
        ["--call", name, stack] => {
            let case = CASES.iter().find(|case| case.0 == name).expect("a call's name");
            run(case, stack.parse().expect("a number of bytes"));
        }
        _ => {
            eprintln!("{USAGE}");
            exit(2)
        }
    }
}
