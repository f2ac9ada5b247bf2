//! Calls that both sides take, and their times.

use std::hint::black_box;
use std::time::{Duration, Instant};

use ergo_lib::chain::transaction::Transaction;
use ergo_lib::ergotree_ir::ergo_tree::ErgoTreeVersion;
use ergo_mempool::types::{ProcessingOutcome, UnconfirmedTx};
use ergo_mempool::Mempool;
use ergo_validation::ErgoStateContext;
use oracle::driver::{confirmed, context, given_back, judge, transaction, Flags};
use oracle::forms::{Id, Return, Tx};
use port::{Block, GivenBack, Port, Submission, ACCEPTED, APPLIED, DONE, FULL, REPLACED};

use crate::pools::{agree, Pools};

/// Refusal 9: an invalid verdict.
pub const BAD: u64 = 9;

/// No rounds more once a row has taken so long.
const ENOUGH: Duration = Duration::from_secs(4);

/// A call that both sides take.
pub trait Call {
    /// What the Rust's side takes for itself, made before its clock runs; what is left of it is dropped after.
    type There;
    type Answer;
    fn there(&self) -> Self::There;
    fn rust(there: &mut Self::There, pool: &mut Mempool) -> Self::Answer;
    /// The number that the port has for the Rust's answer, and the ids that it names.
    fn meaning(answer: Self::Answer) -> (u64, Vec<Id>);
    fn port(&self, port: &mut Port) -> u64;
    /// The time that the Rust's clock shows. Calls that are measured together have the same.
    fn time(&self) -> u64;
}

/// A submission.
pub struct Submit {
    tx: Tx,
    words: Submission,
}

impl From<Tx> for Submit {
    fn from(tx: Tx) -> Submit {
        Submit { words: Submission::of(&tx), tx }
    }
}

/// A submission as the Rust takes it. The pool keeps what it takes.
pub struct Made {
    taken: Option<(Transaction, Vec<u8>)>,
    reader: Flags,
    context: ErgoStateContext,
    peer: Option<u64>,
}

impl Call for Submit {
    type There = Made;
    type Answer = ProcessingOutcome;

    fn there(&self) -> Made {
        Made {
            taken: Some((transaction(&self.tx), vec![0; self.tx.size as usize])),
            reader: Flags::of(&self.tx),
            context: context(self.tx.preheader, judge(self.tx.verdict)),
            peer: self.tx.peer,
        }
    }

    fn rust(made: &mut Made, pool: &mut Mempool) -> ProcessingOutcome {
        let (tx, bytes) = made.taken.take().expect("a call is made once");
        pool.process(tx, bytes, ErgoTreeVersion, &made.reader, &made.context, made.peer)
    }

    fn meaning(outcome: ProcessingOutcome) -> (u64, Vec<Id>) {
        match outcome {
            ProcessingOutcome::Accepted { .. } => (ACCEPTED, Vec::new()),
            ProcessingOutcome::Replaced { removed, .. } => (REPLACED, removed),
            ProcessingOutcome::Invalidated { .. } => (BAD, Vec::new()),
            other => panic!("no row has such an outcome: {other:?}"),
        }
    }

    #[inline]
    fn port(&self, port: &mut Port) -> u64 {
        port.process(&self.words, FULL.answer_words)
    }

    fn time(&self) -> u64 {
        self.tx.time
    }
}

/// A return.
pub struct GiveBack {
    given: Return,
    words: GivenBack,
}

impl From<Return> for GiveBack {
    fn from(given: Return) -> GiveBack {
        GiveBack { words: GivenBack::of(&given), given }
    }
}

impl Call for GiveBack {
    type There = Vec<UnconfirmedTx>;
    type Answer = ();

    fn there(&self) -> Vec<UnconfirmedTx> {
        vec![given_back(&self.given)]
    }

    fn rust(there: &mut Vec<UnconfirmedTx>, pool: &mut Mempool) {
        pool.return_to_pool(std::mem::take(there));
    }

    fn meaning((): ()) -> (u64, Vec<Id>) {
        (DONE, Vec::new())
    }

    #[inline]
    fn port(&self, port: &mut Port) -> u64 {
        port.return_to_pool(&self.words)
    }

    fn time(&self) -> u64 {
        0
    }
}

/// An invalidation.
pub struct Invalidate {
    pub time: u64,
    pub id: Id,
}

impl Call for Invalidate {
    type There = Id;
    type Answer = ();

    fn there(&self) -> Id {
        self.id
    }

    fn rust(id: &mut Id, pool: &mut Mempool) {
        pool.invalidate(id);
    }

    fn meaning((): ()) -> (u64, Vec<Id>) {
        (DONE, Vec::new())
    }

    #[inline]
    fn port(&self, port: &mut Port) -> u64 {
        port.invalidate(self.time, &self.id)
    }

    fn time(&self) -> u64 {
        self.time
    }
}

/// A block.
pub struct Apply {
    time: u64,
    txs: Vec<(Id, Vec<Id>)>,
    words: Block,
}

impl Apply {
    pub fn at(time: u64, txs: Vec<(Id, Vec<Id>)>) -> Apply {
        Apply { words: Block::of(&txs), time, txs }
    }
}

impl Call for Apply {
    type There = (u64, Vec<Transaction>);
    type Answer = Vec<Id>;

    fn there(&self) -> (u64, Vec<Transaction>) {
        (self.time, confirmed(&self.txs))
    }

    fn rust((time, txs): &mut (u64, Vec<Transaction>), pool: &mut Mempool) -> Vec<Id> {
        pool.apply_block_at(clock::Instant::at(*time), txs)
    }

    fn meaning(removed: Vec<Id>) -> (u64, Vec<Id>) {
        (APPLIED, removed)
    }

    #[inline]
    fn port(&self, port: &mut Port) -> u64 {
        port.apply_block_at(self.time, &self.words, FULL.answer_words)
    }

    fn time(&self) -> u64 {
        self.time
    }
}

/// Nanoseconds of both sides.
#[derive(Clone, Copy, Debug)]
pub struct Both {
    pub rust: f64,
    pub port: f64,
}

impl Both {
    const NEVER: Both = Both { rust: f64::MAX, port: f64::MAX };
    const NONE: Both = Both { rust: 0.0, port: 0.0 };

    pub fn ratio(self) -> f64 {
        self.port / self.rust
    }

    fn merge(self, other: Both, f: impl Fn(f64, f64) -> f64) -> Both {
        Both { rust: f(self.rust, other.rust), port: f(self.port, other.port) }
    }
}

pub fn sum(times: &[Both]) -> Both {
    times.iter().fold(Both::NONE, |sum, t| sum.merge(*t, |a, b| a + b))
}

pub fn mean(times: &[Both]) -> Both {
    let all = sum(times);
    Both { rust: all.rust / times.len() as f64, port: all.port / times.len() as f64 }
}

/// The longest call of either side.
pub fn longest(times: &[Both]) -> Both {
    times.iter().fold(Both::NONE, |most, t| most.merge(*t, f64::max))
}

/// What is read before and after a call.
#[derive(Clone, Copy)]
enum Watch {
    /// The time that passes.
    Wall = 1,
    /// The time that this thread is given, for long calls: others on the machine do not lengthen them. To read it takes longer.
    Thread = 3,
}

#[repr(C)]
struct Timespec {
    seconds: i64,
    nanoseconds: i64,
}

extern "C" {
    fn clock_gettime(clock: i32, time: *mut Timespec) -> i32;
}

impl Watch {
    /// Nanoseconds.
    #[inline]
    fn now(self) -> i64 {
        let mut time = Timespec { seconds: 0, nanoseconds: 0 };
        // SAFETY: as POSIX has it, on x86-64 Linux; both clocks are there, by these numbers.
        let read = unsafe { clock_gettime(self as i32, &mut time) };
        assert_eq!(read, 0);
        time.seconds * 1_000_000_000 + time.nanoseconds
    }
}

/// Keeps the best nanoseconds of a call.
#[inline]
fn timed<T>(watch: Watch, best: &mut f64, call: impl FnOnce() -> T) -> T {
    let began = watch.now();
    let answer = black_box(call());
    *best = best.min((watch.now() - began) as f64);
    answer
}

/// Nanoseconds for one question: the best of several rounds over the same ones.
pub fn time<T>(asked: &[T], answer: impl Fn(&T) -> u64) -> f64 {
    let mut best = f64::MAX;
    for _ in 0..20 {
        timed(Watch::Wall, &mut best, || {
            for ask in asked {
                black_box(answer(black_box(ask)));
            }
        });
    }
    best / asked.len() as f64
}

/// Both give the same answers; then the times of both.
pub fn compare<T>(asked: &[T], there: impl Fn(&T) -> u64, here: impl Fn(&T) -> u64) -> Both {
    for ask in asked {
        assert_eq!(there(ask), here(ask));
    }
    Both { rust: time(asked, there), port: time(asked, here) }
}

/// Rounds, until it is enough.
fn rounds(most: usize) -> impl Iterator<Item = usize> {
    let began = Instant::now();
    (0..most).take_while(move |round| *round == 0 || began.elapsed() < ENOUGH)
}

/// The times of each of these calls, one after the other on copies of the pools: the best of so many rounds. Copying and comparing are not timed.
pub fn each<C: Call>(pools: &Pools, calls: &[C], most: usize) -> Vec<Both> {
    by(1, Watch::Wall, pools, calls, most)
}

/// The times of one long call.
pub fn alone<C: Call>(pools: &Pools, call: C, most: usize) -> Both {
    by(1, Watch::Thread, pools, &[call], most)[0]
}

/// The time of one of these calls in a row, by a clock for each hundred: what is put off to a later call is in the mean. Of each hundred the best of so many
/// rounds.
pub fn in_a_row<C: Call>(pools: &Pools, calls: &[C], most: usize) -> Both {
    let times = sum(&by(100, Watch::Wall, pools, calls, most));
    Both { rust: times.rust / calls.len() as f64, port: times.port / calls.len() as f64 }
}

/// The times of so many calls together. What a side takes is made, then its pool is copied, then its clock runs.
fn by<C: Call>(together: usize, watch: Watch, pools: &Pools, calls: &[C], most: usize) -> Vec<Both> {
    let mut best = vec![Both::NEVER; calls.len().div_ceil(together)];
    clock::set(calls[0].time());
    for _ in rounds(most) {
        let mut here = Vec::with_capacity(calls.len());
        let mut port = pools.port.clone();
        for (calls, best) in calls.chunks(together).zip(&mut best) {
            timed(watch, &mut best.port, || here.extend(calls.iter().map(|call| black_box(call).port(&mut port))));
        }
        let mut made: Vec<C::There> = calls.iter().map(C::there).collect();
        let mut there = Vec::with_capacity(calls.len());
        let mut pool = pools.rust.deep_clone();
        for (made, best) in made.chunks_mut(together).zip(&mut best) {
            timed(watch, &mut best.rust, || there.extend(made.iter_mut().map(|made| C::rust(black_box(made), &mut pool))));
        }
        assert!(there.into_iter().map(|answer| C::meaning(answer).0).eq(here));
        agree(&pool, &port);
    }
    best
}
