//! Random lists of puts and turns through the proved queue and through the model. After every call the answers are compared, and every few calls
//! the whole queue, read out of its words. Each handle's wait is held against 256 × (k + 1) turns.
use std::collections::VecDeque;

use gunthyd::intake::{Intake, LAST_AT, LINE_WORDS, QUEUE_WORDS};

use crate::model::{Model, LINES, PLACES};
use crate::rng::Rng;

/// What occurred. A comparison that never met one of these shows nothing.
#[derive(Default)]
pub struct Seen {
    pub lists: u64,
    pub calls: u64,
    pub stored: u64,
    pub full: u64,
    pub no_line: u64,
    pub served: u64,
    pub none: u64,
    /// handles stored at a count of 0: the tail had just wrapped
    pub wrapped: u64,
    /// handles handed out after exactly 256 × (k + 1) turns
    pub at_bound: u64,
}

impl Seen {
    pub fn missing(&self) -> Vec<&'static str> {
        let all = [
            (self.stored, "a handle stored"),
            (self.full, "a full line"),
            (self.no_line, "a line above 255"),
            (self.served, "a handle served"),
            (self.none, "an empty queue"),
            (self.wrapped, "a wrap at 2^32"),
            (self.at_bound, "a wait of exactly 256 x (k + 1) turns"),
        ];
        all.iter().filter(|(count, _)| *count == 0).map(|(_, name)| *name).collect()
    }
}

/// Empty lines whose heads and tails begin at `count`, with high halves and old handles that nobody should read.
fn empty_at(count: impl Fn(usize) -> u32, last: usize, rng: &mut Rng) -> Intake {
    let mut words = Box::new([0u64; QUEUE_WORDS]);
    for word in words.iter_mut() {
        *word = rng.next();
    }
    for line in 0..LINES {
        for end in [0, 1] {
            let word = &mut words[line * LINE_WORDS + end];
            *word = *word << 32 | u64::from(count(line));
        }
    }
    words[LAST_AT] = words[LAST_AT] << 8 | last as u64;
    Intake::from_words(words)
}

/// The lines as the words have them, the oldest handle first.
fn read(words: &[u64]) -> (Vec<VecDeque<u64>>, usize) {
    let lines = (0..LINES).map(|line| {
        let own = &words[line * LINE_WORDS..][..LINE_WORDS];
        let (head, tail) = (own[0] as u32, own[1] as u32);
        (0..tail.wrapping_sub(head)).map(|j| own[2 + head.wrapping_add(j) as usize % PLACES]).collect()
    });
    (lines.collect(), words[LAST_AT] as usize % LINES)
}

/// The proved queue and the model, which are given the same calls.
struct Both<'a> {
    port: Intake,
    model: Model,
    /// of each handle held: the turns before it, and the number before it in its line
    waits: Vec<VecDeque<(u64, u64)>>,
    turns: u64,
    seed: u64,
    /// the number of the call that is made
    call: u64,
    seen: &'a mut Seen,
}

impl<'a> Both<'a> {
    /// A start, or empty lines whose heads and tails stand just below 2^32 or anywhere.
    fn new(seed: u64, rng: &mut Rng, seen: &'a mut Seen) -> Self {
        let near = rng.below(40) as u32;
        let last = rng.below(LINES as u64) as usize;
        let (port, model) = match seed % 4 {
            0 => (Intake::new(), Model::new(LINES - 1)),
            1 => (empty_at(|_| near.wrapping_neg(), last, rng), Model::new(last)),
            2 => (empty_at(|line| (near + line as u32 % 20).wrapping_neg(), last, rng), Model::new(last)),
            _ => (empty_at(|line| (line as u32 + 1).wrapping_mul(0x9e37_79b9), last, rng), Model::new(last)),
        };
        Both { port, model, waits: vec![VecDeque::new(); LINES], turns: 0, seed, call: 0, seen }
    }

    fn put(&mut self, line: u64, handle: u64) {
        let (seed, n) = (self.seed, self.call);
        let before = self.port.words().to_vec();
        let said = self.port.put(line, handle);
        assert_eq!(said.is_ok(), self.model.put(line, handle), "seed {seed}, call {n}: put {line}");
        match said {
            Ok(()) => {
                self.seen.stored += 1;
                let line = line as usize;
                self.seen.wrapped += u64::from(before[line * LINE_WORDS + 1] as u32 == 0 && seed % 4 != 0);
                let k = self.waits[line].len() as u64;
                self.waits[line].push_back((self.turns, k));
            }
            Err(refused) => {
                assert_eq!(refused.number(), 32, "seed {seed}, call {n}");
                assert_eq!(self.port.words(), before, "seed {seed}, call {n}: a refusal stores nothing");
                *if line > 255 { &mut self.seen.no_line } else { &mut self.seen.full } += 1;
            }
        }
    }

    fn turn(&mut self) {
        let (seed, n) = (self.seed, self.call);
        let before = self.port.words().to_vec();
        let said = self.port.turn();
        assert_eq!(said.map(|s| (s.line, s.handle)), self.model.turn(), "seed {seed}, call {n}: turn");
        self.turns += 1;
        match said {
            Some(served) => {
                self.seen.served += 1;
                let (since, k) = self.waits[served.line as usize].pop_front().expect("it was stored");
                let waited = self.turns - since;
                assert!(waited <= 256 * (k + 1), "seed {seed}, call {n}: waited {waited} turns with {k} before it");
                self.seen.at_bound += u64::from(waited == 256 * (k + 1));
            }
            None => {
                self.seen.none += 1;
                assert_eq!(self.port.words(), before, "seed {seed}, call {n}: 'none' changes nothing");
            }
        }
    }
}

/// One list from a seed.
fn list(seed: u64, seen: &mut Seen) {
    let mut rng = Rng::new(seed);
    let mut both = Both::new(seed, &mut rng, seen);
    // how many lines are used, and how often a call is a put
    let lines = rng.pick(&[1, 2, 5, 40, 256]);
    let puts = rng.pick(&[20, 50, 60, 90]);
    let calls = rng.between(300, 3_000);
    // some lists fill every line first
    let flood = if seed % 5 == 0 { 512 } else { 0 };
    for n in 0..calls + flood {
        both.call = n;
        if n < flood || rng.chance(puts) {
            let line = match rng.below(50) {
                _ if n < flood => n % 256,
                0 => rng.pick(&[256, 257, 511, 1 << 32, u64::MAX]),
                _ => rng.below(lines),
            };
            both.put(line, rng.next());
        } else {
            both.turn();
        }
        if n % 64 == 0 || n + 1 == calls {
            let model = (both.model.lines.clone(), both.model.last);
            assert_eq!(read(both.port.words()), model, "seed {seed}, call {n}: the queue");
        }
        both.seen.calls += 1;
    }
    both.seen.lists += 1;
}

/// Words that no call left: every call ends, with an outcome of its kinds.
fn junk(seed: u64, seen: &mut Seen) {
    let mut rng = Rng::new(seed ^ 0x6a75_6e6b);
    let mut words = Box::new([0u64; QUEUE_WORDS]);
    for word in words.iter_mut() {
        *word = rng.next() >> rng.below(64);
    }
    let mut port = Intake::from_words(words);
    for _ in 0..200 {
        if rng.chance(50) {
            let line = rng.below(260);
            let said = port.put(line, rng.next());
            assert!(said.map_or_else(|r| r.number() == 32, |()| line < 256), "seed {seed}");
        } else if let Some(served) = port.turn() {
            assert!(served.line < 256, "seed {seed}");
        }
        seen.calls += 1;
    }
}

/// Fails by a panic at the first difference.
pub fn run(lists: u64) -> Seen {
    let mut seen = Seen::default();
    for seed in 0..lists {
        list(seed, &mut seen);
        junk(seed, &mut seen);
    }
    seen
}
