//! Whole submissions.

use std::collections::BTreeSet;

use oracle::forms::{Id, Tx, Verdict};
use port::ACCEPTED;

use crate::calls::{each, in_a_row, longest, mean, Both, Invalidate, Submit, BAD};
use crate::pools::{Pools, CAPACITY};
use crate::table::{commas, Table};

/// Calls of a round, and rounds. Of each call the best round counts.
const CALLS: usize = 40;
const ROUNDS: usize = 60;
/// Of calls in a row.
const FEW_ROUNDS: usize = 5;
const PARENTS: usize = 20;
const CACHED: usize = 10_000;
const PEERS: u64 = 256;

#[derive(Clone, Copy, PartialEq, Eq)]
pub enum Kind {
    NoParent,
    Chain,
    Full,
}

impl Kind {
    pub fn name(self) -> &'static str {
        match self {
            Kind::NoParent => "no parent",
            Kind::Chain => "a chain of 20 parents",
            Kind::Full => "full pool, each evicts one",
        }
    }

    /// The ratio to reach.
    fn goal(self, pooled: usize) -> f64 {
        if self == Kind::NoParent || pooled <= 1_000 { 1.0 } else { 0.1 }
    }
}

/// Submissions to pools of this size: one by one.
pub fn measure(table: &mut Table, pooled: usize, kind: Kind) -> Both {
    let capacity = if kind == Kind::Full { pooled } else { CAPACITY };
    let mut pools = Pools::new(capacity);
    let mut tail = if kind == Kind::Chain { chain(&mut pools) } else { Vec::new() };
    // Around the size that is asked for.
    pools.fill(if kind == Kind::Full { pooled } else { pooled - CALLS / 2 });
    let calls: Vec<Submit> = (0..CALLS)
        .map(|_| {
            // Anywhere in the order; above the lowest where one has to go.
            let least = if kind == Kind::Full { 50_000_000 } else { 1_000_000 };
            let fee = pools.rng.between(least, least + 99_000_000);
            let parent = tail.pop();
            pools.tx(parent, 3, fee).into()
        })
        .collect();
    let times = each(&pools, &calls, ROUNDS);
    table.row(&format!("{} pooled, {}", commas(pooled), kind.name()), mean(&times), Some(kind.goal(pooled)), Some(longest(&times)));
    mean(&times)
}

/// A chain in the pool; of its last it gives a box for each call.
fn chain(pools: &mut Pools) -> Vec<Id> {
    let mut boxes: Vec<Id> = Vec::new();
    for depth in 1..=PARENTS {
        let outputs = if depth == PARENTS { 2 + CALLS } else { 3 };
        let tx = pools.tx(boxes.first().copied(), outputs, 5_000_000);
        boxes = tx.outputs.iter().skip(1).map(|out| out.box_id).collect();
        assert_eq!(pools.ask(&Submit::from(tx)), ACCEPTED);
    }
    boxes
}

/// As many submissions in a row as `rows` to a full pool, each of which evicts one: what is put off to a later submission is in the mean.
pub fn steady(table: &mut Table, pooled: usize, rows: usize) {
    let mut pools = Pools::new(pooled);
    let mut fees: BTreeSet<u64> = pools.fill(pooled).iter().map(|tx| tx.outputs[0].value).collect();
    let calls: Vec<Submit> = (0..rows)
        .map(|_| {
            // Above the lowest, and none twice, so that each takes a place.
            let least = *fees.first().expect("a full pool has a lowest") + 1;
            let fee = loop {
                let fee = pools.rng.between(least, least + 99_000_000);
                if fees.insert(fee) {
                    break fee;
                }
            };
            while fees.len() > pooled {
                fees.pop_first();
            }
            pools.tx(None, 3, fee).into()
        })
        .collect();
    let times = in_a_row(&pools, &calls, FEW_ROUNDS);
    let most = longest(&each(&pools, &calls, FEW_ROUNDS));
    let goal = if pooled <= 1_000 { 1.0 } else { 0.1 };
    table.row(&format!("{} pooled, full: {} in a row", commas(pooled), commas(rows)), times, Some(goal), Some(most));
}

/// A submission without parents among so many.
fn plain(pools: &mut Pools) -> Tx {
    let fee = pools.fee();
    pools.tx(None, 3, fee)
}

/// With as many ids in the cache as it takes, all of transactions that were found invalid.
pub fn cached(table: &mut Table, pooled: usize) {
    let mut pools = Pools::new(CAPACITY);
    let there = pools.fill(pooled);
    for _ in 0..CACHED {
        let tx = bad(&mut pools);
        assert_eq!(pools.ask(&Submit::from(tx)), BAD);
    }
    let name = |what: &str| format!("{} ids cached, {} pooled: {what}", commas(CACHED), commas(pooled));

    let calls: Vec<Submit> = (0..CALLS).map(|_| plain(&mut pools).into()).collect();
    let times = each(&pools, &calls, ROUNDS);
    table.row(&name("a submission"), mean(&times), Some(1.0), Some(longest(&times)));
    let calls: Vec<Submit> = (0..CALLS).map(|_| bad(&mut pools).into()).collect();
    let times = each(&pools, &calls, ROUNDS);
    table.row(&name("an invalid one"), mean(&times), Some(1.0), Some(longest(&times)));

    let calls: Vec<Invalidate> = pools.ids(5_000).into_iter().map(|id| Invalidate { time: 0, id }).collect();
    let times = in_a_row(&pools, &calls, FEW_ROUNDS);
    let most = longest(&each(&pools, &calls, FEW_ROUNDS));
    table.row(&name("an unknown id invalidated"), times, Some(1.0), Some(most));
    let calls: Vec<Invalidate> = there.iter().step_by(pooled / CALLS).map(|tx| Invalidate { time: 0, id: tx.id }).collect();
    let times = each(&pools, &calls, ROUNDS);
    table.row(&name("a pooled id invalidated"), mean(&times), Some(1.0), Some(longest(&times)));
}

/// A submission that is found invalid.
fn bad(pools: &mut Pools) -> Tx {
    Tx { verdict: Verdict::Bad, ..plain(pools) }
}

/// Submissions of peers that have a record, all records being used.
pub fn charged(table: &mut Table, pooled: usize) {
    let mut pools = Pools::new(CAPACITY);
    for peer in 0..PEERS {
        let tx = Tx { peer: Some(peer), ..plain(&mut pools) };
        assert_eq!(pools.ask(&Submit::from(tx)), ACCEPTED);
    }
    pools.fill(pooled);
    let calls: Vec<Submit> = (0..CALLS)
        .map(|_| {
            let peer = pools.rng.below(PEERS);
            Tx { peer: Some(peer), ..plain(&mut pools) }.into()
        })
        .collect();
    let times = each(&pools, &calls, ROUNDS);
    table.row(&format!("{PEERS} peers charged, {} pooled: a submission of one", commas(pooled)), mean(&times), Some(1.5), Some(longest(&times)));
}
