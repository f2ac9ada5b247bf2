//! Blocks, returns and the fee queries.

use clock::Instant;
use oracle::forms::{Id, Tx};
use port::{APPLIED, DONE};

use crate::calls::{alone, compare, each, longest, sum, Apply, GiveBack};
use crate::pools::{Pools, CAPACITY};
use crate::table::{commas, Table};

/// Rounds of a block and of the returns. Of each call the best counts.
const ROUNDS: usize = 40;
/// Half an hour after the pool was filled, so that waits have a bin.
const TIME: u64 = 1_800_000;
/// The longest wait of those that are spread over an hour; it has no bin.
const HOUR: u64 = 3_600_000;
const BINS: u32 = 60;

/// Every second pooled transaction, with its inputs.
fn half(pooled: &[Tx]) -> Vec<(Id, Vec<Id>)> {
    let inputs = |tx: &Tx| tx.inputs.iter().map(|(box_id, _)| *box_id).collect();
    pooled.iter().step_by(2).map(|tx| (tx.id, inputs(tx))).collect()
}

/// A block of half of the pooled transactions.
pub fn block(table: &mut Table, pooled: usize) {
    let mut pools = Pools::new(CAPACITY);
    let txs = half(&pools.fill(pooled));
    let name = format!("a block of {} of {} pooled", txs.len(), commas(pooled));
    confirm(table, &name, &pools, Apply::at(TIME, txs), 0.2);
}

/// A block of all so many pooled transactions, the lowest first, whose waits are spread over the hour, up to the hour itself.
/// Without boxes, what a block costs beside the statistics is little: an id is looked up, and the last entry goes.
pub fn hour(table: &mut Table, count: usize, boxes: bool) {
    let mut pools = Pools::new(CAPACITY);
    let mut txs = Vec::new();
    for k in 1..=count as u64 {
        let (id, fee) = (pools.id(), pools.fee());
        let mut given = pools.back(id, fee);
        given.created = HOUR - HOUR * k / count as u64;
        if !boxes {
            given.inputs.clear();
            given.outputs.clear();
        }
        txs.push((fee, (id, given.inputs.clone())));
        assert_eq!(pools.ask(&GiveBack::from(given)), DONE);
    }
    txs.sort();
    let txs = txs.into_iter().map(|(_, tx)| tx).collect();
    let kind = if boxes { "waits over the hour" } else { "the same, no boxes" };
    confirm(table, &format!("{} confirmed, {kind}", commas(count)), &pools, Apply::at(HOUR, txs), 1.0);
}

fn confirm(table: &mut Table, name: &str, pools: &Pools, block: Apply, goal: f64) {
    let times = alone(pools, block, ROUNDS);
    table.row(name, times, Some(goal), Some(times));
}

/// So many returns to an empty pool, one by one.
pub fn returns(table: &mut Table, count: usize) {
    let mut pools = Pools::new(CAPACITY);
    let calls: Vec<GiveBack> = (0..count)
        .map(|_| {
            let (id, fee) = (pools.id(), pools.fee());
            pools.back(id, fee).into()
        })
        .collect();
    let times = each(&pools, &calls, ROUNDS);
    table.row(&format!("{} returns", commas(count)), sum(&times), Some(1.0), Some(longest(&times)));
}

/// Pools of so many, after a block has filled the statistics.
fn with_statistics(pooled: usize) -> Pools {
    let mut pools = Pools::new(CAPACITY);
    let first = half(&pools.fill(200));
    assert_eq!(pools.ask(&Apply::at(TIME, first)), APPLIED);
    pools.fill(pooled);
    pools
}

/// The fee queries on so many pooled.
pub fn fees(table: &mut Table, pooled: usize) {
    let mut pools = with_statistics(pooled);
    recommended(table, &mut pools, pooled);
    waits(table, &mut pools, pooled);
    bars(table, &mut pools, pooled);
}

fn recommended(table: &mut Table, pools: &mut Pools, pooled: usize) {
    let Pools { rng, rust, port } = pools;
    let asked: Vec<(u32, u32)> =
        (0..200).map(|_| (rng.below(90) as u32, rng.between(1, 98_304) as u32)).collect();
    let there = |&(minutes, size): &(u32, u32)| rust.recommended_fee(minutes, size);
    let here = |&(minutes, size): &(u32, u32)| port.recommended_fee(minutes, size).expect("a fee");
    table.row(&format!("recommended_fee, {} pooled", commas(pooled)), compare(&asked, there, here), Some(1.0), None);
}

fn waits(table: &mut Table, pools: &mut Pools, pooled: usize) {
    let Pools { rng, rust, port } = pools;
    let asked: Vec<(u64, u64, u32)> = (0..50)
        .map(|k| (TIME + k * 1_000, rng.between(1, 200_000_000), rng.between(1, 3_000) as u32))
        .collect();
    let there = |&(time, fee, size): &(u64, u64, u32)| rust.expected_wait_ms_at(Instant::at(time), fee, size);
    let here = |&(time, fee, size): &(u64, u64, u32)| port.expected_wait_ms_at(time, fee, size).expect("a wait");
    table.row(&format!("expected_wait_ms_at, {} pooled", commas(pooled)), compare(&asked, there, here), Some(1.0), None);
}

fn bars(table: &mut Table, pools: &mut Pools, pooled: usize) {
    let Pools { rng, rust, port } = pools;
    let asked: Vec<(u64, u64)> = (1..=50).map(|k| (k * 60_000, rng.between(60, 7_200_000))).collect();
    for &(at, longest) in &asked {
        let mut words = vec![0; (BINS as usize + 1) * 2];
        let pairs = port.pool_histogram_at(at, BINS, longest, &mut words).expect("bins");
        let there = rust.pool_histogram_at(Instant::at(at), BINS, longest);
        let there = there.iter().flat_map(|bin| [u64::from(bin.n_txns), bin.total_fee]);
        assert!(there.eq(words[..pairs * 2].iter().copied()));
    }
    let there = |&(at, longest): &(u64, u64)| rust.pool_histogram_at(Instant::at(at), BINS, longest).len() as u64;
    let here = |&(at, longest): &(u64, u64)| {
        let mut words = vec![0; (BINS as usize + 1) * 2];
        port.pool_histogram_at(at, BINS, longest, &mut words).expect("bins") as u64
    };
    table.row(&format!("pool_histogram_at, {BINS} bins, {} pooled", commas(pooled)), compare(&asked, there, here), Some(1.0), None);
}
