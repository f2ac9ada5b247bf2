//! A lookup by id, and ids that are chosen so that a table of buckets finds them slowly.

use oracle::forms::{Id, Tx};
use oracle::rng::Rng;
use port::{bucket_of, id_of, slots, words_of, FULL};

use crate::calls::{compare, each, longest, mean, Both, GiveBack, Submit};
use crate::pools::{Pools, CAPACITY};
use crate::table::{commas, Table};

const GOAL: f64 = 1.5;
/// A key that nobody has told.
const SECRET: u64 = 0x5bd1_e995_9e37_79b9;

/// Pools of these ids, given back with falling fees: each id's rank is its place here.
fn ranked(key: u64, ids: &[Id]) -> Pools {
    let mut pools = Pools::keyed(CAPACITY, key);
    for (id, rank) in ids.iter().zip(0..) {
        let given = pools.back(*id, 100_000_000 - rank * 10_000);
        pools.ask(&GiveBack::from(given));
    }
    pools
}

/// An id as either side takes it.
type Asked = (Id, [u64; 4]);

/// Every second of a thousand is one of `ids`, the others are of `unknown`.
fn asked(ids: &[Id], unknown: &[Id]) -> Vec<Asked> {
    let pick = |k: usize| if k % 2 == 0 { ids[k * 7 % ids.len()] } else { unknown[k % unknown.len()] };
    (0..1_000).map(pick).map(|id| (id, words_of(&id))).collect()
}

fn contains(pools: &Pools, asked: &[Asked]) -> Both {
    let there = |(id, _): &Asked| u64::from(pools.rust.contains(id));
    let here = |(_, words): &Asked| pools.port.contains_words(0, *words);
    compare(asked, there, here)
}

/// Whether an id is pooled, and the rank, for which the Rust's own map has the key.
pub fn measure(table: &mut Table, pooled: usize) -> Both {
    let mut ids = chosen(pooled + 500, 1);
    let unknown = ids.split_off(pooled);
    let pools = ranked(0, &ids);
    let asked = asked(&ids, &unknown);
    let found = contains(&pools, &asked);
    table.row(&format!("{} pooled, contains", commas(pooled)), found, Some(GOAL), None);

    for (rank, id) in ids.iter().enumerate() {
        assert_eq!(pools.port.rank(pooled, words_of(id)), rank as u64);
    }
    let there = |(id, _): &Asked| u64::from(pools.rust.weight_of(id).is_none());
    let here = |(_, words): &Asked| u64::from(pools.port.rank(pooled, *words) == u64::MAX);
    table.row(&format!("{} pooled, the rank (rust: the key)", commas(pooled)), compare(&asked, there, here), Some(GOAL), None);
    found
}

/// So many ids that are, under key 0, in one of so many buckets.
fn chosen(count: usize, buckets: u64) -> Vec<Id> {
    let mut rng = Rng::new(7);
    let mut ids = Vec::with_capacity(count);
    while ids.len() < count {
        let d = rng.next();
        if bucket_of(d, 0, buckets) == 0 {
            ids.push(id_of(&[rng.next(), rng.next(), rng.next(), d]));
        }
    }
    ids
}

/// The pool holds ids of one bucket, and more of them are asked for and submitted: under the key that they were chosen for, and under another.
pub fn one_bucket(table: &mut Table, count: usize) {
    let mut ids = chosen(count + 540, FULL.entries as u64);
    let (newcomers, unknown) = (ids.split_off(count + 500), ids.split_off(count));
    for (key, name, goals) in [(0, "known", None), (SECRET, "secret", Some((GOAL, 1.0)))] {
        let mut pools = ranked(key, &ids);
        let found = contains(&pools, &asked(&ids, &unknown));
        table.row(&format!("{} ids of one bucket, key {name}: contains", commas(count)), found, goals.map(|g| g.0), None);
        let calls: Vec<Submit> = newcomers.iter().map(|id| with_id(&mut pools, *id).into()).collect();
        let times = each(&pools, &calls, 20);
        table.row(&format!("{} ids of one bucket, key {name}: a submission", commas(count)), mean(&times), goals.map(|g| g.1), Some(longest(&times)));
    }
}

fn with_id(pools: &mut Pools, id: Id) -> Tx {
    let fee = pools.fee();
    Tx { id, ..pools.tx(None, 3, fee) }
}

/// The pool holds boxes of one bucket, and submissions spend one of them and make three more.
pub fn boxes_of_one_bucket(table: &mut Table, count: usize) {
    const EACH: usize = 20;
    let mut boxes = chosen(count + 120, slots(FULL.records) as u64);
    let more = boxes.split_off(count);
    for (key, name, goal) in [(0, "known", None), (SECRET, "secret", Some(1.0))] {
        let mut pools = Pools::keyed(CAPACITY, key);
        for made in boxes.chunks(EACH) {
            let (id, fee) = (pools.id(), pools.fee());
            let mut given = pools.back(id, fee);
            given.outputs = made.iter().map(|box_id| (*box_id, 50)).collect();
            pools.ask(&GiveBack::from(given));
        }
        let spend = |(made, spent): (&[Id], &Id)| spending(&mut pools, *spent, made).into();
        let calls: Vec<Submit> = more.chunks(3).zip(boxes.iter().step_by(EACH)).map(spend).collect();
        let times = each(&pools, &calls, 20);
        table.row(&format!("{} boxes of one bucket, key {name}: a submission", commas(count)), mean(&times), goal, Some(longest(&times)));
    }
}

fn spending(pools: &mut Pools, spent: Id, made: &[Id]) -> Tx {
    let fee = pools.fee();
    let mut tx = pools.tx(Some(spent), made.len(), fee);
    for (out, box_id) in tx.outputs.iter_mut().zip(made) {
        out.box_id = *box_id;
    }
    tx
}
