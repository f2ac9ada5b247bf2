//! Transactions and blocks of very many boxes, in a store of full size. The Rust walks without its stop after 500 ms, as document 01 has it.

use oracle::forms::{Id, Return};
use port::{ACCEPTED, DONE};

use crate::calls::{alone, Apply, Call, GiveBack, Submit};
use crate::pools::{Pools, CAPACITY};
use crate::table::{commas, Table};

/// Box records in use beside a newcomer's.
const RECORDS: usize = 63_204;
const ROUNDS: usize = 5;
const GOAL: f64 = 1.0;

/// One call on copies of the pools. The row tells how many box records are in use before it.
fn single<C: Call>(table: &mut Table, name: &str, pools: &Pools, call: C) {
    let times = alone(pools, call, ROUNDS);
    let name = format!("{name}, {} records", commas(pools.port.records()));
    table.row(&name, times, Some(GOAL), Some(times));
}

/// A submission of many confirmed inputs.
pub fn confirmed_inputs(table: &mut Table, pooled: usize, inputs: usize) {
    let mut pools = Pools::new(CAPACITY);
    pools.fill(pooled);
    let ids = pools.ids(inputs);
    let tx = pools.large(&ids, true, 2);
    single(table, &format!("{} confirmed inputs", commas(inputs)), &pools, Submit::from(tx));
}

/// A submission that spends 500 outputs of one pooled transaction, which has 1,400 inputs: each of 500 visits looks at all of them.
pub fn outputs_of_one(table: &mut Table) {
    let mut pools = Pools::new(CAPACITY);
    let ids = pools.ids(1_400);
    let parent = pools.large(&ids, true, 501);
    let boxes: Vec<Id> = parent.outputs[1..].iter().map(|out| out.box_id).collect();
    assert_eq!(pools.ask(&Submit::from(parent)), ACCEPTED);
    pools.crowd(RECORDS);
    let tx = pools.large(&boxes, false, 1);
    single(table, "500 outputs of one of 1,400 inputs", &pools, Submit::from(tx));
}

/// A submission that visits a return of 20,000 inputs 100 times.
pub fn long_return(table: &mut Table, crowded: bool) {
    let mut pools = Pools::new(CAPACITY);
    let (id, fee) = (pools.id(), pools.fee());
    let (inputs, boxes) = (pools.ids(20_000), pools.ids(100));
    let outputs = boxes.iter().map(|box_id| (*box_id, 50)).collect();
    let given = Return { inputs, outputs, ..pools.back(id, fee) };
    assert_eq!(pools.ask(&GiveBack::from(given)), DONE);
    if crowded {
        pools.crowd(RECORDS);
    }
    let tx = pools.large(&boxes, false, 1);
    single(table, "100 visits to a return of 20,000 inputs", &pools, Submit::from(tx));
}

/// A block that lists 163,000 inputs, none of them of the pool.
pub fn long_block(table: &mut Table) {
    let mut pools = Pools::new(CAPACITY);
    pools.crowd(RECORDS);
    let txs = (0..326).map(|_| (pools.id(), pools.ids(500))).collect();
    single(table, "a block of 163,000 inputs", &pools, Apply::at(0, txs));
}
