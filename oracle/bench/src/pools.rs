//! Both pools, and what is submitted and returned to them.

use ergo_mempool::Mempool;
use oracle::driver::config;
use oracle::forms::{Id, Output, Return, Settings, Tx, Verdict};
use oracle::rng::Rng;
use port::{id_of, Port, FULL};

use crate::calls::{Call, Submit};

/// Of a pool that does not get full.
pub const CAPACITY: usize = 4_095;
/// Of a transaction of few boxes, and of the largest.
const SIZE: u64 = 300;
const LARGEST: u64 = 98_304;
/// The peer from whom the largest come.
const PEER: u64 = 7;

/// Both pools and what makes their calls.
pub struct Pools {
    pub rng: Rng,
    pub rust: Mempool,
    pub port: Port,
}

/// Both pools list the same transactions in the same order and recommend the same fees.
pub fn agree(rust: &Mempool, port: &Port) {
    let ids = rust.all_prioritized().into_iter().map(|utx| utx.tx.id().0);
    assert!(ids.eq(port.top(usize::MAX).iter().map(|row| row.id)));
    for minutes in 0..=60 {
        assert_eq!(Ok(rust.recommended_fee(minutes, 1024)), port.recommended_fee(minutes, 1024));
    }
}

impl Pools {
    pub fn new(capacity: usize) -> Pools {
        Pools::keyed(capacity, 0)
    }

    /// Pools whose tables have this key.
    pub fn keyed(capacity: usize, key: u64) -> Pools {
        let settings = Settings {
            capacity: capacity as u64,
            min_fee: 1_000,
            by_cycle: false,
            interval: 30_000,
            rebroadcast: 3,
            ttl: 1_800_000,
            cache: 10_000,
            block_limit: 12_000_000,
            peer_limit: 10_000_000,
        };
        clock::set(0);
        let rust = Mempool::new(config(&settings));
        let mut port = Port::new(FULL);
        port.set_key(key);
        assert_eq!(port.start(&settings), 0);
        Pools { rng: Rng::new(5), rust, port }
    }

    pub fn id(&mut self) -> Id {
        id_of(&std::array::from_fn::<u64, 4, _>(|_| self.rng.next()))
    }

    pub fn ids(&mut self, count: usize) -> Vec<Id> {
        (0..count).map(|_| self.id()).collect()
    }

    /// A fee anywhere in the order.
    pub fn fee(&mut self) -> u64 {
        self.rng.between(1_000_000, 100_000_000)
    }

    /// 2 inputs, of which one may be a pooled box, and so many outputs.
    pub fn tx(&mut self, parent: Option<Id>, outputs: usize, fee: u64) -> Tx {
        let first = parent.unwrap_or_else(|| self.id());
        let inputs = vec![(first, parent.is_none()), (self.id(), true)];
        self.tx_of(inputs, outputs, fee)
    }

    fn tx_of(&mut self, inputs: Vec<(Id, bool)>, outputs: usize, fee: u64) -> Tx {
        let outputs = (0..outputs)
            .map(|k| Output { box_id: self.id(), value: fee, fee: k == 0, height: 50 })
            .collect();
        let (id, verdict) = (self.id(), Verdict::Ok(500));
        Tx { time: 0, id, peer: None, size: SIZE, preheader: 50, inputs, outputs, verdict }
    }

    /// One of the largest, from a peer: confirmed inputs or pooled ones, and so many outputs.
    pub fn large(&mut self, inputs: &[Id], confirmed: bool, outputs: usize) -> Tx {
        let inputs = inputs.iter().map(|id| (*id, confirmed)).collect();
        let fee = self.fee();
        let tx = self.tx_of(inputs, outputs, fee);
        Tx { size: LARGEST, peer: Some(PEER), ..tx }
    }

    /// A return with 2 inputs and 3 outputs.
    pub fn back(&mut self, id: Id, fee: u64) -> Return {
        let (inputs, outputs) = (self.ids(2), self.ids(3));
        Return {
            id,
            fee,
            size: SIZE,
            cost: 500,
            measured: Some(500),
            created: 0,
            checked: 0,
            peer: None,
            inputs,
            outputs: outputs.into_iter().map(|box_id| (box_id, 50)).collect(),
        }
    }

    /// Asks both, which must agree, and gives back what the port says.
    pub fn ask<C: Call>(&mut self, call: &C) -> u64 {
        clock::set(call.time());
        let here = call.port(&mut self.port);
        let there = C::rust(&mut call.there(), &mut self.rust);
        assert_eq!(C::meaning(there), (here, self.port.ids()));
        here
    }

    /// Submits until so many are pooled, and tells what.
    pub fn fill(&mut self, pooled: usize) -> Vec<Tx> {
        let mut txs = Vec::new();
        while self.rust.len() < pooled {
            let fee = self.fee();
            let tx = self.tx(None, 3, fee);
            self.ask(&Submit::from(tx.clone()));
            txs.push(tx);
        }
        txs
    }

    /// Submits transactions of 2 inputs and up to 14 outputs until so many box records are in use.
    pub fn crowd(&mut self, records: usize) {
        let mut used = self.port.records();
        while used < records {
            let fee = self.fee();
            let outputs = (records - used - 2).min(14);
            let tx = self.tx(None, outputs, fee);
            assert_eq!(self.ask(&Submit::from(tx)), port::ACCEPTED);
            used += 2 + outputs;
        }
        assert_eq!(self.port.records(), records);
    }
}
