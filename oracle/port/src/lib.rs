//! The proved pool, linked as a static library, over memory that is lent here.
//! What the calls take and answer are words; only this file knows which.

use oracle::driver::{Store, PEERS};
use oracle::forms::{Id, Return, Settings, Tx, Verdict};

// The tables, in words of 64 bits. How many records a table holds follows from the length of the slice that is lent: a slice of `entries_words(n)` words holds n
// entries, and so on. Each of the first three has S slots, as many buckets of ids, and behind the slots a word of its own and the key of the buckets, which is the
// last word. A head that stands in a slot belongs to the bucket that has the slot's number.
//
// entries: S slots for S entries, 17 words each: id (4), weight, base, size, cost, whether its cost was measured, the measured cost, created, last checked, height
// key, number of inputs, whether the slot is in use, link, head; S words of order, which name the slot of each rank; how many slots are known; the key.
// boxes: S slots for S * 4 / 5 records, 11 words each, in order of entry: id of the box (4), kind (0 an input, 1 an output, 2 vacated, 3 a hidden input, others a
// hidden output), link among boxes, id of its owner (4), link among owners; S heads of buckets of boxes; S of buckets of owners; how many slots are used; the key.
// cache: S slots for S * 4 / 5 ids, 7 words each, oldest first: id (4), since, link, head; the first slot that is held; the key.
// peers: records, of two words each: peer, sum.

/// Where the head of a bucket stands: at a word of the slot with the bucket's number, or in a column behind all slots.
#[derive(Clone, Copy)]
pub enum Head {
    In(usize),
    Behind(usize),
}

/// How a table's words lie.
pub struct Layout {
    /// The words of a slot, and which of them are the index's; of a box record its kind too.
    pub slot: usize,
    pub index: &'static [usize],
    /// Of each of its ids the last word, and the heads of buckets of such ids.
    pub heads: &'static [(usize, Head)],
    /// Columns behind the slots, of a word for each of them: the order, or heads.
    pub columns: usize,
    /// Words behind all others.
    pub last: usize,
}

pub const ENTRIES: Layout = Layout { slot: 17, index: &[14, 15, 16], heads: &[(3, Head::In(16))], columns: 1, last: 2 };
pub const BOXES: Layout = Layout { slot: 11, index: &[4, 5, 10], heads: &[(3, Head::Behind(0)), (9, Head::Behind(1))], columns: 2, last: 2 };
pub const CACHE: Layout = Layout { slot: 7, index: &[5, 6], heads: &[(3, Head::In(6))], columns: 0, last: 2 };
pub const PEER_RECORDS: Layout = Layout { slot: PEER_WORDS, index: &[0], heads: &[], columns: 0, last: 0 };

impl Layout {
    pub const fn words(&self, slots: usize) -> usize {
        slots * (self.slot + self.columns) + self.last
    }

    pub const fn slots(&self, words: usize) -> usize {
        words.saturating_sub(self.last) / (self.slot + self.columns)
    }

    /// The place of a bucket's head, in a table of so many slots.
    pub const fn head(&self, head: Head, slots: usize, bucket: usize) -> usize {
        match head {
            Head::In(word) => self.slot * bucket + word,
            Head::Behind(column) => (self.slot + column) * slots + bucket,
        }
    }
}

/// Of an entry's words: whether its cost was measured, the measured cost, created, last checked.
const MEASURED: usize = 8;
const MEASURED_COST: usize = 9;
const CREATED: usize = 10;
const CHECKED: usize = 11;

/// The least number of slots of which four fifths are so many.
pub const fn slots(records: usize) -> usize {
    (records * 5 + 3) / 4
}

/// The bucket, of so many, of ids whose last word is `d`: as crate `words` has it (src/buckets.rt).
pub const fn bucket_of(d: u64, key: u64, buckets: u64) -> u64 {
    const FACTORS: u64 = 1 << 31;
    const HALF: u64 = 1 << 32;
    let a = (key % FACTORS + 1_540_483_477) % FACTORS * 2 + 1;
    let b = (key / FACTORS % FACTORS + 461_845_907) % FACTORS * 2 + 1;
    let x = ((d % HALF) * a % HALF + (d >> 32) * b % HALF) % HALF;
    if buckets < 1 << 32 {
        return (x * buckets) >> 32;
    }
    x % buckets
}

/// The words of a table of so many entries.
pub const fn entries_words(entries: usize) -> usize {
    ENTRIES.words(entries)
}

/// The words of a table of so many box records.
pub const fn boxes_words(records: usize) -> usize {
    BOXES.words(slots(records))
}

/// The words of a cache of so many ids.
pub const fn cache_words(ids: usize) -> usize {
    CACHE.words(slots(ids))
}

pub const PEER_WORDS: usize = 2;
pub const INPUT_WORDS: usize = 5;
pub const OUTPUT_WORDS: usize = 7;
/// Of a return: an output is its id and its height.
pub const RETURN_OUTPUT_WORDS: usize = 5;
/// Of a block: a transaction is its id and its number of inputs.
pub const BLOCK_TX_WORDS: usize = 5;
pub const ID_WORDS: usize = 4;
/// A listed entry: id, weight, base.
pub const ROW_WORDS: usize = 6;

/// The store at its largest; the answer buffer takes one id more than there can
/// be entries.
pub const FULL: Store = Store {
    entries: 4_096,
    records: 65_536,
    cache_ids: 10_000,
    answer_words: 4_097 * ID_WORDS,
};

// The answers that are no refusals; a return and an invalidation that are done answer as an accepted submission does.
pub const ACCEPTED: u64 = 0;
pub const REPLACED: u64 = 100;
pub const VERDICT_NEEDED: u64 = 101;
pub const DONE: u64 = 0;
pub const APPLIED: u64 = 100;
pub const CANDIDATE: u64 = 102;
pub const ENDED: u64 = 103;
pub const MISSING: u64 = 104;
pub const INVALID: u64 = 105;
pub const VALID: u64 = 106;

// Words of the state that no call tells.
const RECORDS: usize = 10;
const CACHED: usize = 11;
const BLOCK_SUM: usize = 12;
const PEERS_USED: usize = 13;
const PASS_OPEN: usize = 14;
const STATE_WORDS: usize = 25;
const STATS_WORDS: usize = 124;

// Words of the result record.
const WRITTEN: usize = 1;
const ABOUT: usize = 2;
const SUM: usize = 6;
const RESULT_WORDS: usize = 16;

/// A peer and what it was charged since the last block.
#[repr(C)]
#[derive(Clone, Copy, Default)]
pub struct PeerRecord {
    pub peer: u64,
    pub cost: u64,
}

extern "C" {
    fn gunthyd_start(
        settings: *const u64,
        settings_len: usize,
        time: u64,
        entries: *const u64,
        entries_len: usize,
        boxes: *const u64,
        boxes_len: usize,
        cache: *const u64,
        cache_len: usize,
        peers: usize,
        stats: *mut u64,
        stats_len: usize,
        state: *mut u64,
        state_len: usize,
        result: *mut u64,
        result_len: usize,
    ) -> u64;
    fn gunthyd_process(
        entries: *mut u64,
        entries_len: usize,
        boxes: *mut u64,
        boxes_len: usize,
        cache: *mut u64,
        cache_len: usize,
        peers: *mut PeerRecord,
        peers_len: usize,
        answer: *mut u64,
        answer_len: usize,
        state: *mut u64,
        state_len: usize,
        result: *mut u64,
        result_len: usize,
        sub: *const u64,
        sub_len: usize,
        inputs: *const u64,
        inputs_len: usize,
        outputs: *const u64,
        outputs_len: usize,
    ) -> u64;
    fn gunthyd_return_to_pool(
        entries: *mut u64,
        entries_len: usize,
        boxes: *mut u64,
        boxes_len: usize,
        state: *mut u64,
        state_len: usize,
        result: *mut u64,
        result_len: usize,
        tx: *const u64,
        tx_len: usize,
        inputs: *const u64,
        inputs_len: usize,
        outputs: *const u64,
        outputs_len: usize,
    ) -> u64;
    fn gunthyd_invalidate(
        entries: *mut u64,
        entries_len: usize,
        boxes: *mut u64,
        boxes_len: usize,
        cache: *mut u64,
        cache_len: usize,
        state: *mut u64,
        state_len: usize,
        result: *mut u64,
        result_len: usize,
        time: u64,
        a: u64,
        b: u64,
        c: u64,
        d: u64,
    ) -> u64;
    fn gunthyd_apply_block_at(
        entries: *mut u64,
        entries_len: usize,
        boxes: *mut u64,
        boxes_len: usize,
        cache: *mut u64,
        cache_len: usize,
        answer: *mut u64,
        answer_len: usize,
        state: *mut u64,
        state_len: usize,
        stats: *mut u64,
        stats_len: usize,
        result: *mut u64,
        result_len: usize,
        time: u64,
        transactions: *const u64,
        transactions_len: usize,
        inputs: *const u64,
        inputs_len: usize,
    ) -> u64;
    fn gunthyd_open(
        state: *mut u64,
        state_len: usize,
        result: *mut u64,
        result_len: usize,
        time: u64,
        limit: u64,
        preheader: u32,
    ) -> u64;
    fn gunthyd_next(
        entries: *const u64,
        entries_len: usize,
        state: *mut u64,
        state_len: usize,
        result: *mut u64,
        result_len: usize,
    ) -> u64;
    fn gunthyd_answer(
        entries: *mut u64,
        entries_len: usize,
        boxes: *mut u64,
        boxes_len: usize,
        cache: *mut u64,
        cache_len: usize,
        state: *mut u64,
        state_len: usize,
        result: *mut u64,
        result_len: usize,
        flags: *const u64,
        flags_len: usize,
        verdict: u64,
        cost: u64,
    ) -> u64;
    fn gunthyd_select_for_rebroadcast(
        entries: *const u64,
        entries_len: usize,
        boxes: *const u64,
        boxes_len: usize,
        answer: *mut u64,
        answer_len: usize,
        state: *const u64,
        state_len: usize,
        confirmed: *const u64,
        confirmed_len: usize,
    ) -> u64;
    fn gunthyd_recommended_fee(
        state: *const u64,
        state_len: usize,
        stats: *const u64,
        stats_len: usize,
        answer: *mut u64,
        answer_len: usize,
        minutes: u32,
        size: u32,
    ) -> u64;
    fn gunthyd_expected_wait_ms_at(
        entries: *const u64,
        entries_len: usize,
        state: *const u64,
        state_len: usize,
        stats: *const u64,
        stats_len: usize,
        answer: *mut u64,
        answer_len: usize,
        time: u64,
        fee: u64,
        size: u32,
    ) -> u64;
    fn gunthyd_pool_histogram_at(
        entries: *const u64,
        entries_len: usize,
        state: *const u64,
        state_len: usize,
        answer: *mut u64,
        answer_len: usize,
        time: u64,
        bins: u32,
        longest: u64,
    ) -> u64;
    fn gunthyd_len(state: *const u64, state_len: usize) -> u64;
    fn gunthyd_contains(
        entries: *const u64,
        entries_len: usize,
        cache: *const u64,
        cache_len: usize,
        state: *const u64,
        state_len: usize,
        time: u64,
        a: u64,
        b: u64,
        c: u64,
        d: u64,
    ) -> u64;
    fn gunthyd_spending_tx(
        entries: *const u64,
        entries_len: usize,
        boxes: *const u64,
        boxes_len: usize,
        state: *const u64,
        state_len: usize,
        answer: *mut u64,
        answer_len: usize,
        a: u64,
        b: u64,
        c: u64,
        d: u64,
    ) -> u64;
    fn gunthyd_top(
        entries: *const u64,
        entries_len: usize,
        state: *const u64,
        state_len: usize,
        answer: *mut u64,
        answer_len: usize,
        limit: usize,
    ) -> u64;
    fn gunthyd_fee_per_factor(fee: u64, size: u64, cost: u64, by_cycle: u64) -> u64;
    fn gunthyd_find_entry(
        entries: *const u64,
        entries_len: usize,
        pooled: usize,
        a: u64,
        b: u64,
        c: u64,
        d: u64,
    ) -> u64;
}

/// Calls an exported function: `mut` and `ref` lend a slice, as its pointer and its length; anything else is passed as it is.
/// The slices are lent for the call alone, and every function is proved for words, lengths and numbers of any kind.
macro_rules! call {
    (@ $f:ident ($($done:expr),*)) => {
        // SAFETY: as said above.
        unsafe { $f($($done),*) }
    };
    (@ $f:ident ($($done:expr),*) mut $s:expr $(, $($rest:tt)*)?) => {
        call!(@ $f ($($done,)* $s.as_mut_ptr(), $s.len()) $($($rest)*)?)
    };
    (@ $f:ident ($($done:expr),*) ref $s:expr $(, $($rest:tt)*)?) => {
        call!(@ $f ($($done,)* $s.as_ptr(), $s.len()) $($($rest)*)?)
    };
    (@ $f:ident ($($done:expr),*) $n:expr $(, $($rest:tt)*)?) => {
        call!(@ $f ($($done,)* $n) $($($rest)*)?)
    };
    ($f:ident($($rest:tt)*)) => {
        call!(@ $f () $($rest)*)
    };
}

/// The base weight of a transaction.
pub fn fee_per_factor(fee: u64, size: u64, cost: u64, by_cycle: bool) -> u64 {
    call!(gunthyd_fee_per_factor(fee, size, cost, by_cycle.into()))
}

pub fn words_of(id: &Id) -> [u64; 4] {
    std::array::from_fn(|i| u64::from_be_bytes(id[i * 8..i * 8 + 8].try_into().unwrap()))
}

pub fn id_of(words: &[u64]) -> Id {
    let mut id = [0; 32];
    for (bytes, word) in id.chunks_mut(8).zip(words) {
        bytes.copy_from_slice(&word.to_be_bytes());
    }
    id
}

fn verdict_words(verdict: Verdict) -> (u64, u64) {
    match verdict {
        Verdict::None => (0, 0),
        Verdict::Bad => (1, 0),
        Verdict::Ok(cost) => (2, cost),
    }
}

/// A submission as the port takes it.
pub struct Submission {
    pub sub: [u64; 11],
    pub inputs: Vec<u64>,
    pub outputs: Vec<u64>,
}

impl Submission {
    pub fn of(tx: &Tx) -> Submission {
        let [a, b, c, d] = words_of(&tx.id);
        let (verdict, cost) = verdict_words(tx.verdict);
        let source = u64::from(tx.peer.is_some());
        let peer = tx.peer.unwrap_or(0);
        let preheader = u64::from(tx.preheader);
        let mut inputs = Vec::with_capacity(tx.inputs.len() * INPUT_WORDS);
        for (box_id, confirmed) in &tx.inputs {
            inputs.extend(words_of(box_id));
            inputs.push(u64::from(*confirmed));
        }
        let mut outputs = Vec::with_capacity(tx.outputs.len() * OUTPUT_WORDS);
        for out in &tx.outputs {
            outputs.extend(words_of(&out.box_id));
            outputs.extend([out.value, u64::from(out.fee), u64::from(out.height)]);
        }
        let sub = [tx.time, a, b, c, d, tx.size, preheader, source, peer, verdict, cost];
        Submission { sub, inputs, outputs }
    }
}

/// A return as the port takes it.
pub struct GivenBack {
    pub tx: [u64; 13],
    pub inputs: Vec<u64>,
    pub outputs: Vec<u64>,
}

impl GivenBack {
    pub fn of(r: &Return) -> GivenBack {
        let [a, b, c, d] = words_of(&r.id);
        let (measured, validation) = (u64::from(r.measured.is_some()), r.measured.unwrap_or(0));
        let (source, peer) = (u64::from(r.peer.is_some()), r.peer.unwrap_or(0));
        let cost = u64::from(r.cost);
        let tx = [a, b, c, d, r.fee, r.size, cost, measured, validation, r.created, r.checked, source, peer];
        let inputs = r.inputs.iter().flat_map(words_of).collect();
        let mut outputs = Vec::with_capacity(r.outputs.len() * RETURN_OUTPUT_WORDS);
        for (box_id, height) in &r.outputs {
            outputs.extend(words_of(box_id));
            outputs.push(u64::from(*height));
        }
        GivenBack { tx, inputs, outputs }
    }
}

/// A block as the port takes it.
pub struct Block {
    pub transactions: Vec<u64>,
    pub inputs: Vec<u64>,
}

impl Block {
    pub fn of(txs: &[(Id, Vec<Id>)]) -> Block {
        let mut transactions = Vec::with_capacity(txs.len() * BLOCK_TX_WORDS);
        for (id, inputs) in txs {
            transactions.extend(words_of(id));
            transactions.push(inputs.len() as u64);
        }
        let inputs = txs.iter().flat_map(|(_, inputs)| inputs).flat_map(words_of).collect();
        Block { transactions, inputs }
    }
}

/// The number that was written, or the refusal.
fn figure(code: u64, answer: [u64; 1]) -> Result<u64, u64> {
    if code == 1 { Ok(answer[0]) } else { Err(u64::MAX - code) }
}

/// A pooled transaction.
#[derive(Clone, Copy, Debug, PartialEq, Eq)]
pub struct Row {
    pub id: Id,
    pub weight: u64,
    pub base: u64,
}

impl Row {
    fn of(words: &[u64]) -> Row {
        Row { id: id_of(&words[..4]), weight: words[4], base: words[5] }
    }
}

/// A store lent to the port, with its state and an answer buffer.
#[derive(Clone)]
pub struct Port {
    pub entries: Vec<u64>,
    pub boxes: Vec<u64>,
    pub cache: Vec<u64>,
    pub peers: Vec<PeerRecord>,
    pub answer: Vec<u64>,
    pub state: [u64; STATE_WORDS],
    pub stats: [u64; STATS_WORDS],
    pub result: [u64; RESULT_WORDS],
}

impl Port {
    pub fn new(store: Store) -> Port {
        Port {
            entries: vec![0; entries_words(store.entries)],
            boxes: vec![0; boxes_words(store.records)],
            cache: vec![0; cache_words(store.cache_ids)],
            peers: vec![PeerRecord::default(); PEERS],
            answer: vec![0; store.answer_words],
            state: [0; STATE_WORDS],
            stats: [0; STATS_WORDS],
            result: [0; RESULT_WORDS],
        }
    }

    /// Tables of other sizes: entries, box records, cache ids, peer records.
    pub fn resize(&mut self, sizes: [usize; 4]) {
        self.entries.resize(entries_words(sizes[0]), 0);
        self.boxes.resize(boxes_words(sizes[1]), 0);
        self.cache.resize(cache_words(sizes[2]), 0);
        self.peers.resize(sizes[3], PeerRecord::default());
    }

    /// The key of the tables' buckets, which no answer depends on: the last word of each table. To be set before a start.
    pub fn set_key(&mut self, key: u64) {
        for table in [&mut self.entries, &mut self.boxes, &mut self.cache] {
            *table.last_mut().expect("a table has words") = key;
        }
    }

    /// 0 where the pool is ready and its statistics begin at time 0, or the refusal.
    pub fn start(&mut self, s: &Settings) -> u64 {
        let settings = [
            s.capacity,
            s.min_fee,
            s.by_cycle.into(),
            s.interval,
            s.rebroadcast,
            s.ttl,
            s.cache,
            s.block_limit,
            s.peer_limit,
        ];
        let Port { entries, boxes, cache, peers, state, stats, result, .. } = self;
        call!(gunthyd_start(
            ref settings, 0, ref entries, ref boxes, ref cache, peers.len(), mut stats, mut state, mut result
        ))
    }

    /// Submits, with the first `room` words of the answer buffer.
    #[inline]
    pub fn process(&mut self, s: &Submission, room: usize) -> u64 {
        let Port { entries, boxes, cache, peers, state, result, .. } = self;
        let answer = &mut self.answer[..room];
        call!(gunthyd_process(
            mut entries, mut boxes, mut cache, mut peers, mut answer, mut state, mut result, ref s.sub, ref s.inputs, ref s.outputs
        ))
    }

    /// Gives a transaction back.
    #[inline]
    pub fn return_to_pool(&mut self, r: &GivenBack) -> u64 {
        let Port { entries, boxes, state, result, .. } = self;
        call!(gunthyd_return_to_pool(
            mut entries, mut boxes, mut state, mut result, ref r.tx, ref r.inputs, ref r.outputs
        ))
    }

    pub fn invalidate(&mut self, time: u64, id: &Id) -> u64 {
        let [a, b, c, d] = words_of(id);
        let Port { entries, boxes, cache, state, result, .. } = self;
        call!(gunthyd_invalidate(mut entries, mut boxes, mut cache, mut state, mut result, time, a, b, c, d))
    }

    /// Applies a block, with the first `room` words of the answer buffer.
    #[inline]
    pub fn apply_block_at(&mut self, time: u64, block: &Block, room: usize) -> u64 {
        let Port { entries, boxes, cache, state, stats, result, .. } = self;
        let answer = &mut self.answer[..room];
        call!(gunthyd_apply_block_at(
            mut entries, mut boxes, mut cache, mut answer, mut state, mut stats, mut result, time, ref block.transactions, ref block.inputs
        ))
    }

    pub fn open(&mut self, time: u64, limit: u64, preheader: u32) -> u64 {
        call!(gunthyd_open(mut self.state, mut self.result, time, limit, preheader))
    }

    /// The next candidate of the pass, or the sum, into the result.
    pub fn next(&mut self) -> u64 {
        let Port { entries, state, result, .. } = self;
        call!(gunthyd_next(ref entries, mut state, mut result))
    }

    /// The id that the last changing call spoke of.
    pub fn about(&self) -> Id {
        id_of(&self.result[ABOUT..][..ID_WORDS])
    }

    /// The sum that the last changing call told.
    pub fn sum(&self) -> u64 {
        self.result[SUM]
    }

    pub fn answer(&mut self, flags: &[bool], verdict: Verdict) -> u64 {
        let flags: Vec<u64> = flags.iter().map(|flag| u64::from(*flag)).collect();
        let (verdict, cost) = verdict_words(verdict);
        let Port { entries, boxes, cache, state, result, .. } = self;
        call!(gunthyd_answer(mut entries, mut boxes, mut cache, mut state, mut result, ref flags, verdict, cost))
    }

    /// Writes the ids of the transactions to send again: how many, or the refusal.
    pub fn select_for_rebroadcast(&self, confirmed: &[u64], answer: &mut [u64]) -> Result<usize, u64> {
        let code = call!(gunthyd_select_for_rebroadcast(
            ref self.entries, ref self.boxes, mut answer, ref self.state, ref confirmed
        ));
        if code > answer.len() as u64 { Err(u64::MAX - code) } else { Ok(code as usize) }
    }

    /// The fee for a wait of so many minutes, or the refusal.
    #[inline]
    pub fn recommended_fee(&self, minutes: u32, size: u32) -> Result<u64, u64> {
        let mut answer = [0];
        let code = call!(gunthyd_recommended_fee(ref self.state, ref self.stats, mut answer, minutes, size));
        figure(code, answer)
    }

    /// The wait in milliseconds for a fee, or the refusal.
    #[inline]
    pub fn expected_wait_ms_at(&self, time: u64, fee: u64, size: u32) -> Result<u64, u64> {
        let mut answer = [0];
        let code = call!(gunthyd_expected_wait_ms_at(
            ref self.entries, ref self.state, ref self.stats, mut answer, time, fee, size
        ));
        figure(code, answer)
    }

    /// Writes the counts and the sums of the pool by waits: how many pairs, or the refusal.
    #[inline]
    pub fn pool_histogram_at(&self, time: u64, bins: u32, longest: u64, answer: &mut [u64]) -> Result<usize, u64> {
        let code = call!(gunthyd_pool_histogram_at(
            ref self.entries, ref self.state, mut answer, time, bins, longest
        ));
        // No buffer holds so many pairs as the number of a refusal.
        if code > answer.len() as u64 { Err(u64::MAX - code) } else { Ok(code as usize) }
    }

    /// How many ids the last changing call wrote.
    pub fn written(&self) -> usize {
        self.result[WRITTEN] as usize
    }

    /// The ids that it wrote.
    pub fn ids(&self) -> Vec<Id> {
        self.answer.chunks(ID_WORDS).take(self.written()).map(id_of).collect()
    }

    pub fn len(&self) -> usize {
        call!(gunthyd_len(ref self.state)) as usize
    }

    pub fn is_empty(&self) -> bool {
        self.len() == 0
    }

    /// The rank of an id among so many that are pooled, 2^64−1 where it is not there.
    #[inline]
    pub fn rank(&self, pooled: usize, [a, b, c, d]: [u64; 4]) -> u64 {
        call!(gunthyd_find_entry(ref self.entries, pooled, a, b, c, d))
    }

    /// Whether a transaction is pooled, or its id held in the cache at this time: 1 or 0.
    pub fn contains(&self, time: u64, id: &Id) -> u64 {
        self.contains_words(time, words_of(id))
    }

    #[inline]
    pub fn contains_words(&self, time: u64, [a, b, c, d]: [u64; 4]) -> u64 {
        call!(gunthyd_contains(ref self.entries, ref self.cache, ref self.state, time, a, b, c, d))
    }

    /// The transaction that spends a box.
    pub fn spending_tx(&self, box_id: &Id) -> Option<Row> {
        let [a, b, c, d] = words_of(box_id);
        let mut answer = [0; ROW_WORDS];
        let found = call!(gunthyd_spending_tx(
            ref self.entries, ref self.boxes, ref self.state, mut answer, a, b, c, d
        ));
        (found == 1).then(|| Row::of(&answer))
    }

    /// The first `limit` transactions in priority order.
    pub fn top(&self, limit: usize) -> Vec<Row> {
        let mut answer = vec![0; limit.min(self.len()) * ROW_WORDS];
        let listed = call!(gunthyd_top(ref self.entries, ref self.state, mut answer, limit));
        answer.chunks(ROW_WORDS).take(listed as usize).map(Row::of).collect()
    }

    /// Box records in use.
    pub fn records(&self) -> usize {
        self.state[RECORDS] as usize
    }

    pub fn block_sum(&self) -> u64 {
        self.state[BLOCK_SUM]
    }

    /// The peers that have a record, each with its sum.
    pub fn peer_sums(&self) -> Vec<(u64, u64)> {
        let used = self.state[PEERS_USED] as usize;
        self.peers.iter().take(used).map(|p| (p.peer, p.cost)).collect()
    }

    /// What a pass stamps, in priority order: the measured cost, and when it was last checked; and when the entry was made.
    pub fn stamps(&self) -> Vec<(Option<u64>, u64, u64)> {
        let order = ENTRIES.slot * ENTRIES.slots(self.entries.len());
        let stamp = |slot: &u64| {
            let e = &self.entries[*slot as usize * ENTRIES.slot..][..ENTRIES.slot];
            ((e[MEASURED] != 0).then_some(e[MEASURED_COST]), e[CHECKED], e[CREATED])
        };
        self.entries[order..][..self.len()].iter().map(stamp).collect()
    }

    /// How many slots the calls have used, of entries, boxes, cache and peer records: some of them may be free again.
    pub fn used(&self) -> [usize; 4] {
        let behind = |layout: &Layout, table: &[u64]| table[table.len() - layout.last] as usize;
        let (first, cached) = (behind(&CACHE, &self.cache), self.state[CACHED] as usize);
        [behind(&ENTRIES, &self.entries), behind(&BOXES, &self.boxes), first.saturating_add(cached), self.state[PEERS_USED] as usize]
    }

    /// Says that a pass is open, or that none is, without the call that opens one.
    pub fn set_pass(&mut self, open: bool) {
        self.state[PASS_OPEN] = open.into();
    }
}
