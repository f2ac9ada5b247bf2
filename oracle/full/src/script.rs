//! One script: every call goes to the Rust and to the port, and what they say
//! is compared at once.

use std::time::Instant;

use oracle::driver::{Driver, Stop, Submitted, PEERS};
use oracle::forms::{hex, Form, Id, Output, Return, Settings, Tx, Verdict};
use oracle::rng::Rng;
use port::{
    bucket_of, id_of, words_of, Block, GivenBack, Layout, PeerRecord, Port, Row, Submission, APPLIED, BLOCK_TX_WORDS, BOXES, CACHE, CANDIDATE, DONE, ENDED, ENTRIES, FULL, ID_WORDS,
    INPUT_WORDS, INVALID, MISSING, OUTPUT_WORDS, PEER_RECORDS, PEER_WORDS, RETURN_OUTPUT_WORDS, VALID, VERDICT_NEEDED,
};

use crate::tally::{self, Tally};

/// What a call gives back once the script is over.
pub const OVER: u64 = u64::MAX;

/// Boxes and ids of the last calls, from which samples are asked for.
const REMEMBERED: usize = 4_096;
const SAMPLES: u64 = 24;

pub struct Script<'a> {
    pub rng: Rng,
    pub rust: Driver,
    pub settings: Settings,
    pub time: u64,
    port: &'a mut Port,
    /// The answer buffer as the last call must have left it.
    shadow: Vec<u64>,
    tally: &'a mut Tally,
    shape: &'static str,
    seed: u64,
    calls: u64,
    /// After so many calls the whole pools are compared.
    pub every: u64,
    over: bool,
    spread: Spread,
    fresh: u64,
    boxes: Vec<Id>,
    ids: Vec<Id>,
    /// The candidate that next gave last.
    last: Id,
}

/// How a script's ids differ from one another: a port may compare words of an
/// id one by one.
#[derive(Clone, Copy)]
enum Spread {
    Everywhere,
    /// Only in one word.
    In(usize),
}

/// A submission and how it is handed over.
pub struct Call {
    pub tx: Tx,
    /// Words taken off the ends of the lists.
    pub cut: (usize, usize),
    /// Words of the answer buffer.
    pub room: usize,
    pub in_pass: bool,
}

/// A return or a block, and how it is handed over: as a submission is.
pub struct Change {
    pub form: Form,
    pub cut: (usize, usize),
    pub room: usize,
    pub in_pass: bool,
}

impl From<Form> for Change {
    fn from(form: Form) -> Change {
        Change { form, cut: (0, 0), room: FULL.answer_words, in_pass: false }
    }
}

impl From<Tx> for Call {
    fn from(tx: Tx) -> Call {
        Call { tx, cut: (0, 0), room: FULL.answer_words, in_pass: false }
    }
}

impl<'a> Script<'a> {
    pub fn new(port: &'a mut Port, tally: &'a mut Tally, shape: &'static str, seed: u64) -> Self {
        let name = shape.bytes().fold(0u64, |sum, b| sum.wrapping_mul(131).wrapping_add(b.into()));
        let mut rng = Rng::new(seed.wrapping_mul(0x9e37_79b9_7f4a_7c15) ^ name);
        // A start takes any words: what an earlier pool may have left.
        for table in [&mut port.entries, &mut port.boxes, &mut port.cache] {
            table.fill_with(|| rng.next());
        }
        port.peers.fill_with(|| PeerRecord { peer: rng.next(), cost: rng.next() });
        port.answer.fill_with(|| rng.next());
        let word = rng.below(8) as usize;
        let spread = if word < 4 { Spread::In(word) } else { Spread::Everywhere };
        let shadow = port.answer.clone();
        Script {
            rng,
            rust: Driver::on(FULL),
            settings: usual(),
            time: 0,
            port,
            shadow,
            tally,
            shape,
            seed,
            calls: 0,
            every: 64,
            over: false,
            spread,
            fresh: 0,
            boxes: Vec::new(),
            ids: Vec::new(),
            last: [0; 32],
        }
    }

    // ---- what shapes build calls from

    /// An id that no earlier call named.
    pub fn id(&mut self) -> Id {
        self.fresh += 1;
        // The place of an id in the order is random; it is not used twice.
        let order = self.rng.below(1 << 40) << 24 | self.fresh;
        let mut words = [0; 4];
        match self.spread {
            Spread::Everywhere => words = [self.rng.next(), self.rng.next(), self.fresh, self.rng.next()],
            Spread::In(word) => words[word] = order,
        }
        id_of(&words)
    }

    /// A valid local submission of 1,024 bytes, so that by byte its base is its
    /// fee: confirmed inputs and inputs from the pool, and so many outputs
    /// beside the one that pays.
    pub fn tx(&mut self, confirmed: &[Id], pooled: &[Id], outputs: usize, fee: u64) -> Tx {
        let inputs = confirmed.iter().map(|b| (*b, true)).chain(pooled.iter().map(|b| (*b, false)));
        let inputs = inputs.collect();
        let mut outs = vec![self.output(fee, true)];
        for _ in 0..outputs {
            let value = self.rng.below(1 << 30);
            outs.push(self.output(value, false));
        }
        Tx {
            time: self.time,
            id: self.id(),
            peer: None,
            size: 1_024,
            preheader: 50,
            inputs,
            outputs: outs,
            verdict: Verdict::Ok(self.rng.below(900)),
        }
    }

    pub fn output(&mut self, value: u64, fee: bool) -> Output {
        Output { box_id: self.id(), value, fee, height: self.rng.below(51) as u32 }
    }

    /// Boxes that no earlier call named.
    pub fn boxes(&mut self, count: usize) -> Vec<Id> {
        (0..count).map(|_| self.id()).collect()
    }

    /// A return of what a submission would bring.
    pub fn back(&mut self, tx: &Tx) -> Return {
        let fee = tx.outputs.iter().filter(|out| out.fee).map(|out| out.value).sum();
        let created = self.rng.below(self.time + 1);
        Return {
            id: tx.id,
            fee,
            size: tx.size,
            cost: self.rng.below(1 << 20) as u32,
            measured: self.rng.chance(50).then(|| self.rng.below(1 << 20)),
            created,
            checked: self.rng.between(created, self.time),
            peer: tx.peer,
            inputs: tx.inputs.iter().map(|(box_id, _)| *box_id).collect(),
            outputs: tx.outputs.iter().map(|out| (out.box_id, out.height)).collect(),
        }
    }

    /// The pooled transactions with their inputs, heaviest first.
    pub fn pooled(&self) -> Vec<(Id, Vec<Id>)> {
        let pool = self.rust.view().expect("a pool");
        let inputs = |utx: &&ergo_mempool::types::UnconfirmedTx| {
            utx.tx.inputs.iter().map(|input| input.box_id.0).collect()
        };
        pool.all_prioritized().iter().map(|utx| (utx.tx.id().0, inputs(utx))).collect()
    }

    pub fn len(&self) -> usize {
        self.rust.view().map_or(0, |pool| pool.len())
    }

    pub fn is_over(&self) -> bool {
        self.over
    }

    /// The weight of the last in the order.
    pub fn lowest(&self) -> u64 {
        self.rust.view().and_then(|pool| pool.lowest_weight()).unwrap_or(0)
    }

    pub fn weight_of(&self, id: &Id) -> Option<u64> {
        self.rust.view().and_then(|pool| pool.weight_of(id)).map(|key| key.weight)
    }

    /// Notes that something was met that a run has to meet.
    pub fn met(&mut self, what: &'static str) {
        if !self.over {
            self.tally.meet(what);
        }
    }

    // ---- calls

    /// Starts a pool on both sides.
    pub fn start(&mut self, settings: Settings) -> u64 {
        let there = match self.rust.start(&settings) {
            Ok(()) => 0,
            Err(Stop::Refused(number)) => number.into(),
            Err(other) => return self.ended(other),
        };
        self.compare_start(&settings, there)
    }

    /// A start on tables of other sizes, which only the port has: entries, box
    /// records, cache ids and peer records.
    pub fn start_sized(&mut self, settings: &Settings, sizes: [usize; 4]) -> u64 {
        let fits = (1..=4_096).contains(&sizes[0])
            && (1..=65_536).contains(&sizes[1])
            && (1..=10_000).contains(&sizes[2])
            && sizes[3] == 256;
        let settled = settings.capacity < sizes[0] as u64
            && settings.cache <= sizes[2] as u64
            && settings.block_limit.max(settings.peer_limit) <= 1 << 63;
        let whole = self.port.clone();
        self.port.resize(sizes);
        let code = self.compare_start(settings, if fits && settled { 0 } else { 6 });
        *self.port = whole;
        code
    }

    fn compare_start(&mut self, settings: &Settings, there: u64) -> u64 {
        self.calls += 1;
        let began = Instant::now();
        let here = self.port.start(settings);
        self.tally.port += began.elapsed();
        self.tally.start(there);
        if here != there {
            self.differ(&format!("start: the Rust's side says {there}, the port {here}"));
        } else if here == 0 {
            self.settings = settings.clone();
        }
        there
    }

    pub fn submit(&mut self, tx: Tx) -> u64 {
        self.call(tx.into())
    }

    /// Submits on both sides and compares: the number, the ids written, the rest
    /// of the answer buffer, and the counts.
    pub fn call(&mut self, call: Call) -> u64 {
        if self.over {
            return OVER;
        }
        self.calls += 1;
        self.remember(&call.tx);
        let began = Instant::now();
        let there = self.there(&call);
        self.tally.rust += began.elapsed();
        let (there, ids) = match there {
            Ok(answer) => answer,
            Err(stop) => return self.ended(stop),
        };

        let mut words = Submission::of(&call.tx);
        words.inputs.truncate(words.inputs.len() - call.cut.0);
        words.outputs.truncate(words.outputs.len() - call.cut.1);
        self.pretend(call.in_pass);
        let began = Instant::now();
        let here = self.port.process(&words, call.room);
        self.tally.port += began.elapsed();
        if call.in_pass {
            self.port.set_pass(self.rust.in_pass());
        }

        self.tally.outcome(there, self.port.len(), self.port.records());
        self.compare_left(&there.to_string(), &here.to_string(), &ids);
        there
    }

    /// What a changing call left: the answers of both, the ids written, the
    /// counts, and every few calls the pools.
    fn compare_left(&mut self, there: &str, here: &str, ids: &[Id]) {
        if here != there {
            self.differ(&format!("the Rust says {}, the port {}", cut_text(there), cut_text(here)));
        } else if let Some(what) = self.compare_answer(ids) {
            self.differ(&what);
        } else if let Some(what) = self.compare_counts() {
            self.differ(&what);
        } else if self.calls % self.every == 0 {
            self.compare_pools();
        }
    }

    /// Says to the port that a pass is open.
    fn pretend(&mut self, in_pass: bool) {
        if in_pass {
            self.port.set_pass(true);
        }
    }

    /// A return, a block, an invalidation or a call of a pass on both sides: the
    /// answer, the ids written, the rest of the answer buffer, and the counts.
    pub fn change(&mut self, change: Change) -> u64 {
        if self.over {
            return OVER;
        }
        self.calls += 1;
        let began = Instant::now();
        let there = self.changed_there(&change);
        self.tally.rust += began.elapsed();
        let there = match answered(there) {
            Ok(answer) => answer,
            Err(stop) => return self.ended(stop),
        };
        self.pretend(change.in_pass);
        let (number, here) = self.changed_here(&change);
        if change.in_pass {
            self.port.set_pass(self.rust.in_pass());
        }

        let ids = self.rust.written().to_vec();
        self.tally.kind(change.form.name(), number);
        self.tally.size(self.port.len(), self.port.records());
        self.compare_left(&there, &here, &ids);
        number
    }

    /// What the Rust's side says. Lists that are no whole records, and for a
    /// block a buffer that is too small, are decided here, in document 01's order.
    fn changed_there(&mut self, change: &Change) -> Result<String, Stop> {
        let (widths, room) = match change.form {
            Form::Return(_) => ((ID_WORDS, RETURN_OUTPUT_WORDS), usize::MAX),
            Form::Block { .. } => ((BLOCK_TX_WORDS, ID_WORDS), change.room / ID_WORDS),
            _ => ((1, 1), usize::MAX),
        };
        let cut = change.cut.0 % widths.0 != 0 || change.cut.1 % widths.1 != 0;
        let of_pass = matches!(change.form, Form::Open { .. } | Form::Next | Form::Answer { .. });
        let in_pass = change.in_pass || (!of_pass && self.rust.in_pass());
        let refused = match (in_pass, cut, room < self.len() + 1) {
            (true, _, _) => 20,
            (_, true, _) => 1,
            (_, _, true) => 2,
            _ => return self.rust.ask(change.form.clone()),
        };
        self.rust.forget();
        Err(Stop::Refused(refused))
    }

    /// The number that the port answers, and what it says as the Rust's side would.
    fn changed_here(&mut self, change: &Change) -> (u64, String) {
        match &change.form {
            Form::Return(r) => {
                let mut words = GivenBack::of(r);
                words.inputs.truncate(words.inputs.len() - change.cut.0);
                words.outputs.truncate(words.outputs.len() - change.cut.1);
                let number = self.here(|port| port.return_to_pool(&words));
                (number, said(number, DONE, || format!("(returned {})", hex(&r.id))))
            }
            Form::Block { time, txs } => {
                let mut words = Block::of(txs);
                words.transactions.truncate(words.transactions.len() - change.cut.0);
                words.inputs.truncate(words.inputs.len() - change.cut.1);
                let number = self.here(|port| port.apply_block_at(*time, &words, change.room));
                let ids = || self.port.ids().iter().map(|id| format!(" {}", hex(id))).collect::<String>();
                (number, said(number, APPLIED, || format!("(removed{})", ids())))
            }
            Form::Invalidate { time, id } => {
                let number = self.here(|port| port.invalidate(*time, id));
                (number, said(number, DONE, || format!("(invalidated {})", hex(id))))
            }
            Form::Open { time, limit, preheader } => {
                let number = self.here(|port| port.open(*time, *limit, *preheader));
                (number, said(number, DONE, || "(opened)".into()))
            }
            Form::Next => {
                let number = self.here(|port| port.next());
                let text = match number {
                    CANDIDATE => format!("(candidate {})", hex(&self.candidate())),
                    ENDED => format!("(ended {})", self.port.sum()),
                    refusal => format!("(refused {refusal})"),
                };
                (number, text)
            }
            Form::Answer { flags, verdict } => {
                let number = self.here(|port| port.answer(flags, *verdict));
                let kind = match number {
                    MISSING => "missing",
                    INVALID => "invalid",
                    VALID => "valid",
                    VERDICT_NEEDED => return (number, "(verdict needed)".into()),
                    refusal => return (refusal, format!("(refused {refusal})")),
                };
                let id = self.port.about();
                self.keep_id(id);
                (number, format!("({kind} {})", hex(&id)))
            }
            other => panic!("no such call here: {other:?}"),
        }
    }

    fn here(&mut self, call: impl FnOnce(&mut Port) -> u64) -> u64 {
        let began = Instant::now();
        let number = call(self.port);
        self.tally.port += began.elapsed();
        number
    }

    /// A fee query on both sides.
    pub fn query(&mut self, form: Form) {
        if self.over {
            return;
        }
        self.calls += 1;
        let began = Instant::now();
        let there = self.rust.ask(form.clone());
        self.tally.rust += began.elapsed();
        let there = match answered(there) {
            Ok(answer) => answer,
            Err(stop) => {
                self.ended(stop);
                return;
            }
        };
        let began = Instant::now();
        let here = match form {
            Form::Fee { minutes, size } => {
                self.port.recommended_fee(minutes, size).map(|fee| format!("(fee {fee})"))
            }
            Form::Wait { time, fee, size } => {
                self.port.expected_wait_ms_at(time, fee, size).map(|wait| format!("(wait {wait})"))
            }
            Form::Histogram { time, bins, longest } => {
                let mut words = vec![0; FULL.answer_words];
                let pairs = self.port.pool_histogram_at(time, bins, longest, &mut words);
                let pair = |p: &[u64]| format!(" ({} {})", p[0], p[1]);
                pairs.map(|n| format!("(bins{})", words.chunks(2).take(n).map(pair).collect::<String>()))
            }
            other => panic!("no such query here: {other:?}"),
        };
        self.tally.port += began.elapsed();
        let number = here.as_ref().map_or_else(|refusal| *refusal, |_| 0);
        self.tally.kind(form.name(), number);
        let here = here.unwrap_or_else(|refusal| format!("(refused {refusal})"));
        if here != there {
            self.differ(&format!("{form:?}: the Rust says {}, the port {}", cut_text(&there), cut_text(&here)));
        }
    }

    /// The candidate that next gave last, as the port has it.
    fn candidate(&mut self) -> Id {
        self.last = self.port.about();
        self.last
    }

    /// How many inputs the candidate has.
    pub fn inputs_out(&self) -> usize {
        let pool = self.rust.view().expect("a pool");
        pool.get(&self.last).map_or(0, |utx| utx.tx.inputs.len())
    }

    pub fn in_pass(&self) -> bool {
        self.rust.in_pass()
    }

    /// The sum that an ended pass named last.
    pub fn ended_with(&self) -> u64 {
        self.port.sum()
    }

    /// A rebroadcast on both sides, with so many words taken off its list, and so many of an answer buffer.
    pub fn rebroadcast(&mut self, confirmed: Vec<Id>, cut: usize, room: usize) -> u64 {
        if self.over {
            return OVER;
        }
        self.calls += 1;
        let mut words: Vec<u64> = confirmed.iter().flat_map(words_of).collect();
        words.truncate(words.len() - cut);
        let began = Instant::now();
        let there = match (cut % ID_WORDS != 0, room / ID_WORDS < self.len() + 1) {
            (true, _) => Err(Stop::Refused(1)),
            (_, true) => Err(Stop::Refused(2)),
            _ => self.rust.ask(Form::Rebroadcast(confirmed)),
        };
        self.tally.rust += began.elapsed();
        let there = match answered(there) {
            Ok(answer) => answer,
            Err(stop) => return self.ended(stop),
        };
        let mut buffer = vec![7; room];
        let began = Instant::now();
        let chosen = self.port.select_for_rebroadcast(&words, &mut buffer);
        self.tally.port += began.elapsed();
        let (number, here) = match chosen {
            Ok(count) => {
                let list: String = buffer.chunks(ID_WORDS).take(count).map(|w| format!(" {}", hex(&id_of(w)))).collect();
                let rest = buffer[count * ID_WORDS..].iter().all(|word| *word == 7);
                if count >= 100 {
                    self.tally.meet(tally::RESENT);
                }
                (0, format!("(ids{list}){}", if rest { "" } else { " and more" }))
            }
            Err(refusal) => (refusal, format!("(refused {refusal})")),
        };
        self.tally.kind("rebroadcast", number);
        if here != there {
            self.differ(&format!("rebroadcast: the Rust says {}, the port {}", cut_text(&there), cut_text(&here)));
        }
        number
    }

    fn keep_id(&mut self, id: Id) {
        if self.ids.len() < REMEMBERED {
            self.ids.push(id);
        } else {
            let place = self.rng.below(REMEMBERED as u64) as usize;
            self.ids[place] = id;
        }
    }

    /// What the Rust says; what it does not have is decided here: a pass, lists
    /// that are no whole records, an answer buffer that is too small.
    fn there(&mut self, call: &Call) -> Result<(u64, Vec<Id>), Stop> {
        let pooled = self.len();
        if call.in_pass || self.rust.in_pass() {
            return Ok((20, Vec::new()));
        }
        if call.cut.0 % INPUT_WORDS != 0 || call.cut.1 % OUTPUT_WORDS != 0 {
            return Ok((1, Vec::new()));
        }
        if call.room / ID_WORDS < pooled + 1 {
            return Ok((2, Vec::new()));
        }
        let number = match self.rust.submit(&call.tx) {
            Ok(Submitted::Accepted) => port::ACCEPTED,
            Ok(Submitted::Replaced) => port::REPLACED,
            Err(Stop::VerdictNeeded) => port::VERDICT_NEEDED,
            Err(Stop::Refused(number)) => number.into(),
            Err(stop) => return Err(stop),
        };
        Ok((number, self.rust.written().to_vec()))
    }

    fn remember(&mut self, tx: &Tx) {
        let keep = |list: &mut Vec<Id>, id: Id, rng: &mut Rng| {
            if list.len() < REMEMBERED {
                list.push(id);
            } else {
                let place = rng.below(REMEMBERED as u64) as usize;
                list[place] = id;
            }
        };
        keep(&mut self.ids, tx.id, &mut self.rng);
        for (box_id, _) in tx.inputs.iter().take(8) {
            keep(&mut self.boxes, *box_id, &mut self.rng);
        }
        for out in tx.outputs.iter().take(2) {
            keep(&mut self.boxes, out.box_id, &mut self.rng);
        }
    }

    /// A call to the port alone, on words that no calls left. The pool is then put back.
    pub fn disturbed(&mut self, tx: &Tx) {
        if self.over {
            return;
        }
        self.calls += 1;
        let whole = self.port.clone();
        for _ in 0..self.rng.between(1, 30) {
            self.disturb_table();
        }
        for _ in 0..self.rng.below(4) {
            let at = self.rng.below(self.port.state.len() as u64) as usize;
            let any = self.rng.next();
            let sizes = [0, 1, 39, 256, 257, 4_095, 4_096, 4_097, 65_536, 65_537, any];
            self.port.state[at] = self.rng.pick(&sizes);
        }
        let room = self.rng.pick(&[FULL.answer_words, 200, 7]);
        let settings = self.port.state[..9].to_vec();
        let (kinds, number) = self.any_call(tx, room);
        let kept = self.port.state[..9] == settings && self.port.answer[room..] == whole.answer[room..];
        *self.port = whole;
        self.tally.junk += 1;
        if !kinds.contains(&number) || !kept {
            self.differ(&format!("on disturbed words the port says {number}, rest kept: {kept}"));
        }
    }

    /// Changes a word of a table, to one that such a word may have, or to any.
    fn disturb_table(&mut self) {
        let used = self.port.used();
        let Port { entries, boxes, cache, peers, .. } = &mut *self.port;
        let mut words: Vec<u64> = peers.iter().flat_map(|record| [record.peer, record.cost]).collect();
        let (table, layout, used) = match self.rng.below(9) {
            0..=2 => (entries, &ENTRIES, used[0]),
            3..=5 => (boxes, &BOXES, used[1]),
            6 | 7 => (cache, &CACHE, used[2]),
            _ => (&mut words, &PEER_RECORDS, used[3]),
        };
        let slots = layout.slots(table.len());
        // The word that tells how many are used may be disturbed too.
        let used = used.clamp(1, slots);
        let at = some_word(&mut self.rng, layout, table, used);
        let other = table[some_word(&mut self.rng, layout, table, used)];
        let (slot, any, slots) = (self.rng.below(used as u64 + 3), self.rng.next(), slots as u64);
        table[at] = self.rng.pick(&[0, 1, 2, slots - 1, slots, slots + 1, u64::MAX, any, other, other, slot, slot, slot]);
        for (record, word) in peers.iter_mut().zip(words.chunks(PEER_WORDS)) {
            *record = PeerRecord { peer: word[0], cost: word[1] };
        }
    }

    /// A call of any kind to the port alone, mostly a submission: the numbers that its kind answers, and what it says.
    fn any_call(&mut self, tx: &Tx, room: usize) -> (&'static [u64], u64) {
        let mut words = Submission::of(tx);
        let less = self.rng.below(6) as usize;
        words.inputs.truncate(words.inputs.len().saturating_sub(less));
        let flags = vec![self.rng.chance(50); self.rng.below(4) as usize];
        let (given, time) = (GivenBack::of(&self.back(tx)), self.time);
        let block = Block::of(&[(tx.id, given.inputs.chunks(ID_WORDS).map(id_of).collect())]);
        let port = &mut *self.port;
        match self.rng.below(12) {
            0 => (&[0, 1, 3, 20, 23, 27], port.return_to_pool(&given)),
            1 => (&[0, 1, 20], port.invalidate(time, &tx.id)),
            2 => (&[100, 1, 2, 20], port.apply_block_at(time, &block, room)),
            3 => (&[102, 103, 1, 21], port.next()),
            4 => (&[101, 104, 105, 106, 1, 21], port.answer(&flags, tx.verdict)),
            5 => (&[0, 1, u64::MAX - 1], port.contains(time, &tx.id)),
            _ => (tally::OUTCOMES, port.process(&words, room)),
        }
    }

    // ---- comparisons

    fn compare_answer(&mut self, ids: &[Id]) -> Option<String> {
        let written = self.port.written();
        if written != ids.len() {
            return Some(format!("the Rust names {} ids, the port {written}", ids.len()));
        }
        for (k, id) in ids.iter().enumerate() {
            let words = &self.port.answer[k * ID_WORDS..][..ID_WORDS];
            if id_of(words) != *id {
                let (there, here) = (hex(id), hex(&id_of(words)));
                return Some(format!("id {k} written: the Rust has {there}, the port {here}"));
            }
            self.shadow[k * ID_WORDS..][..ID_WORDS].copy_from_slice(words);
        }
        (self.port.answer != self.shadow).then(|| "the port wrote where no id stands".into())
    }

    fn compare_counts(&mut self) -> Option<String> {
        let pool = self.rust.view().expect("a pool");
        let there = (pool.len(), pool.interblock_cost(), pool.per_peer_cost().len());
        let here = (self.port.len(), self.port.block_sum(), self.port.peer_sums().len());
        if there.0 == FULL.entries - 1 {
            self.tally.meet(tally::FULL_POOL);
        }
        if self.port.records() == FULL.records {
            self.tally.meet(tally::FULL_STORE);
        }
        if there.2 == PEERS {
            self.tally.meet(tally::ALL_PEERS);
        }
        (here != there).then(|| {
            format!("entries, block sum, peers: the Rust has {there:?}, the port {here:?}")
        })
    }

    /// The whole pools: ids, weights and bases in order, records in use, peer
    /// sums, and samples of the other queries.
    pub fn compare_pools(&mut self) {
        if self.over {
            return;
        }
        self.tally.pools += 1;
        if let Some(what) = self.difference() {
            self.differ(&what);
        }
    }

    fn difference(&mut self) -> Option<String> {
        let pool = self.rust.view().expect("a pool");
        let row = |key: &ergo_mempool::weight::TxWeight| Row {
            id: key.tx_id,
            weight: key.weight,
            base: key.fee_per_factor,
        };
        let (mut records, mut there) = (0, Vec::with_capacity(pool.len()));
        for utx in pool.all_prioritized() {
            records += utx.tx.inputs.len() + utx.tx.outputs.len();
            there.push(row(pool.weight_of(&utx.tx.id().0).expect("a pooled id has a key")));
        }
        let here = self.port.top(usize::MAX);
        if here != there {
            let rank = here.iter().zip(&there).take_while(|(a, b)| a == b).count();
            let (there, here) = (there.get(rank), here.get(rank));
            return Some(format!("rank {rank}: the Rust has {there:?}, the port {here:?}"));
        }
        let stamps = self.port.stamps();
        for (rank, (utx, stamp)) in pool.all_prioritized().iter().zip(&stamps).enumerate() {
            let (cost, checked, created) = *stamp;
            let (checked, created) = (clock::Instant::at(checked), clock::Instant::at(created));
            if (utx.validation_cost, utx.last_checked, utx.created) != (cost, checked, created) {
                return Some(format!("what is stamped at rank {rank}: the port has {stamp:?}"));
            }
        }
        let first = self.rng.below(there.len() as u64 + 2) as usize;
        if self.port.top(first) != there[..first.min(there.len())] {
            return Some(format!("the first {first}"));
        }
        if records != self.port.records() {
            return Some(format!("{records} records in the Rust, {} in use", self.port.records()));
        }
        let sums: Vec<(u64, u64)> =
            self.rust.charged().iter().map(|peer| (*peer, pool.per_peer_cost()[peer])).collect();
        if sums != self.port.peer_sums() {
            return Some("peer sums".into());
        }
        for _ in 0..SAMPLES.min(self.boxes.len() as u64) {
            let box_id = self.rng.pick(&self.boxes);
            let there = pool.spending_tx(&box_id).map(row);
            let here = self.port.spending_tx(&box_id);
            self.tally.samples += 1;
            if here != there {
                return Some(format!("spender of {}: {there:?} and {here:?}", hex(&box_id)));
            }
        }
        for _ in 0..SAMPLES.min(self.ids.len() as u64) {
            let id = self.rng.pick(&self.ids);
            // Around the end of an id's life, if it is in the cache.
            let times = [self.time, self.time + self.settings.ttl, self.time + self.settings.ttl / 2];
            let time = self.rng.pick(&times);
            let there = self.rust.contains(time, &id);
            let here = self.port.contains(time, &id);
            self.tally.samples += 1;
            if here != u64::from(there) {
                return Some(format!("{} at {time}: contained {there}, {here}", hex(&id)));
            }
        }
        None
    }

    fn differ(&mut self, what: &str) {
        self.over = true;
        let (shape, seed, calls) = (self.shape, self.seed, self.calls);
        self.tally.disagree(&format!("{shape} seed {seed} call {calls}: {what}"));
    }

    /// A sum of the Rust did not fit: its pool may be half changed, and there is
    /// nothing more to compare with. Anything else is a fault.
    fn ended(&mut self, stop: Stop) -> u64 {
        if stop.is_overflow() {
            self.tally.unfit += 1;
            self.over = true;
        } else {
            self.differ(&format!("the Rust stopped: {stop:?}"));
        }
        OVER
    }

    pub fn finish(mut self) {
        self.compare_pools();
        self.tally.script(self.calls);
    }
}

/// The place of a word in a table: at times any, mostly one of a slot that was used, of the index, of a column, or one of the last.
fn some_word(rng: &mut Rng, layout: &Layout, table: &[u64], used: usize) -> usize {
    let (slots, words) = (layout.slots(table.len()), table.len());
    let near = rng.below(used as u64) as usize;
    let any = rng.below(slots as u64) as usize;
    let of_index = rng.pick(layout.index);
    match rng.below(8) {
        0 => rng.below(words as u64) as usize,
        1 => words - 1 - rng.below(2) as usize,
        2 => (layout.slot * slots + near * layout.columns).min(words - 1),
        3 => layout.slot * any + of_index,
        4 => layout.slot * near + of_index,
        5 if !layout.heads.is_empty() => {
            let (last, head) = rng.pick(layout.heads);
            let bucket = bucket_of(table[layout.slot * near + last], table[words - 1], slots as u64);
            layout.head(head, slots, bucket as usize)
        }
        _ => layout.slot * near + rng.below(layout.slot as u64) as usize,
    }
}

/// An answer's text, a refusal's too.
fn answered(answer: Result<String, Stop>) -> Result<String, Stop> {
    match answer {
        Err(Stop::Refused(number)) => Ok(format!("(refused {number})")),
        Err(Stop::VerdictNeeded) => Ok("(verdict needed)".into()),
        other => other,
    }
}

/// A number that the port answers, as the Rust's side says it.
fn said(number: u64, done: u64, text: impl FnOnce() -> String) -> String {
    if number == done { text() } else { format!("(refused {number})") }
}

/// The beginning of an answer, for a message.
fn cut_text(text: &str) -> &str {
    text.get(..200).unwrap_or(text)
}

/// Settings that keep out of the way.
pub fn usual() -> Settings {
    Settings {
        capacity: 4_095,
        min_fee: 10,
        by_cycle: false,
        interval: 30_000,
        rebroadcast: 3,
        ttl: 1_800_000,
        cache: 10_000,
        block_limit: 1 << 63,
        peer_limit: 1 << 63,
    }
}
