//! The pool of the Rust behind the forms. The driver decides only what the
//! Rust does not have: refusals 1 to 6, 11, 20, 21, 26 and 27, the return of a
//! pooled id, and the order of the peers in `charges`. Everything else comes
//! out of the Rust.

use std::any::Any;
use std::cell::{Cell, RefCell};
use std::collections::{BTreeMap, BTreeSet};
use std::panic::{catch_unwind, resume_unwind, AssertUnwindSafe};
use std::rc::Rc;

use clock::{Duration, Instant};
use ergo_lib::chain::transaction::Transaction;
use ergo_lib::ergotree_ir::chain::ergo_box::{BoxId, BoxValue, ErgoBox};
use ergo_lib::ergotree_ir::ergo_tree::{ErgoTree, ErgoTreeVersion};
use ergo_lib::turn;
use ergo_mempool::stats::FeeHistogramBin;
use ergo_mempool::types::{
    FeeStrategy, MempoolConfig, ProcessingOutcome, UnconfirmedTx, UtxoReader,
};
use ergo_mempool::{Mempool, MAX_TRANSACTION_SIZE};
use ergo_validation::{ErgoStateContext, PreHeader};

use crate::forms::{self, hex, Form, Id, Output, Return, Settings, Tx, Verdict};

/// The sizes of a lent store, and of the buffer that takes answers.
#[derive(Clone, Copy, Debug)]
pub struct Store {
    pub entries: usize,
    pub records: usize,
    pub cache_ids: usize,
    pub answer_words: usize,
}

/// poolrun's store.
pub const POOLRUN: Store =
    Store { entries: 128, records: 1_024, cache_ids: 1_000, answer_words: 1_024 };

pub const PEERS: usize = 256;
const LARGEST_LIMIT: u64 = 1 << 63;

/// What the Rust says, by the words its reason begins with, and document 01's
/// number for it.
const DECLINED: &[(&str, u32)] = &[
    ("interblock cost", 24),
    ("per-peer cost", 25),
    ("too many inputs", 7),
    ("input box", 28),
    ("creation height", 8),
    ("fee", 10),
    ("pool full", 30),
];
const INVALIDATED: &[(&str, u32)] = &[("previously invalidated", 22), ("", 9)];
const ALREADY_IN_POOL: u32 = 23;
const DOUBLE_SPEND_LOSER: u32 = 29;

/// What the Rust says when a sum does not fit, and what is printed then.
const NO_FIT: &str = "attempt to add with overflow";
pub const OVERFLOW: &str = "(overflow)";

/// What a line printed.
pub struct Reply {
    pub text: String,
    /// The line's form, "unread" where it has none.
    pub form: &'static str,
    /// A sum of the Rust did not fit, or it stopped in another way: there is
    /// nothing left to compare with.
    pub end: bool,
}

/// Answers forms, line by line.
pub struct Driver {
    store: Store,
    line: u64,
    pool: Option<Pool>,
    written: Vec<Id>,
}

impl Default for Driver {
    fn default() -> Driver {
        Driver::on(POOLRUN)
    }
}

struct Pool {
    store: Store,
    mempool: Mempool,
    /// The peers in the order of their first charge since the last block.
    charged: Vec<u64>,
    pass: Option<Pass>,
}

/// An open pass. `Pool::mempool` stays as it was when the pass was opened;
/// every answer runs the Rust's whole pass anew on a copy, which stops where
/// no answer is there yet.
struct Pass {
    time: u64,
    limit: u64,
    preheader: u32,
    answers: Answers,
    /// The copy after the answers given so far.
    view: Mempool,
    reached: Reached,
    /// A `next` gave the candidate that is reached.
    out: bool,
}

type Answers = BTreeMap<Id, (Vec<bool>, Verdict)>;

#[derive(Clone, Copy)]
enum Reached {
    Candidate(Id),
    End { spent: u64 },
}

/// Thrown by the stand-ins through the Rust, and caught here.
struct VerdictNeeded;
struct CandidateReached(Id);

/// What a submission came to that was neither refused nor stopped.
#[derive(Clone, Copy, Debug, PartialEq, Eq)]
pub enum Submitted {
    Accepted,
    Replaced,
}

/// Why a line has no plain answer.
#[derive(Debug)]
pub enum Stop {
    Refused(u32),
    VerdictNeeded,
    /// The Rust panicked: with an overflow, or otherwise.
    Panicked(String),
}

impl Stop {
    /// A sum of the Rust did not fit.
    pub fn is_overflow(&self) -> bool {
        matches!(self, Stop::Panicked(why) if why.contains(NO_FIT))
    }
}

pub type Answer = Result<String, Stop>;

impl Driver {
    pub fn on(store: Store) -> Driver {
        Driver { store, line: 0, pool: None, written: Vec::new() }
    }

    pub fn answer(&mut self, line: &[u8]) -> Reply {
        self.line += 1;
        let Some(form) = forms::read(line) else {
            let text = format!("(unread {})", self.line);
            return Reply { text, form: "unread", end: false };
        };
        let name = form.name();
        let (text, end) = match self.ask(form) {
            Ok(text) => (text, false),
            Err(Stop::Refused(number)) => (format!("(refused {number})"), false),
            Err(Stop::VerdictNeeded) => ("(verdict needed)".into(), false),
            Err(stop) if stop.is_overflow() => (OVERFLOW.into(), true),
            Err(Stop::Panicked(why)) => (format!("(panic {why})"), true),
        };
        Reply { text, form: name, end }
    }

    /// What a form does, and the answer's text where it is neither refused nor stopped.
    pub fn ask(&mut self, form: Form) -> Answer {
        if changes(&form) {
            // A refused or `verdict needed` call has written nothing either;
            // without a pool there is nothing to forget.
            self.written.clear();
        }
        match (form, &mut self.pool) {
            (Form::Pool(settings), _) => self.start(&settings).map(|()| "(ready)".into()),
            (_, None) => Ok("(no pool)".into()),
            (form, Some(pool)) => pool.call(form, &mut self.written),
        }
    }

    /// What the form `pool` does.
    pub fn start(&mut self, s: &Settings) -> Result<(), Stop> {
        let limits = s.block_limit.max(s.peer_limit);
        refuse_if(s.capacity > self.store.entries as u64 - 1, 6)?;
        refuse_if(s.cache > self.store.cache_ids as u64 || limits > LARGEST_LIMIT, 6)?;
        clock::set(0);
        let mempool = Mempool::new(config(s));
        self.pool = Some(Pool { store: self.store, mempool, charged: Vec::new(), pass: None });
        Ok(())
    }

    /// What the form `tx` does: for lists that no line holds. There must be a pool.
    pub fn submit(&mut self, tx: &Tx) -> Result<Submitted, Stop> {
        self.written.clear();
        self.pool.as_mut().expect("a pool").submit(tx, &mut self.written)
    }

    /// What the form `contains` asks.
    pub fn contains(&self, time: u64, id: &Id) -> bool {
        self.pool.as_ref().is_some_and(|pool| pool.contains(time, id))
    }

    /// The ids that the last changing call wrote.
    pub fn written(&self) -> &[Id] {
        &self.written
    }

    /// A changing call that never came to the pool wrote nothing.
    pub fn forget(&mut self) {
        self.written.clear();
    }

    /// The peers that were charged since the last block, in the order of their
    /// first charge.
    pub fn charged(&self) -> &[u64] {
        self.pool.as_ref().map_or(&[], |pool| &pool.charged)
    }

    /// The pool as a query sees it now: for the generator.
    pub fn view(&self) -> Option<&Mempool> {
        self.pool.as_ref().map(Pool::view)
    }

    pub fn in_pass(&self) -> bool {
        self.pool.as_ref().is_some_and(|pool| pool.pass.is_some())
    }

    /// A copy that goes its own way: for the generator.
    pub fn fork(&self) -> Driver {
        let pool = self.pool.as_ref().map(|pool| Pool {
            store: pool.store,
            mempool: pool.mempool.deep_clone(),
            charged: pool.charged.clone(),
            pass: pool.pass.as_ref().map(|pass| Pass {
                answers: pass.answers.clone(),
                view: pass.view.deep_clone(),
                ..*pass
            }),
        });
        Driver { store: self.store, line: self.line, pool, written: self.written.clone() }
    }
}

/// A return as the Rust takes it.
pub fn given_back(r: &Return) -> UnconfirmedTx {
    let paid = |(box_id, height): &(Id, u32)| {
        ergo_box(&Output { box_id: *box_id, value: 0, fee: false, height: *height })
    };
    UnconfirmedTx {
        tx: Transaction::stand_in(r.id, &r.inputs, r.outputs.iter().map(paid).collect()),
        tx_bytes: vec![0u8; r.size as usize].into(),
        id_version: ErgoTreeVersion,
        fee: r.fee,
        cost: r.cost,
        validation_cost: r.measured,
        created: Instant::at(r.created),
        last_checked: Instant::at(r.checked),
        source: r.peer,
    }
}

/// A block's transactions as the Rust takes them.
pub fn confirmed(txs: &[(Id, Vec<Id>)]) -> Vec<Transaction> {
    txs.iter().map(|(id, inputs)| Transaction::stand_in(*id, inputs, Vec::new())).collect()
}

/// The settings as the Rust takes them.
pub fn config(s: &Settings) -> MempoolConfig {
    MempoolConfig {
        capacity: s.capacity as usize,
        min_fee: s.min_fee,
        fee_strategy: if s.by_cycle { FeeStrategy::FeePerCycle } else { FeeStrategy::FeePerByte },
        cleanup_interval: Duration::from_millis(s.interval),
        rebroadcast_count: s.rebroadcast as usize,
        invalidation_ttl: Duration::from_millis(s.ttl),
        invalidation_capacity: s.cache as usize,
        cost_per_block: s.block_limit,
        cost_per_peer_per_block: s.peer_limit,
        reward_delay: 720,
    }
}

/// The calls whose ids `written` shows.
fn changes(form: &Form) -> bool {
    matches!(
        form,
        Form::Pool(_)
            | Form::Tx(_)
            | Form::Return(_)
            | Form::Block { .. }
            | Form::Invalidate { .. }
            | Form::Open { .. }
            | Form::Next
            | Form::Answer { .. }
    )
}

fn refuse_if(condition: bool, number: u32) -> Result<(), Stop> {
    if condition { Err(Stop::Refused(number)) } else { Ok(()) }
}

impl Pool {
    fn view(&self) -> &Mempool {
        self.pass.as_ref().map_or(&self.mempool, |pass| &pass.view)
    }

    fn call(&mut self, form: Form, written: &mut Vec<Id>) -> Answer {
        match form {
            Form::Pool(_) => unreachable!("a start needs no pool"),
            Form::Tx(tx) => Ok(match self.submit(&tx, written)? {
                Submitted::Accepted => format!("(accepted {})", hex(&tx.id)),
                Submitted::Replaced => {
                    let list: Vec<String> = written.iter().map(hex).collect();
                    format!("(replaced {} ({}))", hex(&tx.id), list.join(" "))
                }
            }),
            Form::Return(returned) => self.give_back(&returned),
            Form::Block { time, txs } => self.block(time, &txs, written),
            Form::Invalidate { time, id } => self.invalidate(time, &id),
            Form::Open { time, limit, preheader } => self.open(time, limit, preheader),
            Form::Next => self.next(),
            Form::Answer { flags, verdict } => self.pass_answer(flags, verdict),
            Form::Rebroadcast(confirmed) => {
                let reader = Confirmed(confirmed.into_iter().collect());
                let chosen = self.view().select_for_rebroadcast(&reader);
                Ok(ids("ids", chosen.iter().map(|utx| id_of(utx))))
            }
            Form::List => Ok(self.pooled(&self.view().all_prioritized())),
            Form::Top(limit) => {
                let limit = usize::try_from(limit).unwrap_or(usize::MAX);
                Ok(self.pooled(&self.view().top(limit)))
            }
            Form::Len => Ok(format!("(len {})", self.view().len())),
            Form::Contains { time, id } => {
                Ok(if self.contains(time, &id) { "(yes)" } else { "(no)" }.into())
            }
            Form::Spending(box_id) => Ok(match self.view().spending_tx(&box_id) {
                None => "(none)".into(),
                Some(w) => format!("(spender {} {} {})", hex(&w.tx_id), w.weight, w.fee_per_factor),
            }),
            Form::Fee { minutes, size } => {
                refuse_if(size as usize > MAX_TRANSACTION_SIZE, 3)?;
                let fee = guarded(|| self.view().recommended_fee(minutes, size))?;
                Ok(format!("(fee {fee})"))
            }
            Form::Wait { time, fee, size } => self.wait(time, fee, size),
            Form::Histogram { time, bins, longest } => self.histogram(time, bins, longest),
            Form::Charges => Ok(self.charges()),
            Form::Written => Ok(ids("ids", written.iter().copied())),
        }
    }

    fn contains(&self, time: u64, id: &Id) -> bool {
        clock::set(time);
        self.view().contains(id)
    }

    fn wait(&self, time: u64, fee: u64, size: u32) -> Answer {
        refuse_if(size == 0 || size as usize > MAX_TRANSACTION_SIZE, 3)?;
        clock::set(time);
        let wait = guarded(|| self.view().expected_wait_ms_at(Instant::at(time), fee, size))?;
        Ok(format!("(wait {wait})"))
    }

    fn histogram(&self, time: u64, bins: u32, longest: u64) -> Answer {
        refuse_if((u64::from(bins) + 1) * 2 > self.store.answer_words as u64, 2)?;
        refuse_if(bins == 0 || longest < u64::from(bins), 11)?;
        clock::set(time);
        let pairs = guarded(|| self.view().pool_histogram_at(Instant::at(time), bins, longest))?;
        let pair = |bin: &FeeHistogramBin| format!(" ({} {})", bin.n_txns, bin.total_fee);
        Ok(format!("(bins{})", pairs.iter().map(pair).collect::<String>()))
    }

    fn charges(&self) -> String {
        let view = self.view();
        let peer = |peer: &u64| format!(" ({peer} {})", view.per_peer_cost()[peer]);
        let peers: String = self.charged.iter().map(peer).collect();
        format!("(charges {}{peers})", view.interblock_cost())
    }

    fn pooled(&self, entries: &[&UnconfirmedTx]) -> String {
        let entry = |utx: &&UnconfirmedTx| {
            let id = id_of(utx);
            let key = self.view().weight_of(&id).expect("a pooled id has a key");
            format!(" ({} {} {})", hex(&id), key.weight, key.fee_per_factor)
        };
        format!("(pooled{})", entries.iter().map(entry).collect::<String>())
    }

    fn submit(&mut self, tx: &Tx, written: &mut Vec<Id>) -> Result<Submitted, Stop> {
        refuse_if(self.pass.is_some(), 20)?;
        refuse_if(tx.size > MAX_TRANSACTION_SIZE as u64, 3)?;
        let fees = tx.outputs.iter().filter(|out| out.fee);
        let fee = fees.fold(0u128, |sum, out| sum + u128::from(out.value));
        refuse_if(fee > u128::from(u64::MAX), 4)?;
        let dear = matches!(tx.verdict, Verdict::Ok(cost) if cost > u64::from(u32::MAX));
        refuse_if(dear, 5)?;
        clock::set(tx.time);
        self.room_for(tx)?;

        let reader = Flags::of(tx);
        let context = context(tx.preheader, judge(tx.verdict));
        let outcome = guarded(|| {
            let bytes = vec![0u8; tx.size as usize];
            self.mempool.process(
                transaction(tx),
                bytes,
                ErgoTreeVersion,
                &reader,
                &context,
                tx.peer,
            )
        })?;
        if let Some(peer) = tx.peer {
            if self.mempool.per_peer_cost().contains_key(&peer) && !self.charged.contains(&peer) {
                self.charged.push(peer);
            }
        }
        outcome_of(outcome, written)
    }

    /// Refusals 26 and 27, given exactly where the Rust would get past its
    /// tests 22 to 25 and 7. These are looked up and not decided here: where
    /// one of them holds, the Rust says so itself.
    fn room_for(&self, tx: &Tx) -> Result<(), Stop> {
        let pool = &self.mempool;
        if pool.is_invalidated(&tx.id) || pool.get(&tx.id).is_some() {
            return Ok(());
        }
        if let Some(peer) = tx.peer {
            if pool.interblock_cost() >= pool.config().cost_per_block {
                return Ok(());
            }
            match pool.per_peer_cost().get(&peer) {
                Some(sum) if *sum >= pool.config().cost_per_peer_per_block => return Ok(()),
                Some(_) => {}
                None => refuse_if(pool.per_peer_cost().len() >= PEERS, 26)?,
            }
        }
        if tx.inputs.len() > 5_000 {
            return Ok(());
        }
        self.store_has(tx.inputs.len() + tx.outputs.len())
    }

    /// Refusal 27.
    fn store_has(&self, records: usize) -> Result<(), Stop> {
        let pooled = self.mempool.all_prioritized();
        let used: usize = pooled.iter().map(|u| u.tx.inputs.len() + u.tx.outputs.len()).sum();
        refuse_if(pooled.len() >= self.store.entries || used + records > self.store.records, 27)
    }

    fn give_back(&mut self, r: &Return) -> Answer {
        refuse_if(self.pass.is_some(), 20)?;
        refuse_if(r.size > MAX_TRANSACTION_SIZE as u64, 3)?;
        refuse_if(self.mempool.get(&r.id).is_some(), ALREADY_IN_POOL)?;
        self.store_has(r.inputs.len() + r.outputs.len())?;
        let utx = given_back(r);
        guarded(|| self.mempool.return_to_pool(vec![utx]))?;
        Ok(format!("(returned {})", hex(&r.id)))
    }

    fn block(&mut self, time: u64, txs: &[(Id, Vec<Id>)], written: &mut Vec<Id>) -> Answer {
        refuse_if(self.pass.is_some(), 20)?;
        clock::set(time);
        let txs = confirmed(txs);
        let removed = guarded(|| self.mempool.apply_block_at(Instant::at(time), &txs))?;
        self.charged.clear();
        *written = removed;
        Ok(ids("removed", written.iter().copied()))
    }

    fn invalidate(&mut self, time: u64, id: &Id) -> Answer {
        refuse_if(self.pass.is_some(), 20)?;
        clock::set(time);
        guarded(|| self.mempool.invalidate(id))?;
        Ok(format!("(invalidated {})", hex(id)))
    }

    fn open(&mut self, time: u64, limit: u64, preheader: u32) -> Answer {
        refuse_if(self.pass.is_some(), 20)?;
        let answers = Answers::new();
        let (view, reached, _) = run_pass(&self.mempool, time, limit, preheader, &answers)?;
        self.pass = Some(Pass { time, limit, preheader, answers, view, reached, out: false });
        Ok("(opened)".into())
    }

    fn next(&mut self) -> Answer {
        let pass = self.pass.as_mut().ok_or(Stop::Refused(21))?;
        match pass.reached {
            Reached::Candidate(id) => {
                pass.out = true;
                Ok(format!("(candidate {})", hex(&id)))
            }
            Reached::End { spent } => {
                let pass = self.pass.take().expect("the pass that is open");
                self.mempool = pass.view;
                Ok(format!("(ended {spent})"))
            }
        }
    }

    fn pass_answer(&mut self, flags: Vec<bool>, verdict: Verdict) -> Answer {
        let pass = self.pass.as_mut().ok_or(Stop::Refused(21))?;
        let id = match pass.reached {
            Reached::Candidate(id) if pass.out => id,
            _ => return Err(Stop::Refused(21)),
        };
        let candidate = pass.view.get(&id).expect("a candidate is pooled");
        refuse_if(flags.len() != candidate.tx.inputs.len(), 1)?;

        // Kept only if the Rust could treat the candidate with it.
        let mut answers = pass.answers.clone();
        answers.insert(id, (flags, verdict));
        let (view, reached, judged) =
            run_pass(&self.mempool, pass.time, pass.limit, pass.preheader, &answers)?;
        let kind = match (judged.contains(&id), view.get(&id).is_some()) {
            (false, false) => "missing",
            (true, false) => "invalid",
            (true, true) => "valid",
            (false, true) => return Err(Stop::Panicked("candidate passed over".into())),
        };
        *pass = Pass { answers, view, reached, out: false, ..*pass };
        Ok(format!("({kind} {})", hex(&id)))
    }
}

/// Runs the Rust's pass on a copy of `pool` until it ends or reaches a
/// candidate that has no answer. Gives the copy, where it stopped, and the ids
/// that the validator was asked about.
fn run_pass(
    pool: &Mempool,
    time: u64,
    limit: u64,
    preheader: u32,
    answers: &Answers,
) -> Result<(Mempool, Reached, Vec<Id>), Stop> {
    let judged = Rc::new(RefCell::new(Vec::new()));
    let answers = Rc::new(answers.clone());
    let reader = Candidates { answers: answers.clone(), at: Cell::new(([0; 32], 0)) };
    let (asked, verdicts) = (judged.clone(), answers);
    let context = context(
        preheader,
        Box::new(move |tx: &Transaction| {
            let id = tx.id().0;
            let Some((_, verdict)) = verdicts.get(&id) else {
                resume_unwind(Box::new(CandidateReached(id)))
            };
            asked.borrow_mut().push(id);
            judge(*verdict)(tx)
        }),
    );
    clock::set(time);
    clock::take_spent();
    let mut copy = pool.deep_clone();
    let run = catch_quietly(|| {
        copy.revalidate_with_limit(Instant::at(time), limit, &reader, &context);
    });
    let reached = match run {
        Ok(()) => Reached::End { spent: clock::take_spent().expect("the pass reports what it spent") },
        Err(thrown) => match thrown.downcast::<CandidateReached>() {
            Ok(reached) => Reached::Candidate(reached.0),
            Err(other) => return Err(stop_of(other)),
        },
    };
    let judged = judged.borrow().clone();
    Ok((copy, reached, judged))
}

/// One place that turns the Rust's outcomes into document 01's answers.
fn outcome_of(outcome: ProcessingOutcome, written: &mut Vec<Id>) -> Result<Submitted, Stop> {
    let numbered = |table: &[(&str, u32)], reason: &str| {
        let found = table.iter().find(|(words, _)| reason.starts_with(words));
        Err(match found {
            Some((_, number)) => Stop::Refused(*number),
            None => Stop::Panicked(format!("unknown reason: {reason}")),
        })
    };
    match outcome {
        ProcessingOutcome::Accepted { .. } => Ok(Submitted::Accepted),
        ProcessingOutcome::Replaced { removed, .. } => {
            *written = removed;
            Ok(Submitted::Replaced)
        }
        ProcessingOutcome::DoubleSpendLoser { winner_ids } => {
            *written = winner_ids;
            Err(Stop::Refused(DOUBLE_SPEND_LOSER))
        }
        ProcessingOutcome::Declined { reason } => numbered(DECLINED, &reason),
        ProcessingOutcome::Invalidated { reason } => numbered(INVALIDATED, &reason),
        ProcessingOutcome::AlreadyInPool => Err(Stop::Refused(ALREADY_IN_POOL)),
    }
}

fn ids(name: &str, ids: impl Iterator<Item = Id>) -> String {
    let list: String = ids.map(|id| format!(" {}", hex(&id))).collect();
    format!("({name}{list})")
}

fn id_of(utx: &UnconfirmedTx) -> Id {
    utx.tx.id().0
}

fn ergo_box(out: &Output) -> ErgoBox {
    ErgoBox {
        id: BoxId(out.box_id),
        value: BoxValue(out.value),
        ergo_tree: ErgoTree { pays_fee: out.fee },
        creation_height: out.height,
    }
}

/// A submission as the Rust takes it.
pub fn transaction(tx: &Tx) -> Transaction {
    let inputs: Vec<Id> = tx.inputs.iter().map(|i| i.0).collect();
    Transaction::stand_in(tx.id, &inputs, tx.outputs.iter().map(ergo_box).collect())
}

pub fn context(preheader: u32, judge: ergo_validation::Judge) -> ErgoStateContext {
    ErgoStateContext { pre_header: PreHeader { height: preheader }, judge }
}

/// The validator that a verdict stands for. Without one it does not come back,
/// and at that point the Rust has changed nothing for this transaction.
pub fn judge(verdict: Verdict) -> ergo_validation::Judge {
    Box::new(move |_| match verdict {
        Verdict::Ok(cost) => Ok(cost),
        Verdict::Bad => Err("invalid verdict".into()),
        Verdict::None => resume_unwind(Box::new(VerdictNeeded)),
    })
}

/// Any box: the pool only asks whether there is one.
fn some_box(id: &Id) -> ErgoBox {
    ergo_box(&Output { box_id: *id, value: 0, fee: false, height: 0 })
}

/// A submission's confirmed boxes, by position: the k-th question is about
/// input k, so that a repeated input may carry both flags.
pub struct Flags {
    flags: Vec<bool>,
    at: Cell<usize>,
}

impl Flags {
    pub fn of(tx: &Tx) -> Flags {
        Flags { flags: tx.inputs.iter().map(|i| i.1).collect(), at: Cell::new(0) }
    }
}

impl UtxoReader for Flags {
    fn box_by_id(&self, box_id: &Id) -> Option<ErgoBox> {
        let at = self.at.replace(self.at.get() + 1);
        self.flags[at].then(|| some_box(box_id))
    }
}

/// A pass's confirmed boxes: by candidate, and then by position.
struct Candidates {
    answers: Rc<Answers>,
    at: Cell<(Id, usize)>,
}

impl UtxoReader for Candidates {
    fn box_by_id(&self, box_id: &Id) -> Option<ErgoBox> {
        let owner = turn::owner();
        let Some((flags, _)) = self.answers.get(&owner) else {
            resume_unwind(Box::new(CandidateReached(owner)))
        };
        // The first read of a candidate: every candidate comes up once.
        let (last, next) = self.at.get();
        let at = if last == owner { next } else { 0 };
        self.at.set((owner, at + 1));
        flags[at].then(|| some_box(box_id))
    }
}

/// Rebroadcast's confirmed boxes, by id.
struct Confirmed(BTreeSet<Id>);

impl UtxoReader for Confirmed {
    fn box_by_id(&self, box_id: &Id) -> Option<ErgoBox> {
        self.0.contains(box_id).then(|| some_box(box_id))
    }
}

thread_local! {
    static QUIET: Cell<bool> = const { Cell::new(false) };
}

/// Panics of the Rust are answers and print nothing; others print as ever.
pub fn keep_panics_quiet() {
    let usual = std::panic::take_hook();
    std::panic::set_hook(Box::new(move |info| {
        if !QUIET.with(Cell::get) {
            usual(info);
        }
    }));
}

fn catch_quietly<T>(call: impl FnOnce() -> T) -> Result<T, Box<dyn Any + Send>> {
    QUIET.with(|quiet| quiet.set(true));
    let result = catch_unwind(AssertUnwindSafe(call));
    QUIET.with(|quiet| quiet.set(false));
    result
}

fn guarded<T>(call: impl FnOnce() -> T) -> Result<T, Stop> {
    catch_quietly(call).map_err(stop_of)
}

fn stop_of(thrown: Box<dyn Any + Send>) -> Stop {
    if thrown.is::<VerdictNeeded>() {
        return Stop::VerdictNeeded;
    }
    let text = thrown.downcast_ref::<&str>().map(|text| text.to_string());
    let text = text.or_else(|| thrown.downcast_ref::<String>().cloned());
    Stop::Panicked(text.unwrap_or_else(|| "of an unknown kind".into()))
}

#[cfg(test)]
mod tests;
