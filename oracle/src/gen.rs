//! Scripts from seeds. A generator keeps the oracle itself at hand and looks
//! at its pool, so that lines meet what is there: the pooled boxes, the
//! weights to beat, the ids in the cache.

use crate::driver::Driver;
use crate::forms::{self, hex, Id, Output, Return, Settings, Tx, Verdict, NAMES};
use crate::profiles;
use crate::rng::Rng;

/// The profiles: a name, what makes its lines, and the forms it keeps to.
pub struct Profile {
    pub name: &'static str,
    pub make: fn(&mut Gen),
    pub forms: &'static [&'static str],
}

/// How many lines a script has unless it is told otherwise.
pub const LINES: usize = 400;

/// The script of a seed and a profile; `only` leaves out other forms.
pub fn script(seed: u64, profile: &Profile, lines: usize, only: Option<&[String]>) -> Vec<u8> {
    let kept = |form: &&'static str| only.is_none_or(|only| only.iter().any(|o| o == form));
    let name = profile.name.bytes().fold(0u64, |sum, b| sum.wrapping_mul(131).wrapping_add(b.into()));
    let mut gen = Gen {
        rng: Rng::new(seed.wrapping_mul(0x9e37_79b9_7f4a_7c15) ^ name),
        driver: Driver::default(),
        script: Vec::new(),
        lines: 0,
        tries: 0,
        wanted: lines,
        forms: profile.forms.iter().copied().filter(kept).collect(),
        ended: false,
        careful: false,
        time: 0,
        fresh: 0,
        recent: Vec::new(),
        cached: Vec::new(),
        now: usual(),
    };
    (profile.make)(&mut gen);
    gen.script
}

/// The settings of a `pool` line, to be changed as needed.
pub fn usual() -> Settings {
    Settings {
        capacity: 20,
        min_fee: 10,
        by_cycle: false,
        interval: 1_000,
        rebroadcast: 3,
        ttl: 100_000,
        cache: 10,
        block_limit: 1 << 40,
        peer_limit: 1 << 40,
    }
}

/// How often a random line does what, in percent, and from how much it chooses.
#[derive(Clone)]
pub struct Style {
    /// Boxes that are used over and over.
    pub boxes: u64,
    /// Ids that are used over and over, 0 for none.
    pub ids: u64,
    pub peers: u64,
    pub inputs: u64,
    pub outputs: u64,
    pub conflict: u64,
    pub chain: u64,
    pub repeat: u64,
    pub missing: u64,
    pub ahead: u64,
    pub bad: u64,
    pub none: u64,
    pub poor: u64,
    pub old_id: u64,
    /// How far time may go on between two lines.
    pub step: u64,
}

impl Default for Style {
    fn default() -> Self {
        Style {
            boxes: 12,
            ids: 0,
            peers: 3,
            inputs: 3,
            outputs: 3,
            conflict: 25,
            chain: 35,
            repeat: 8,
            missing: 3,
            ahead: 1,
            bad: 4,
            none: 3,
            poor: 3,
            old_id: 6,
            step: 50,
        }
    }
}

/// A pooled transaction as the generator sees it.
pub struct Pooled {
    pub id: Id,
    pub weight: u64,
    pub inputs: Vec<Id>,
    pub outputs: Vec<Id>,
}

pub struct Gen {
    pub rng: Rng,
    driver: Driver,
    script: Vec<u8>,
    lines: usize,
    /// Lines written or left out.
    tries: usize,
    wanted: usize,
    forms: Vec<&'static str>,
    /// A line was kept at which the Rust's sum does not fit.
    ended: bool,
    /// Look before each line whether a sum would overflow, and mostly drop such a line.
    pub careful: bool,
    pub time: u64,
    fresh: u64,
    /// Ids and boxes of some time ago.
    recent: Vec<Id>,
    /// Ids put into the cache and when.
    pub cached: Vec<(Id, u64)>,
    pub now: Settings,
}

pub fn small(n: u64) -> Id {
    let mut id = [0u8; 32];
    id[24..].copy_from_slice(&n.to_be_bytes());
    id
}

fn list<T>(items: &[T], show: impl Fn(&T) -> String) -> String {
    format!("({})", items.iter().map(show).collect::<Vec<_>>().join(" "))
}

fn verdict_words(verdict: Verdict) -> String {
    match verdict {
        Verdict::Ok(cost) => format!("(ok {cost})"),
        Verdict::Bad => "(bad)".into(),
        Verdict::None => "(none)".into(),
    }
}

fn peer_word(peer: Option<u64>) -> String {
    peer.map_or("local".into(), |p| p.to_string())
}

impl Gen {
    /// Lines are still wanted. A script whose lines are mostly left out ends in time, too.
    pub fn more(&self) -> bool {
        !self.ended && self.lines < self.wanted && self.tries < 20 * self.wanted
    }

    /// Writes a line and gives its answer, or nothing if it is left out.
    pub fn say(&mut self, line: &str) -> String {
        self.say_bytes(line.as_bytes())
    }

    pub fn say_bytes(&mut self, line: &[u8]) -> String {
        debug_assert!(!line.contains(&b'\n'));
        self.tries += 1;
        if !self.more() || forms::read(line).is_some_and(|form| !self.forms.contains(&form.name())) {
            return String::new();
        }
        let before = self.careful.then(|| self.driver.fork());
        let reply = self.driver.answer(line);
        if reply.end {
            match before {
                Some(before) if self.rng.chance(94) => {
                    self.driver = before;
                    return String::new();
                }
                _ => self.ended = true,
            }
        }
        self.script.extend_from_slice(line);
        self.script.push(b'\n');
        self.lines += 1;
        reply.text
    }

    /// The script ends without a newline.
    pub fn drop_last_newline(&mut self) {
        if self.script.last() == Some(&b'\n') {
            self.script.pop();
        }
    }

    pub fn in_pass(&self) -> bool {
        self.driver.in_pass()
    }

    pub fn pooled(&self) -> Vec<Pooled> {
        let Some(view) = self.driver.view() else { return Vec::new() };
        let entry = |utx: &&ergo_mempool::types::UnconfirmedTx| Pooled {
            id: utx.tx.id().0,
            weight: view.weight_of(&utx.tx.id().0).map_or(0, |key| key.weight),
            inputs: utx.tx.inputs.iter().map(|i| i.box_id.0).collect(),
            outputs: utx.tx.outputs.iter().map(|o| o.box_id().0).collect(),
        };
        view.all_prioritized().iter().map(entry).collect()
    }

    pub fn used_records(&self) -> usize {
        self.pooled().iter().map(|p| p.inputs.len() + p.outputs.len()).sum()
    }

    // --- Ids, boxes and times ---

    /// An id or box that was not there yet; some differ only far to the left.
    pub fn new_id(&mut self) -> Id {
        self.fresh += 1;
        let mut id = small(0x100 + self.fresh);
        if self.rng.chance(12) {
            let word = self.rng.below(3) as usize;
            id[8 * word + self.rng.below(8) as usize] = self.rng.pick(&[1, 0x7f, 0x80, 0xff]);
        }
        if self.recent.len() >= 40 {
            self.recent.remove(0);
        }
        self.recent.push(id);
        id
    }

    pub fn old_id(&mut self) -> Id {
        let recent = self.recent.clone();
        if recent.is_empty() { small(1) } else { self.rng.pick(&recent) }
    }

    pub fn common_box(&mut self, style: &Style) -> Id {
        small(1 + self.rng.below(style.boxes))
    }

    pub fn tick(&mut self, style: &Style) -> u64 {
        self.time = self.time.saturating_add(self.rng.below(style.step + 1));
        self.time
    }

    /// The id as a word, now and then in another spelling.
    fn spell(&mut self, id: &Id) -> String {
        let word = hex(id);
        match self.rng.below(60) {
            0 => word.to_uppercase(),
            1 if word.len() < 60 => format!("00{word}"),
            _ => word,
        }
    }

    // --- Lines ---

    pub fn pool(&mut self, s: &Settings) -> String {
        let line = format!(
            "(pool {} {} {} {} {} {} {} {} {})",
            s.capacity,
            s.min_fee,
            if s.by_cycle { "cycle" } else { "byte" },
            s.interval,
            s.rebroadcast,
            s.ttl,
            s.cache,
            s.block_limit,
            s.peer_limit
        );
        let answer = self.say(&line);
        if answer == "(ready)" {
            self.now = s.clone();
            self.time = 0;
            self.cached.clear();
        }
        answer
    }

    pub fn tx(&mut self, p: &Tx) -> String {
        let id = self.spell(&p.id);
        let inputs = list(&p.inputs, |(id, set)| {
            format!("({} {})", hex(id), if *set { "set" } else { "not" })
        });
        let outputs = list(&p.outputs, |out| {
            let kind = if out.fee { "fee" } else { "pay" };
            format!("({} {} {kind} {})", hex(&out.box_id), out.value, out.height)
        });
        let peer = peer_word(p.peer);
        let answer = self.say(&format!(
            "(tx {} {id} {peer} {} {} {inputs} {outputs} {})",
            p.time,
            p.size,
            p.preheader,
            verdict_words(p.verdict)
        ));
        if answer == "(refused 9)" {
            self.cached.push((p.id, p.time));
        }
        answer
    }

    pub fn give_back(&mut self, r: &Return) -> String {
        let id = self.spell(&r.id);
        let measured = r.measured.map_or("none".into(), |m| m.to_string());
        self.say(&format!(
            "(return {id} {} {} {} {measured} {} {} {} {} {})",
            r.fee,
            r.size,
            r.cost,
            r.created,
            r.checked,
            peer_word(r.peer),
            list(&r.inputs, hex),
            list(&r.outputs, |(id, height)| format!("({} {height})", hex(id)))
        ))
    }

    pub fn block(&mut self, time: u64, txs: &[(Id, Vec<Id>)]) -> String {
        let txs = list(txs, |(id, inputs)| format!("({} {})", hex(id), list(inputs, hex)));
        self.say(&format!("(block {time} {txs})"))
    }

    pub fn invalidate(&mut self, time: u64, id: &Id) -> String {
        let word = self.spell(id);
        let answer = self.say(&format!("(invalidate {time} {word})"));
        if answer.starts_with("(inv") {
            self.cached.push((*id, time));
        }
        answer
    }

    pub fn contains(&mut self, time: u64, id: &Id) -> String {
        let word = self.spell(id);
        self.say(&format!("(contains {time} {word})"))
    }

    // --- Random lines ---

    /// A submission that meets what is pooled.
    pub fn plan(&mut self, style: &Style) -> Tx {
        let pooled = self.pooled();
        let spent: Vec<Id> = pooled.iter().flat_map(|p| p.inputs.iter().copied()).collect();
        let made: Vec<Id> = pooled.iter().flat_map(|p| p.outputs.iter().copied()).collect();
        let unspent: Vec<Id> = made.iter().filter(|b| !spent.contains(b)).copied().collect();

        let mut inputs: Vec<(Id, bool)> = Vec::new();
        for _ in 0..self.rng.below(style.inputs + 1).max(self.rng.below(3)) {
            let input = if self.rng.chance(style.missing) {
                (self.new_id(), false)
            } else if self.rng.chance(style.repeat) && !inputs.is_empty() {
                let (id, set) = self.rng.pick(&inputs);
                (id, set || self.rng.chance(30))
            } else if self.rng.chance(style.conflict) && !spent.is_empty() {
                let id = self.rng.pick(&spent);
                (id, !made.contains(&id) || self.rng.chance(30))
            } else if self.rng.chance(style.chain) && !unspent.is_empty() {
                (self.rng.pick(&unspent), self.rng.chance(15))
            } else if self.rng.chance(40) {
                (self.common_box(style), true)
            } else {
                (self.new_id(), true)
            };
            inputs.push(input);
        }

        let preheader = self.rng.pick(&[50, 50, 50, 49, 51, 1 << 31, u32::MAX]);
        let fee = self.fee_against(&inputs, &pooled, style);
        let mut outputs = Vec::new();
        let fee_parts = if fee > 3 && self.rng.chance(15) { 2 } else { 1 };
        for part in 0..fee_parts {
            let value = if fee_parts == 1 { fee } else if part == 0 { fee / 3 } else { fee - fee / 3 };
            outputs.push(self.output(value, true, preheader, style));
        }
        for _ in 0..self.rng.below(style.outputs + 1) {
            let value = self.rng.below(10_000);
            outputs.push(self.output(value, false, preheader, style));
        }
        if outputs.len() > 1 && self.rng.chance(style.repeat) {
            outputs[1].box_id = outputs[0].box_id;
        }
        if self.rng.chance(40) {
            self.rng.shuffle(&mut outputs);
        }

        let id = self.some_id(style, &pooled);
        let size = self.rng.pick(&[1024, 1024, 1024, 1024, 512, 1000, 300, 2048]);
        let verdict = self.verdict(style, size);
        let peer = self.peer(style);
        let time = self.tick(style);
        Tx { time, id, peer, size, preheader, inputs, outputs, verdict }
    }

    fn some_id(&mut self, style: &Style, pooled: &[Pooled]) -> Id {
        if self.rng.chance(style.old_id) {
            return match self.rng.below(3) {
                0 if !pooled.is_empty() => pooled[self.rng.below(pooled.len() as u64) as usize].id,
                1 if !self.cached.is_empty() => {
                    let cached = self.cached.clone();
                    self.rng.pick(&cached).0
                }
                _ => self.old_id(),
            };
        }
        if style.ids == 0 {
            return self.new_id();
        }
        // One of the few, and mostly one that is not pooled.
        let mut id = small(0xa0 + self.rng.below(style.ids));
        for _ in 0..6 {
            if self.rng.chance(5) || pooled.iter().all(|p| p.id != id) {
                break;
            }
            id = small(0xa0 + self.rng.below(style.ids));
        }
        id
    }

    fn output(&mut self, value: u64, fee: bool, preheader: u32, style: &Style) -> Output {
        let box_id = if self.rng.chance(25) { self.common_box(style) } else { self.new_id() };
        Output { box_id, value, fee, height: self.height(preheader, style) }
    }

    fn height(&mut self, preheader: u32, style: &Style) -> u32 {
        if self.rng.chance(style.ahead) {
            preheader.wrapping_add(1)
        } else {
            let low = [preheader, preheader, 0, 1 << 31, preheader.wrapping_sub(1)];
            let height = self.rng.pick(&low);
            if height as i32 > preheader as i32 { preheader } else { height }
        }
    }

    pub fn peer(&mut self, style: &Style) -> Option<u64> {
        (style.peers > 0 && self.rng.chance(65)).then(|| 1 + self.rng.below(style.peers))
    }

    fn verdict(&mut self, style: &Style, size: u64) -> Verdict {
        if self.rng.chance(style.bad) {
            Verdict::Bad
        } else if self.rng.chance(style.none) {
            Verdict::None
        } else {
            Verdict::Ok(self.rng.pick(&[0, 1, size, size + 1, 1024, 2000, 5000]))
        }
    }

    /// A fee around what decides: the minimum, the conflicts' average, the lowest weight.
    fn fee_against(&mut self, inputs: &[(Id, bool)], pooled: &[Pooled], style: &Style) -> u64 {
        let min = self.now.min_fee;
        if self.rng.chance(style.poor) {
            return min.saturating_sub(1 + self.rng.below(3));
        }
        let mut against: Vec<u64> = Vec::new();
        for p in pooled {
            if p.inputs.iter().any(|b| inputs.iter().any(|i| i.0 == *b)) {
                against.push(p.weight);
            }
        }
        let around = |rng: &mut Rng, n: u64| n.saturating_add(rng.below(4)).saturating_sub(1);
        if !against.is_empty() && self.rng.chance(70) {
            let sum: u128 = against.iter().map(|w| u128::from(*w)).sum();
            let average = (sum / against.len() as u128) as u64;
            let far = self.rng.below(2_000);
            return if self.rng.chance(65) { around(&mut self.rng, average) } else { average.saturating_add(far) };
        }
        let full = pooled.len() as u64 >= self.now.capacity;
        match pooled.last() {
            Some(lowest) if full && self.rng.chance(50) => around(&mut self.rng, lowest.weight),
            _ => {
                if self.rng.chance(10) {
                    min
                } else {
                    min.saturating_add(self.rng.below(3_000))
                }
            }
        }
    }

    pub fn step_tx(&mut self, style: &Style) -> String {
        let plan = self.plan(style);
        self.tx(&plan)
    }

    /// A return made of boxes that are about, so that cycles and shadowed
    /// indexes come up.
    pub fn back(&mut self, style: &Style) -> Return {
        let pooled = self.pooled();
        let about: Vec<Id> =
            pooled.iter().flat_map(|p| p.inputs.iter().chain(&p.outputs).copied()).collect();
        let some = |g: &mut Gen| {
            if !about.is_empty() && g.rng.chance(40) {
                g.rng.pick(&about)
            } else if g.rng.chance(60) {
                g.common_box(style)
            } else {
                g.new_id()
            }
        };
        let inputs: Vec<Id> = (0..self.rng.below(style.inputs + 1)).map(|_| some(self)).collect();
        let outputs: Vec<Id> = (0..self.rng.below(style.outputs + 1)).map(|_| some(self)).collect();
        let heights = [0, 49, 50, 51, (1 << 31) - 1, 1 << 31, u32::MAX];
        let outputs = outputs
            .into_iter()
            .map(|b| (b, if self.rng.chance(60) { 50 } else { self.rng.pick(&heights) }))
            .collect();
        let size = self.rng.pick(&[1024, 1024, 1024, 0, 1, 300]);
        let checked = self.some_time();
        Return {
            id: self.some_id(style, &pooled),
            fee: self.rng.below(3_000),
            size,
            cost: self.rng.pick(&[0, 1, 1024, 1024, 5000]),
            measured: if self.rng.chance(40) { None } else { Some(self.rng.below(3_000)) },
            created: self.some_time(),
            checked,
            peer: self.peer(style),
            inputs,
            outputs,
        }
    }

    /// A time at or around the present one.
    pub fn some_time(&mut self) -> u64 {
        let back = self.rng.pick(&[0, 0, 1, self.now.interval, self.now.interval.saturating_add(1), 70_000]);
        let on = if self.rng.chance(10) { self.rng.below(1_000) } else { 0 };
        self.time.saturating_sub(back).saturating_add(on)
    }

    pub fn step_return(&mut self, style: &Style) -> String {
        let back = self.back(style);
        self.give_back(&back)
    }

    /// A block of some pooled transactions and some strangers that spend
    /// pooled inputs, own ones or none.
    pub fn step_block(&mut self, style: &Style) -> String {
        let pooled = self.pooled();
        let spent: Vec<Id> = pooled.iter().flat_map(|p| p.inputs.iter().copied()).collect();
        let mut txs = Vec::new();
        for _ in 0..self.rng.below(4) {
            let (id, mut inputs) = if !pooled.is_empty() && self.rng.chance(60) {
                let p = &pooled[self.rng.below(pooled.len() as u64) as usize];
                (p.id, if self.rng.chance(70) { p.inputs.clone() } else { Vec::new() })
            } else {
                (self.some_id(style, &pooled), Vec::new())
            };
            for _ in 0..self.rng.below(3) {
                let stranger = spent.is_empty() || self.rng.chance(40);
                inputs.push(if stranger { self.common_box(style) } else { self.rng.pick(&spent) });
            }
            txs.push((id, inputs));
        }
        let time = self.tick(style);
        self.block(time, &txs)
    }

    pub fn step_invalidate(&mut self, style: &Style) -> String {
        let pooled = self.pooled();
        let id = if !pooled.is_empty() && self.rng.chance(50) {
            pooled[self.rng.below(pooled.len() as u64) as usize].id
        } else {
            self.some_id(style, &pooled)
        };
        let time = self.tick(style);
        self.invalidate(time, &id)
    }

    /// What shows the state.
    pub fn look(&mut self) {
        // A pass that was left open hinders most of what follows.
        if self.in_pass() && self.rng.chance(30) {
            self.finish_pass(&Style::default());
        }
        match self.rng.below(10) {
            0..=3 => self.say("(list)"),
            4 | 5 => self.say("(charges)"),
            6 | 7 => self.say("(written)"),
            8 => self.say("(len)"),
            _ => {
                let limit = self.rng.pick(&[0, 1, 2, 5, 127, 128, u64::MAX]);
                self.say(&format!("(top {limit})"))
            }
        };
    }

    pub fn query(&mut self, style: &Style) {
        let pooled = self.pooled();
        match self.rng.below(9) {
            0 | 1 => {
                let id = self.some_id(&Style { old_id: 90, ..style.clone() }, &pooled);
                let time = self.some_time();
                self.contains(time, &id);
            }
            2 | 3 => {
                let spent: Vec<Id> = pooled.iter().flat_map(|p| p.inputs.iter().copied()).collect();
                let stranger = spent.is_empty() || self.rng.chance(25);
                let box_id = if stranger { self.common_box(style) } else { self.rng.pick(&spent) };
                let word = self.spell(&box_id);
                self.say(&format!("(spending {word})"));
            }
            4 => {
                let minutes = self.rng.pick(&[0, 1, 2, 10, 59, 60, u32::MAX]);
                let size = self.rng.pick(&[0, 1, 300, 1024, 98_304, 98_305, u32::MAX]);
                self.say(&format!("(fee {minutes} {size})"));
            }
            5 => {
                let fee = match pooled.first() {
                    Some(_) if self.rng.chance(70) => {
                        let at = self.rng.below(pooled.len() as u64) as usize;
                        pooled[at].weight.saturating_add(self.rng.below(3)).saturating_sub(1)
                    }
                    _ => self.rng.below(3_000),
                };
                let size = self.rng.pick(&[1024, 1024, 1024, 1, 300, 0, 98_304, 98_305]);
                let time = self.some_time();
                self.say(&format!("(wait {time} {fee} {size})"));
            }
            6 | 7 => {
                let bins = self.rng.pick(&[1, 2, 3, 3, 10, 0, 511, 512]);
                let exact = bins * self.rng.between(1, 40);
                let longest = self.rng.pick(&[10, 100, 1_000, exact, exact + 1, bins / 2]);
                let time = self.some_time();
                self.say(&format!("(histogram {time} {bins} {longest})"));
            }
            _ => self.rebroadcast(style),
        }
    }

    pub fn rebroadcast(&mut self, style: &Style) {
        let pooled = self.pooled();
        let mut boxes: Vec<Id> = Vec::new();
        for p in pooled.iter().take(12) {
            if self.rng.chance(70) {
                boxes.extend(&p.inputs);
            }
        }
        if !boxes.is_empty() && self.rng.chance(30) {
            boxes.remove(self.rng.below(boxes.len() as u64) as usize);
        }
        if self.rng.chance(30) {
            boxes.push(self.common_box(style));
        }
        self.say(&format!("(rebroadcast {})", list(&boxes, hex)));
    }

    /// A pass, with everything that can come between.
    pub fn pass(&mut self, style: &Style) {
        if self.in_pass() && self.rng.chance(80) {
            self.finish_pass(style);
        }
        let Some(time) = self.open_pass() else { return };
        for _ in 0..self.rng.pick(&[1u32, 4, 40, 200]) {
            if !self.more() || !self.candidate(time, style) {
                return;
            }
        }
        // The pass stays open unless it is brought to its end.
        if self.rng.chance(85) {
            self.finish_pass(style);
        }
    }

    /// Opens a pass when entries may be due, and gives its time.
    fn open_pass(&mut self) -> Option<u64> {
        let due = self.now.interval.saturating_add(self.rng.pick(&[0, 1, 1, 2, 100, 100_000]));
        self.time = self.time.saturating_add(due);
        let time = self.time;
        let large = [1 << 40, 1 << 40, 1 << 40, u64::MAX];
        let limit =
            if self.rng.chance(60) { self.rng.pick(&large) } else { self.rng.pick(&[0, 1, 500, 2_000, 6_000]) };
        let preheader =
            self.rng.pick(&[50, 50, 50, 51, 49, (1 << 31) - 1, (1 << 31) - 1, 0, 1 << 31, u32::MAX]);
        if self.rng.chance(5) {
            self.say("(next)");
        }
        (self.say(&format!("(open {time} {limit} {preheader})")) == "(opened)").then_some(time)
    }

    /// One candidate of the pass of that time, answered; false if the pass does not go on.
    fn candidate(&mut self, time: u64, style: &Style) -> bool {
        if self.rng.chance(4) {
            self.answer_line(1, style);
        }
        let next = self.say("(next)");
        let Some(out) = self.given(&next) else { return false };
        if self.rng.chance(8) {
            self.say("(next)");
        }
        if self.rng.chance(20) {
            self.inside(style);
        }
        let answer = self.answer_until_taken(out.inputs.len(), style);
        if self.rng.chance(30) && !answer.starts_with("(valid") {
            // Gone from the pool; in the cache only after an invalid verdict.
            let later = self.rng.pick(&[0, self.now.ttl.saturating_sub(1), self.now.ttl]);
            self.contains(time.saturating_add(later), &out.id);
        }
        if self.rng.chance(15) {
            let line = self.rng.pick(&["(list)", "(list)", "(written)", "(charges)", "(len)"]);
            self.say(line);
        }
        if self.rng.chance(2) {
            // A start cuts the pass off, a refused one does not.
            let mut settings = self.now.clone();
            if self.rng.chance(60) {
                settings.capacity = 128;
            }
            return self.pool(&settings) != "(ready)";
        }
        true
    }

    /// The candidate that this answer to `next` gives.
    fn given(&self, next: &str) -> Option<Pooled> {
        self.pooled().into_iter().find(|p| next == format!("(candidate {})", hex(&p.id)))
    }

    /// Now and then flags of a wrong number, then verdicts until there is one.
    fn answer_until_taken(&mut self, count: usize, style: &Style) -> String {
        if self.rng.chance(6) {
            self.answer_line(count + 1, style);
        }
        if self.rng.chance(4) && count > 0 {
            self.answer_line(count - 1, style);
        }
        let mut answer = self.answer_line(count, style);
        while answer == "(verdict needed)" {
            if self.rng.chance(30) {
                self.say("(next)");
            }
            answer = self.answer_line(count, style);
        }
        answer
    }

    /// Brings an open pass to its end.
    pub fn finish_pass(&mut self, style: &Style) {
        while self.more() && self.in_pass() {
            let next = self.say("(next)");
            if !next.starts_with("(candidate") {
                return;
            }
            let count = self.given(&next).map_or(0, |p| p.inputs.len());
            self.answer_line(count, &Style { none: 0, ..style.clone() });
        }
    }

    fn answer_line(&mut self, count: usize, style: &Style) -> String {
        let confirmed = self.rng.pick(&[60, 90, 95, 100]);
        let flags: Vec<bool> = (0..count).map(|_| self.rng.chance(confirmed)).collect();
        let flags = list(&flags, |set| if *set { "set".into() } else { "not".into() });
        let cost = match self.rng.below(30) {
            0 => u64::MAX,
            1 => 1 << 32,
            2 => 0,
            _ => self.rng.below(2_500),
        };
        let verdict = if self.rng.chance(18) {
            Verdict::Bad
        } else if self.rng.chance(style.none) {
            Verdict::None
        } else {
            Verdict::Ok(cost)
        };
        self.say(&format!("(answer {flags} {})", verdict_words(verdict)))
    }

    /// Lines inside a pass: queries, and calls that are refused there.
    fn inside(&mut self, style: &Style) {
        match self.rng.below(14) {
            0 => self.step_tx(style),
            1 => self.step_return(style),
            2 => self.step_block(style),
            3 => self.step_invalidate(style),
            4 => self.say(&format!("(open {} 5 50)", self.time)),
            5 => self.say("(charges)"),
            6 => self.say("(written)"),
            _ => {
                self.query(style);
                String::new()
            }
        };
    }

    /// Any line at all.
    pub fn any(&mut self, style: &Style) {
        match self.rng.below(100) {
            0..=49 => drop(self.step_tx(style)),
            50..=59 => drop(self.step_return(style)),
            60..=63 => drop(self.step_block(style)),
            64..=66 => drop(self.step_invalidate(style)),
            67..=68 => self.pass(style),
            69..=79 => self.query(style),
            _ => self.look(),
        }
    }

    /// A few lines that show where things stand.
    pub fn sum_up(&mut self) {
        for line in ["(list)", "(charges)", "(written)", "(len)"] {
            self.say(line);
        }
    }
}

pub const ALL_FORMS: &[&str] = NAMES;

pub fn find(name: &str) -> Option<&'static Profile> {
    profiles::PROFILES.iter().find(|profile| profile.name == name)
}
