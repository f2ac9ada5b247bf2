//! What each profile's scripts are made of.

use crate::forms::{hex, Id, Output, Return, Settings, Tx, Verdict};
use crate::gen::{small, usual, Gen, Profile, Style, ALL_FORMS};

const SUBMIT: &[&str] =
    &["pool", "tx", "list", "top", "len", "contains", "spending", "charges", "written"];
const NO_OPEN: &[&str] = &[
    "pool", "tx", "return", "block", "invalidate", "list", "top", "len", "contains", "spending",
    "fee", "wait", "histogram", "charges", "written",
];

pub const PROFILES: &[Profile] = &[
    Profile { name: "conflicts", make: conflicts, forms: ALL_FORMS },
    Profile { name: "cycles", make: cycles, forms: ALL_FORMS },
    Profile { name: "tiny", make: tiny, forms: ALL_FORMS },
    Profile { name: "full", make: full, forms: ALL_FORMS },
    Profile { name: "limits", make: limits, forms: ALL_FORMS },
    Profile { name: "peers", make: peers, forms: ALL_FORMS },
    Profile { name: "cache", make: cache, forms: ALL_FORMS },
    Profile { name: "passes", make: passes, forms: ALL_FORMS },
    Profile { name: "stats", make: stats, forms: ALL_FORMS },
    Profile { name: "extremes", make: extremes, forms: ALL_FORMS },
    Profile { name: "walks", make: walks, forms: ALL_FORMS },
    Profile { name: "clocks", make: clocks, forms: ALL_FORMS },
    Profile { name: "unread", make: unread, forms: ALL_FORMS },
    Profile { name: "mixed", make: mixed, forms: ALL_FORMS },
    Profile { name: "submit", make: mixed, forms: SUBMIT },
    Profile { name: "noopen", make: mixed, forms: NO_OPEN },
];

/// A submission of one confirmed box and one fee, to be changed as needed.
/// Size and cost are 1,024, so that base and fee are the same number.
fn plain(g: &mut Gen, fee: u64) -> Tx {
    let (input, output) = (g.new_id(), g.new_id());
    Tx {
        time: g.time,
        id: g.new_id(),
        peer: None,
        size: 1024,
        preheader: 50,
        inputs: vec![(input, true)],
        outputs: vec![pays_fee(output, fee)],
        verdict: Verdict::Ok(1024),
    }
}

/// A return likewise.
fn plain_back(g: &mut Gen, fee: u64) -> Return {
    let (input, output) = (g.new_id(), g.new_id());
    Return {
        id: g.new_id(),
        fee,
        size: 1024,
        cost: 1024,
        measured: None,
        created: g.time,
        checked: g.time,
        peer: None,
        inputs: vec![input],
        outputs: vec![(output, 50)],
    }
}

/// An output that pays the fee, at the height of `plain`'s preheader.
fn pays_fee(box_id: Id, value: u64) -> Output {
    Output { box_id, value, fee: true, height: 50 }
}

fn any_settings(g: &mut Gen) -> Settings {
    Settings {
        capacity: g.rng.pick(&[3, 8, 20, 50, 127]),
        min_fee: g.rng.pick(&[0, 1, 10, 1000]),
        by_cycle: g.rng.chance(40),
        interval: g.rng.pick(&[0, 10, 1_000, 30_000]),
        rebroadcast: g.rng.pick(&[0, 1, 3, 100]),
        ttl: g.rng.pick(&[0, 1, 500, 1_800_000]),
        cache: g.rng.pick(&[0, 1, 2, 10, 1_000]),
        block_limit: g.rng.pick(&[1 << 40, 1 << 63, 60_000]),
        peer_limit: g.rng.pick(&[1 << 40, 1 << 63, 20_000]),
    }
}

/// Few ids and boxes: conflicts, chains, diamonds, repeated inputs and outputs.
fn conflicts(g: &mut Gen) {
    while g.more() {
        let settings = Settings {
            capacity: g.rng.pick(&[6, 15, 40, 127]),
            min_fee: g.rng.pick(&[0, 5]),
            by_cycle: g.rng.chance(30),
            ..usual()
        };
        g.pool(&settings);
        // Conflicts of weights 10 and 15: 12 loses, 13 wins.
        let (one, two) = (g.new_id(), g.new_id());
        for (input, fee) in [(vec![(one, true)], 10), (vec![(two, true)], 15)] {
            let made = plain(g, fee);
            g.tx(&Tx { inputs: input, ..made });
        }
        for fee in [12, 13] {
            let made = plain(g, fee);
            g.tx(&Tx { inputs: vec![(two, true), (one, true), (two, true)], ..made });
            g.say("(written)");
        }
        let style = Style {
            boxes: g.rng.pick(&[4, 7, 12]),
            ids: g.rng.pick(&[0, 12, 25]),
            inputs: 4,
            conflict: 45,
            chain: 55,
            repeat: 20,
            old_id: 3,
            bad: 2,
            ..Style::default()
        };
        for _ in 0..g.rng.between(60, 150) {
            match g.rng.below(20) {
                0..=13 => drop(g.step_tx(&style)),
                14 => drop(g.step_return(&style)),
                15 => {
                    if g.rng.chance(30) {
                        g.step_block(&style);
                    }
                    g.query(&style);
                }
                _ => g.look(),
            }
        }
        g.sum_up();
    }
}

/// Cycles and self-spends, mostly through returns: walks that do not end by themselves.
fn cycles(g: &mut Gen) {
    while g.more() {
        let settings = Settings {
            capacity: g.rng.pick(&[4, 12, 40]),
            min_fee: 0,
            by_cycle: g.rng.chance(30),
            ..usual()
        };
        g.pool(&settings);
        // A ring of returned transactions, and a child of one of them.
        let length = g.rng.between(1, 4);
        let ring: Vec<Id> = (0..length).map(|_| g.new_id()).collect();
        let spare = g.new_id();
        for i in 0..length as usize {
            let fee = g.rng.below(50);
            let back = plain_back(g, fee);
            let next = ring[(i + 1) % ring.len()];
            let mut outputs = vec![(next, 50)];
            if i == 0 {
                outputs.push((spare, 50));
            }
            g.give_back(&Return { inputs: vec![ring[i]], outputs, ..back });
        }
        let child = plain(g, 100);
        g.tx(&Tx { inputs: vec![(spare, false)], ..child });
        g.say("(list)");
        // A newcomer that makes the box it spends.
        let own = g.new_id();
        let newcomer = plain(g, 3);
        g.tx(&Tx { inputs: vec![(own, true)], outputs: vec![pays_fee(own, 3)], ..newcomer });
        g.say("(list)");
        let style = Style {
            boxes: g.rng.pick(&[3, 5, 8]),
            conflict: 20,
            chain: 60,
            repeat: 15,
            bad: 1,
            missing: 1,
            ..Style::default()
        };
        for _ in 0..g.rng.between(20, 60) {
            match g.rng.below(20) {
                0..=5 => drop(g.step_return(&style)),
                6..=14 => drop(g.step_tx(&style)),
                15 => drop(g.step_block(&style)),
                16 => drop(g.step_invalidate(&style)),
                17 => g.query(&style),
                _ => g.look(),
            }
        }
        if g.rng.chance(40) {
            g.pass(&style);
        }
        g.sum_up();
    }
}

/// Capacities 0, 1, 2 and 3.
fn tiny(g: &mut Gen) {
    while g.more() {
        let settings = Settings {
            capacity: g.rng.below(4),
            min_fee: g.rng.pick(&[0, 10]),
            by_cycle: g.rng.chance(30),
            cache: g.rng.below(4),
            ..usual()
        };
        g.pool(&settings);
        let style = Style { boxes: g.rng.pick(&[2, 4, 9]), conflict: 45, ..Style::default() };
        for _ in 0..g.rng.between(10, 30) {
            match g.rng.below(20) {
                0..=9 => drop(g.step_tx(&style)),
                10 | 11 => drop(g.step_return(&style)),
                12 => drop(g.step_block(&style)),
                13 => g.query(&style),
                14 if g.rng.chance(30) => g.pass(&style),
                _ => g.look(),
            }
        }
        g.sum_up();
    }
}

/// Full pools: by the capacity, by the store's entries, by its records.
fn full(g: &mut Gen) {
    while g.more() {
        overfilled(g);
        no_records(g);
        no_entries(g);
    }
}

/// Returns fill the pool beyond its capacity; the next submission evicts several.
fn overfilled(g: &mut Gen) {
    let settings = Settings { capacity: g.rng.between(1, 8), ..usual() };
    g.pool(&settings);
    let style = Style { peers: 2, bad: 1, none: 1, missing: 1, ..Style::default() };
    for _ in 0..10 {
        for _ in 0..g.rng.below(4) {
            let fee = 10 + g.rng.below(300);
            let back = plain_back(g, fee);
            g.give_back(&back);
        }
        for _ in 0..g.rng.between(1, 5) {
            g.step_tx(&style);
        }
        // Exactly the lowest weight, then one more.
        if let Some(lowest) = g.pooled().last().map(|p| p.weight) {
            for fee in [lowest, lowest.saturating_add(1)] {
                let newcomer = plain(g, fee.max(10));
                g.tx(&newcomer);
            }
        }
        // Wins against a conflict and is then the lowest itself.
        let entries = g.pooled();
        if entries.len() as u64 > settings.capacity {
            let lowest = entries.last().map_or(0, |p| p.weight);
            let spent = entries.last().and_then(|p| p.inputs.first().copied());
            if let Some(spent) = spent {
                let newcomer = plain(g, lowest.saturating_add(1).max(10));
                g.tx(&Tx { inputs: vec![(spent, true)], ..newcomer });
            }
        }
        g.look();
    }
    g.sum_up();
}

/// All 1,024 box records used, to the last one.
fn no_records(g: &mut Gen) {
    let settings = Settings { capacity: g.rng.pick(&[2, 100]), ..usual() };
    g.pool(&settings);
    while g.more() && g.used_records() < 860 {
        let many = g.rng.between(100, 160);
        let fee = 10 + g.rng.below(1_000);
        let back = plain_back(g, fee);
        let outputs = (0..many - 1).map(|i| (small(i % 250), 50)).collect();
        if g.give_back(&Return { outputs, ..back }).is_empty() {
            break;
        }
    }
    for _ in 0..8 {
        let free = 1024 - g.used_records() as u64;
        let short = g.rng.pick(&[0, 1, 2]);
        // Repeated inputs count each time; leave `short` too few, or just enough.
        let inputs = (free + short).saturating_sub(2);
        let fee = 10 + g.rng.below(2_000);
        let newcomer = plain(g, fee);
        let mut flags: Vec<(Id, bool)> = vec![(small(0x7), true); (inputs as usize).min(300)];
        if g.rng.chance(30) {
            flags.push((g.new_id(), false));
        }
        g.tx(&Tx { inputs: flags, ..newcomer });
        g.say("(len)");
        if g.rng.chance(30) {
            let back = plain_back(g, 20);
            g.give_back(&back);
        }
        if g.rng.chance(25) {
            if let Some(p) = g.pooled().first() {
                g.block(5, &[(p.id, vec![])]);
            }
        }
    }
    g.sum_up();
}

/// All 128 entries used, which only returns can do.
fn no_entries(g: &mut Gen) {
    let settings = Settings { capacity: g.rng.pick(&[127, 126, 3]), ..usual() };
    g.pool(&settings);
    while g.more() && g.pooled().len() < 126 {
        let fee = 10 + g.rng.below(500);
        let mut back = plain_back(g, fee);
        if g.rng.chance(40) {
            back.outputs.clear();
        }
        if g.give_back(&back).is_empty() {
            break;
        }
    }
    let style = Style { inputs: 2, outputs: 1, peers: 2, ..Style::default() };
    for _ in 0..12 {
        match g.rng.below(8) {
            0..=2 => drop(g.step_tx(&style)),
            3..=5 => drop(g.step_return(&Style { old_id: 20, ..style.clone() })),
            6 => drop(g.step_invalidate(&style)),
            _ => drop(g.say("(len)")),
        }
    }
    while g.more() && g.pooled().len() < 128 {
        let back = plain_back(g, 77);
        if g.give_back(&back).is_empty() {
            break;
        }
    }
    let back = plain_back(g, 78);
    g.give_back(&back);
    // Before 27 stand the cache and the pooled; behind it missing inputs and heights.
    let pooled = g.pooled();
    if let Some(p) = pooled.first() {
        let newcomer = plain(g, 1_000);
        g.tx(&Tx { id: p.id, ..newcomer });
    }
    for _ in 0..6 {
        let step = Style { missing: 40, ahead: 40, none: 30, ..style.clone() };
        g.step_tx(&step);
    }
    if let Some(p) = pooled.last() {
        g.invalidate(g.time, &p.id);
        let newcomer = plain(g, 1_000);
        g.tx(&Tx { id: p.id, ..newcomer });
    }
    let newcomer = plain(g, 1_000);
    g.tx(&newcomer);
    g.say("(list)");
    g.say("(len)");
}

/// Block and peer limits met, limits 0 and 1, charges of 0.
fn limits(g: &mut Gen) {
    while g.more() {
        let settings = Settings {
            capacity: 30,
            min_fee: g.rng.pick(&[0, 50]),
            by_cycle: g.rng.chance(50),
            block_limit: g.rng.pick(&[0, 1, 3_000, 10_000, 10_000, 1 << 63]),
            peer_limit: g.rng.pick(&[0, 0, 1, 1_000, 2_048, 4_000, 1 << 63]),
            ..usual()
        };
        g.pool(&settings);
        let style = Style { peers: 4, poor: 15, bad: 3, none: 3, ..Style::default() };
        for _ in 0..g.rng.between(20, 45) {
            match g.rng.below(20) {
                0..=11 => {
                    let mut plan = g.plan(&style);
                    if g.rng.chance(50) {
                        plan.size = g.rng.pick(&[0, 1, 100, 999, 1_000, 1_024]);
                        plan.verdict = Verdict::Ok(g.rng.pick(&[0, 1, 1_000]));
                    }
                    g.tx(&plan);
                }
                12 => drop(g.step_block(&style)),
                13 => drop(g.step_return(&style)),
                14..=17 => drop(g.say("(charges)")),
                _ => g.look(),
            }
        }
        g.sum_up();
    }
}

/// More peers than there are records.
fn peers(g: &mut Gen) {
    while g.more() {
        let settings = Settings {
            capacity: 6,
            min_fee: 1_000,
            peer_limit: g.rng.pick(&[1 << 40, 1_024, 2_000]),
            ..usual()
        };
        g.pool(&settings);
        let offset = g.rng.pick(&[0, 1, 1 << 40, u64::MAX - 300]);
        let mut order: Vec<u64> = (0..256).map(|p| offset + p).collect();
        g.rng.shuffle(&mut order);
        for peer in &order {
            let rich = g.rng.chance(15);
            let fee = if rich { 1_000 + g.rng.below(500) } else { 5 };
            let plan = plain(g, fee);
            g.tx(&Tx { peer: Some(*peer), ..plan });
            if g.rng.chance(1) {
                g.say("(charges)");
            }
        }
        let stranger = offset + 256 + g.rng.below(20);
        for _ in 0..3 {
            full_peers(g, stranger, &order);
            // Known peers and the host itself are not hindered.
            let known = g.rng.pick(&order);
            for peer in [Some(known), Some(known), None, Some(stranger)] {
                let plan = plain(g, 1_500);
                g.tx(&Tx { peer, ..plan });
            }
            g.say("(list)");
        }
        g.say("(charges)");
        let time = g.tick(&Style::default());
        g.block(time, &[]);
        g.say("(charges)");
        let style = Style { peers: 300, ..Style::default() };
        for _ in 0..15 {
            g.any(&style);
        }
        g.sum_up();
    }
}

/// A peer without a record while all are used: what is tested before, what behind.
fn full_peers(g: &mut Gen, stranger: u64, known: &[u64]) {
    let bad = plain(g, 2_000);
    g.tx(&Tx { peer: Some(known[0]), verdict: Verdict::Bad, ..bad.clone() });
    g.tx(&Tx { peer: Some(stranger), ..bad });
    let missing = plain(g, 2_000);
    g.tx(&Tx { peer: Some(stranger), inputs: vec![(small(0x999), false)], ..missing.clone() });
    g.tx(&Tx { peer: Some(known[1]), inputs: vec![(small(0x999), false)], ..missing });
    if let Some(p) = g.pooled().first() {
        let again = plain(g, 2_000);
        g.tx(&Tx { peer: Some(stranger), id: p.id, ..again });
    }
    let none = plain(g, 2_000);
    g.tx(&Tx { peer: Some(stranger), verdict: Verdict::None, ..none });
}

/// Caches of few places and times around the end of an id's life.
fn cache(g: &mut Gen) {
    while g.more() {
        let settings = Settings {
            capacity: 10,
            min_fee: 0,
            ttl: g.rng.pick(&[0, 1, 100, 1_000]),
            cache: g.rng.pick(&[0, 1, 2, 2, 3, 1_000]),
            interval: 50,
            ..usual()
        };
        g.pool(&settings);
        let style =
            Style { ids: 6, bad: 40, none: 2, missing: 1, step: settings.ttl / 4 + 1, ..Style::default() };
        for _ in 0..g.rng.between(30, 80) {
            match g.rng.below(20) {
                0..=4 => {
                    let mut plan = g.plan(&style);
                    if g.rng.chance(40) {
                        let (id, time) = life_end(g);
                        plan.id = id;
                        plan.time = time;
                        g.time = g.time.max(time);
                    }
                    g.tx(&plan);
                }
                5..=8 => {
                    let id = small(0xa0 + g.rng.below(6));
                    let time = g.tick(&style);
                    g.invalidate(time, &id);
                }
                9..=14 => {
                    let (id, time) = life_end(g);
                    let id = if g.rng.chance(70) { id } else { small(0xa0 + g.rng.below(6)) };
                    g.contains(time, &id);
                }
                15 => {
                    let (_, time) = life_end(g);
                    g.block(time, &[]);
                    g.time = g.time.max(time);
                }
                16 => {
                    let (id, time) = life_end(g);
                    g.invalidate(time, &id);
                }
                17 if g.rng.chance(40) => g.pass(&style),
                18 => drop(g.step_return(&style)),
                _ => g.look(),
            }
        }
        for id in 0..6 {
            g.contains(g.time, &small(0xa0 + id));
        }
        g.sum_up();
    }
}

/// One of the ids that were cached last, and a time at or around the end of its life.
fn life_end(g: &mut Gen) -> (Id, u64) {
    if g.cached.is_empty() {
        return (small(0xa0), g.time);
    }
    let (id, at) = g.rng.pick(&g.cached[g.cached.len().saturating_sub(5)..]);
    (id, (at + g.now.ttl).saturating_add(g.rng.below(3)).saturating_sub(1))
}

/// One pass in which everything occurs once.
fn whole_pass(g: &mut Gen) {
    g.pool(&Settings { interval: 10, ..usual() });
    for fee in [400, 300, 200, 100] {
        let mut plan = plain(g, fee);
        if fee == 100 {
            // Ahead of the pass's preheader: passed over, and not stamped.
            plan.preheader = 51;
            plan.outputs[0].height = 51;
        }
        g.tx(&plan);
    }
    for line in ["(next)", "(answer (set) (bad))", "(open 10 1000 50)", "(next)", "(open 11 5000 50)"] {
        g.say(line);
    }
    let (plan, back) = (plain(g, 50), plain_back(g, 50));
    g.tx(&plan);
    g.give_back(&back);
    g.block(11, &[(plan.id, vec![])]);
    g.invalidate(11, &plan.id);
    for line in [
        "(open 11 1000 50)", "(answer (set) (bad))", "(next)", "(answer () (bad))", "(answer (set set) (bad))",
        "(answer (set) (none))", "(next)", "(answer (set) (bad))", "(answer (set) (bad))", "(list)", "(next)",
        "(answer (not) (none))", "(list)", "(next)", "(next)", "(answer (set) (ok 7))", "(charges)", "(next)",
        "(next)", "(open 11 5000 51)", "(next)", "(answer (set) (ok 4999))", "(next)",
    ] {
        g.say(line);
    }
    g.sum_up();
}

/// Passes with every kind of answer.
fn passes(g: &mut Gen) {
    whole_pass(g);
    while g.more() {
        let settings = Settings {
            capacity: g.rng.pick(&[5, 12, 30]),
            min_fee: 0,
            interval: g.rng.pick(&[0, 10, 1_000]),
            ttl: g.rng.pick(&[100, 1_000_000]),
            cache: g.rng.pick(&[2, 10]),
            by_cycle: g.rng.chance(30),
            ..usual()
        };
        g.pool(&settings);
        let style = Style { boxes: 10, bad: 2, none: 8, chain: 45, ..Style::default() };
        for _ in 0..g.rng.between(2, 6) {
            for _ in 0..g.rng.between(3, 12) {
                if g.rng.chance(60) {
                    g.step_tx(&style);
                } else {
                    g.step_return(&style);
                }
            }
            if g.rng.chance(30) {
                g.say("(answer () (ok 1))");
            }
            g.pass(&style);
            g.look();
            if g.rng.chance(20) {
                g.step_block(&style);
            }
            if g.rng.chance(20) {
                g.rebroadcast(&style);
            }
        }
        g.sum_up();
    }
}

/// One confirmation after whole minutes, one millisecond less or more: which bin it fell into
/// shows in the fee for each number of minutes.
fn one_wait(g: &mut Gen, minutes: u64, edge: u64) {
    g.pool(&Settings { min_fee: 7, ..usual() });
    let fee = 700 + g.rng.below(5_000);
    let mut plan = plain(g, fee);
    plan.time = 5 + g.rng.below(2) * 100_000;
    g.tx(&plan);
    let (bins, longest) = g.rng.pick(&[(3, 10), (3, 10), (4, 11), (1, 1), (7, 20)]);
    let wait = longest - g.rng.below(2).min(longest);
    g.say(&format!("(histogram {} {bins} {longest})", plan.time + wait));
    g.block((plan.time + minutes * 60_000 + edge).saturating_sub(1), &[(plan.id, vec![])]);
    for asked in [minutes.saturating_sub(1), minutes, 59, 60, 4_000_000_000] {
        g.say(&format!("(fee {asked} 1024)"));
    }
}

/// Hours of confirmations, with waits and windows at their edges.
fn stats(g: &mut Gen) {
    for (minutes, edge) in [(60, 0), (60, 1), (60, 2)] {
        one_wait(g, minutes, edge);
    }
    for _ in 0..6 {
        let (minutes, edge) = (g.rng.below(63), g.rng.below(3));
        one_wait(g, minutes, edge);
    }
    while g.more() {
        let settings = Settings {
            capacity: 30,
            min_fee: g.rng.pick(&[0, 1, 700]),
            by_cycle: g.rng.chance(30),
            ..usual()
        };
        g.pool(&settings);
        let mut last_block = 0;
        for _ in 0..g.rng.between(5, 20) {
            let entered = g.time;
            enter_some(g);
            // A wait of whole minutes, one less or one more; or a window's edge.
            let minutes = g.rng.pick(&[0, 1, 1, 2, 3, 30, 58, 59, 60, 61]);
            let edge = if g.rng.chance(60) { entered + minutes * 60_000 } else { last_block + 60_000 };
            let time = edge.saturating_add(g.rng.below(4)).saturating_sub(1);
            let pooled = g.pooled();
            let mut confirmed: Vec<(Id, Vec<Id>)> = Vec::new();
            for p in &pooled {
                if g.rng.chance(60) {
                    confirmed.push((p.id, p.inputs.clone()));
                }
            }
            if g.rng.chance(20) {
                // A stranger drives a pooled one out, which is not recorded.
                if let Some(p) = pooled.first() {
                    confirmed.insert(0, (g.new_id(), p.inputs.clone()));
                }
            }
            g.block(time, &confirmed);
            last_block = time;
            g.time = g.time.max(time);
            for _ in 0..g.rng.between(2, 5) {
                stats_query(g, minutes, last_block);
            }
            if g.rng.chance(50) {
                g.time += g.rng.pick(&[0, 1, 30_000, 60_000, 60_001, 3_600_000]);
            }
        }
        g.sum_up();
    }
}

/// Submissions of now, and returns of up to three minutes ago.
fn enter_some(g: &mut Gen) {
    for _ in 0..g.rng.between(1, 4) {
        let fee = 700 + g.rng.below(5_000);
        if g.rng.chance(75) {
            let plan = plain(g, fee);
            g.tx(&plan);
        } else {
            let back = plain_back(g, fee);
            let created = g.time.saturating_sub(g.rng.below(4) * 60_000);
            g.give_back(&Return { created, ..back });
        }
    }
}

fn stats_query(g: &mut Gen, minutes: u64, last_block: u64) {
    let time = last_block + g.rng.pick(&[0, 1, 30_000, 59_999, 60_000, 60_001, 500_000]);
    match g.rng.below(8) {
        0..=2 => {
            let around = g.rng.pick(&[minutes.saturating_sub(1), minutes, minutes + 1, 59, 60, 1_000]);
            let size = g.rng.pick(&[0, 1, 200, 1_023, 1_024, 1_025, 98_304]);
            g.say(&format!("(fee {around} {size})"));
        }
        3 | 4 => {
            let weights: Vec<u64> = g.pooled().iter().map(|p| p.weight).collect();
            let fee = if weights.is_empty() { 5 } else { g.rng.pick(&weights) };
            let fee = g.rng.pick(&[0, fee, fee + 1, fee.saturating_sub(1)]);
            g.say(&format!("(wait {time} {fee} 1024)"));
        }
        5 | 6 => {
            let bins = g.rng.between(1, 12);
            let longest = g.rng.pick(&[bins, 10 + bins, 60_000, 600_000, 600_007]);
            g.say(&format!("(histogram {time} {bins} {longest})"));
        }
        _ => g.query(&Style::default()),
    }
}

/// The ends of fee, cost and size, one after the other.
fn ends(g: &mut Gen) {
    let by_cycle = g.rng.chance(50);
    g.pool(&Settings { min_fee: 0, by_cycle, block_limit: 1 << 63, peer_limit: 1 << 63, ..usual() });
    let top = u64::MAX;
    for (fee, size, cost) in [
        (1_000_000, 300, 300), (top, 1_024, 1_024), (top, 1_023, 1_023), (5_000, 0, 0), (1, 98_304, 0),
        (1, 98_305, 0), (1, 1, (1 << 32) - 1), (1, 1, 1 << 32), (3, top, top),
    ] {
        let plan = plain(g, fee);
        g.tx(&Tx { size, verdict: Verdict::Ok(cost), peer: Some(1), ..plan });
    }
    for (one, two) in [(top, 0), (top, 1), (top - 5, 5), (1 << 63, 1 << 63)] {
        let mut plan = plain(g, one);
        let more = g.new_id();
        plan.outputs.push(pays_fee(more, two));
        plan.outputs.push(Output { value: top, fee: false, ..plan.outputs[0] });
        g.tx(&plan);
    }
    for (size, cost) in [(98_304, u32::MAX), (98_305, 0), (0, 0)] {
        let back = plain_back(g, top);
        g.give_back(&Return { size, cost, ..back });
    }
    g.sum_up();
}

/// Numbers at and around their ends, for `extremes`.
const TOP: u64 = u64::MAX;
const VALUES: [u64; 11] =
    [TOP, TOP - 1, TOP / 2, TOP / 2 + 1, TOP / 4, 1 << 54, (1 << 54) - 1, 1 << 60, 0, 5, 100];
const SIZES: [u64; 10] = [98_304, 98_303, 98_305, 1_024, 1_023, 1_025, 1, 0, 0, TOP];
const COSTS: [u64; 9] = [(1 << 32) - 1, 1 << 32, (1 << 32) - 2, 0, 1_000, 1_024, 1_023, TOP, 98_304];

/// Fees and weights near 2^64, sums that do not fit, costs near 2^32, sizes at their ends.
fn extremes(g: &mut Gen) {
    ends(g);
    g.careful = true;
    while g.more() {
        extreme_starts(g);
        let style = Style { bad: 3, chain: 40, conflict: 35, ..Style::default() };
        for _ in 0..g.rng.between(20, 60) {
            match g.rng.below(20) {
                0..=10 => extreme_tx(g, &style),
                11 | 12 => {
                    let mut back = g.back(&style);
                    back.fee = g.rng.pick(&VALUES);
                    back.size = g.rng.pick(&SIZES);
                    back.cost = g.rng.pick(&[0, 1, 1_024, u32::MAX]);
                    back.measured = g.rng.pick(&[None, Some(TOP), Some(5)]);
                    g.give_back(&back);
                }
                13 => drop(g.step_block(&style)),
                14 => {
                    let fee = g.rng.pick(&VALUES);
                    let size = g.rng.pick(&[1, 1_023, 1_024, 98_304, 98_305, 0]);
                    let time = g.time;
                    g.say(&format!("(wait {time} {fee} {size})"));
                    let size = g.rng.pick(&[1, 1_024, 98_304, 98_305]);
                    g.say(&format!("(fee 59 {size})"));
                }
                15 => g.query(&style),
                16 if g.rng.chance(40) => g.pass(&style),
                _ => g.look(),
            }
        }
        g.sum_up();
    }
}

/// A start with settings at their ends, and some beyond, which are refused.
fn extreme_starts(g: &mut Gen) {
    let settings = Settings {
        capacity: g.rng.pick(&[2, 10, 127]),
        min_fee: g.rng.pick(&[0, 0, 1, TOP, 1 << 63]),
        by_cycle: g.rng.chance(40),
        interval: g.rng.pick(&[0, TOP]),
        ttl: g.rng.pick(&[100, TOP]),
        block_limit: g.rng.pick(&[1 << 63, 1 << 34]),
        peer_limit: g.rng.pick(&[1 << 63, 1 << 33]),
        rebroadcast: g.rng.pick(&[3, TOP]),
        ..usual()
    };
    g.pool(&settings);
    for capacity in [128, TOP] {
        if g.rng.chance(10) {
            g.pool(&Settings { capacity, ..settings.clone() });
        }
    }
    if g.rng.chance(15) {
        g.pool(&Settings { block_limit: (1 << 63) + 1, ..settings.clone() });
        g.pool(&Settings { peer_limit: (1 << 63) + 1, ..settings.clone() });
        g.pool(&Settings { cache: 1_001, ..settings.clone() });
    }
}

/// A submission with fee, size and cost at their ends.
fn extreme_tx(g: &mut Gen, style: &Style) {
    let mut plan = g.plan(style);
    for output in &mut plan.outputs {
        if output.fee && g.rng.chance(70) {
            output.value = g.rng.pick(&VALUES);
        }
    }
    if g.rng.chance(12) {
        // Two fees whose sum just fits, or just does not.
        let (a, b) = (g.rng.pick(&VALUES), g.rng.below(3));
        plan.outputs =
            vec![pays_fee(g.new_id(), a), pays_fee(g.new_id(), (TOP - a).saturating_add(b))];
        plan.preheader = 50;
    }
    if g.rng.chance(60) {
        plan.size = g.rng.pick(&SIZES);
    }
    if g.rng.chance(50) {
        plan.verdict = Verdict::Ok(g.rng.pick(&COSTS));
    }
    g.tx(&plan);
}

/// Walks of a wanted number of visits: chains and ladders whose counts multiply.
fn walks(g: &mut Gen) {
    while g.more() {
        let settings =
            Settings { capacity: 127, min_fee: 0, by_cycle: g.rng.chance(20), ..usual() };
        g.pool(&settings);
        // Unspent outputs, each with the visits that spending it once gives.
        let mut free: Vec<(Id, u64)> = Vec::new();
        for _ in 0..4 {
            grow(g, &mut free, &[], 4);
        }
        let mut rounds = 0;
        while g.more() && g.used_records() < 700 && rounds < 60 {
            rounds += 1;
            if free.len() < 4 {
                grow(g, &mut free, &[], 4);
            }
            // One more storey on one, two or three outputs.
            g.rng.shuffle(&mut free);
            let below = g.rng.between(1, 3) as usize;
            let mut spent = Vec::new();
            for (id, visits) in free.split_off(free.len().saturating_sub(below)) {
                let times = g.rng.pick(&[1, 1, 1, 2, 3]);
                spent.extend(vec![(id, visits); times]);
            }
            if spent.iter().map(|s| s.1).sum::<u64>() < 400 {
                let made = g.rng.between(2, 4);
                grow(g, &mut free, &spent, made);
            } else {
                free.extend(spent.iter().map(|s| (s.0, s.1)).take(1));
            }
            if g.rng.chance(35) {
                let target = g.rng.pick(&[500, 500, 499, 501, 498, 502, 750, 1_000, 300]);
                reach(g, &mut free, target);
            }
            if g.rng.chance(10) {
                g.look();
            }
        }
        g.sum_up();
    }
}

/// Submits a transaction that spends these and leaves `made` unspent outputs.
fn grow(g: &mut Gen, free: &mut Vec<(Id, u64)>, spent: &[(Id, u64)], made: u64) {
    let fee = 1 + g.rng.below(1_000);
    let mut plan = plain(g, fee);
    if !spent.is_empty() {
        plan.inputs = spent.iter().map(|s| (s.0, false)).collect();
        g.rng.shuffle(&mut plan.inputs);
    }
    let visits = 1 + spent.iter().map(|s| s.1).sum::<u64>();
    for _ in 0..made {
        let id = g.new_id();
        plan.outputs.push(Output { box_id: id, value: 0, fee: false, height: 50 });
    }
    if g.tx(&plan).starts_with("(accepted") {
        free.extend(plan.outputs[1..].iter().map(|o| (o.box_id, visits)));
    }
}

/// Submits a transaction whose walk has exactly `target` chains.
fn reach(g: &mut Gen, free: &mut Vec<(Id, u64)>, target: u64) {
    g.rng.shuffle(free);
    let mut left = target;
    let mut spent: Vec<(Id, u64)> = Vec::new();
    let mut kept = Vec::new();
    for (id, visits) in free.drain(..) {
        let times = (left / visits).min(g.rng.pick(&[1, 2, 8]));
        if times > 0 && spent.len() < 150 {
            left -= times * visits;
            spent.extend(vec![(id, visits); times as usize]);
        } else {
            kept.push((id, visits));
        }
    }
    *free = kept;
    if left > 0 {
        // The rest through a transaction without parents, one visit an input.
        let root = plain(g, 5);
        if left > 150 || !g.tx(&root).starts_with("(accepted") {
            return;
        }
        spent.extend(vec![(root.outputs[0].box_id, 1); left as usize]);
    }
    grow(g, free, &spent, 1);
    g.say("(list)");
}

/// Times that step back and forth in every call.
fn clocks(g: &mut Gen) {
    while g.more() {
        let settings = Settings {
            capacity: 15,
            min_fee: 0,
            ttl: g.rng.pick(&[1, 1_000, 60_000]),
            cache: g.rng.pick(&[1, 3, 10]),
            interval: g.rng.pick(&[0, 1_000]),
            ..usual()
        };
        g.pool(&settings);
        let style = Style { bad: 15, ids: 20, step: 0, ..Style::default() };
        let base = g.rng.pick(&[0, 5_000, 1 << 40, 1 << 63]);
        for _ in 0..g.rng.between(40, 90) {
            let near = base + g.rng.below(200_000);
            g.time = g.rng.pick(&[
                near, near, near, base, base + 1_000, base + 60_000, base + 60_001, 0, u64::MAX,
                base + 3_600_000,
            ]);
            match g.rng.below(20) {
                0..=7 => drop(g.step_tx(&style)),
                8 => drop(g.step_return(&style)),
                9..=11 => drop(g.step_block(&style)),
                12 => drop(g.step_invalidate(&style)),
                13 => g.pass(&style),
                14..=17 => g.query(&style),
                _ => g.look(),
            }
        }
        g.sum_up();
    }
}

/// Everything, in pools of every kind.
fn mixed(g: &mut Gen) {
    if g.rng.chance(30) {
        g.say("(len)");
    }
    while g.more() {
        let settings = any_settings(g);
        g.pool(&settings);
        g.careful = g.rng.chance(15);
        let style = Style {
            boxes: g.rng.pick(&[4, 10, 30]),
            ids: g.rng.pick(&[0, 0, 15]),
            peers: g.rng.pick(&[0, 2, 8]),
            conflict: g.rng.pick(&[10, 30, 50]),
            chain: g.rng.pick(&[20, 50]),
            step: g.rng.pick(&[0, 50, 20_000, 100_000]),
            ..Style::default()
        };
        for _ in 0..g.rng.between(40, 160) {
            if g.careful && g.rng.chance(15) {
                let mut plan = g.plan(&style);
                let huge = g.rng.pick(&[u64::MAX, u64::MAX / 2, 1 << 60]);
                if let Some(output) = plan.outputs.first_mut() {
                    output.value = huge;
                    output.fee = true;
                }
                g.tx(&plan);
            }
            g.any(&style);
            if g.rng.chance(1) {
                garbled(g);
            }
        }
        g.sum_up();
        g.careful = false;
    }
}

/// Lines that cannot be read, among lines that just can.
fn unread(g: &mut Gen) {
    // No pool yet.
    g.say("(list)");
    for _ in 0..g.rng.between(2, 12) {
        garbled(g);
        let line = g.rng.pick(&["(list)", "(charges)", "(written)", "(next)", "(open 0 0 0)", "(len)"]);
        g.say(line);
    }
    g.pool(&Settings { capacity: 128, ..usual() });
    g.say("(top 3)");
    while g.more() {
        let settings = any_settings(g);
        g.pool(&settings);
        let style = Style::default();
        for _ in 0..g.rng.between(40, 120) {
            if g.rng.chance(70) {
                garbled(g);
            } else {
                g.any(&style);
            }
        }
        g.sum_up();
    }
    if g.rng.chance(50) {
        g.drop_last_newline();
    }
}

/// One line at or beyond the edge of what can be read.
fn garbled(g: &mut Gen) {
    if g.in_pass() && g.rng.chance(15) {
        g.finish_pass(&Style::default());
    }
    let line = match g.rng.below(20) {
        0..=6 => edge_line(g).into_bytes(),
        7..=13 => catalogue(g).as_bytes().to_vec(),
        14 => long_line(g),
        _ => mutated(g),
    };
    g.say_bytes(&line);
}

/// Lines that stand for a rule of reading each.
fn catalogue(g: &mut Gen) -> &'static str {
    g.rng.pick(&[
        "", " ", "   ", "(", ")", "()", "( )", "(())", "(()())", "list", "(list", "list)", "(list))",
        "((list))", "(list) x", "(list) (list)", "(list)(list)", "(list) ", " (list)", "  ( list )  ",
        "(list )", "( list)", "(List)", "(LIST)", "(lis)", "(listt)", "(list 1)", "(list ())",
        "(len\t)", "\t(len)", "(len)\t", "(len)\r", "\r(len)", "(len\r)", "(len\0)", "\0", "(len)\0",
        "(top)", "(top 1 2)", "(top x)", "(top -1)", "(top +1)", "(top 1.0)", "(top 0x1)", "(top ())",
        "(top 00000000000000000000000000000001)", "(top 1 )", "(top  1)", "(top\u{a0}1)", "(töp 1)",
        "(next 1)", "(next ())", "(charges 0)", "(written ())", "(open 1 2)", "(open 1 2 3 4)",
        "(contains 1)", "(contains 1 g)", "(contains 1 A)", "(contains 1 0)", "(contains 1 000)",
        "(contains x 1)", "(contains 1 0xa)", "(spending)", "(spending (1))", "(spending Ab)",
        "(block 1)", "(block 1 ())", "(block 1 (()))", "(block 1 ((1 ())))", "(block 1 ((1 (2 3))))",
        "(block 1 ((1(2))))", "(block 1 ((1 (2)(3))))", "(block 1 ((1 ())(2 ())))",
        "(block 1 ((1 ()) (2 ())))", "(block 1 ( ( 1 ( ) ) ))", "(block 1 (1 ()))", "(block 1 ((1)))",
        "(answer () (ok 1))", "(answer (set) (ok))", "(answer (set not) (bad 1))", "(answer set (bad))",
        "(answer (Set) (bad))", "(answer (set) bad)", "(answer ((set)) (bad))", "(answer (set) (BAD))",
        "(answer (set) (none))", "(answer (set) (none 1))", "(answer (set) (ok x))",
        "(rebroadcast ())", "(rebroadcast (1 2))", "(rebroadcast 1)", "(rebroadcast)",
        "(rebroadcast ((1)))", "(fee 1)", "(fee 1 2)", "(fee 1 2 3)", "(wait 1 2 3)", "(wait 1 2)",
        "(histogram 1 2 3)", "(histogram 1 2)", "(histogram 1 0 3)", "(histogram 1 3 2)",
        "(histogram 1 511 511)", "(histogram 1 512 0)", "(histogram 1 4294967295 0)",
        "(invalidate 1 ff)", "(invalidate 1)", "(invalidate 1 ff 1)", "(invalidate 1 (ff))",
        "(pool 1 2 byte 3 4 5 6 7)", "(pool 1 2 Byte 3 4 5 6 7 8)", "(pool 1 2 bytes 3 4 5 6 7 8)",
        "(pool 128 2 byte 3 4 5 6 7 8)", "(pool 1 2 cycle 3 4 5 1001 7 8)", "(pool 1 2 3 4 5 6 7 8 9)",
        "(tx 0 a1 local 1 50 () () (ok 1))", "(tx 0 a1 Local 1 50 () () (ok 1))",
        "(tx 0 a1 local 1 50 () ())", "(tx 0 a1 local 1 50 ((1 set)) ((b 1 fee)) (ok 1))",
        "(tx 0 a1 local 1 50 ((1 maybe)) () (ok 1))", "(tx 0 a1 local 1 50 ((1 set)) ((b 1 fees 5)) (ok 1))",
        "(tx 0 a1 local 1 50 (1 set) () (ok 1))", "(tx 0 a1 none 1 50 () () (ok 1))",
        "(tx 0 a1 local 1 50 ((1 set)(2 set)) () (ok 1))", "(tx 0 a1 local 1 50 ((1 set) (2 set)) () (ok 1))",
        "(tx 0 a1 local 1 50 ((1 set)) ((b1 7000 fee 50)) (ok 1) )", "(tx 0 a2 5 98305 50 () () (none))",
        "(tx 0 a3 local 1 50 () () ok)", "(tx 0 a3 local 1 50 () () (ok 1 2))", "(tx 0 a3 local 1 50 () () ())",
        "(return c1 5 9 9 none 0 0 local () ())", "(return c1 5 9 9 local 0 0 local () ())",
        "(return c1 5 9 9 none 0 0 none () ())", "(return c2 5 9 9 7 0 0 8 (1 2) ((3 4)))",
        "(return c2 5 9 9 7 0 0 8 (1 2) (3 4))", "(return c2 5 9 9 7 0 0 8 ((1 2)) ((3 4)))",
        "(return c3 5 98305 9 none 0 0 local () ())", "(unread 5)", "(ready)", "(refused 3)", "(a b c)",
        "((((((((a))))))))", "(((((((((a)))))))))", "(a (b (c (d (e (f (g (h))))))))",
        "(a (b (c (d (e (f (g (h (i)))))))))", "(block 1 ((1 ((2)))))", "; list", "(list);", "\u{feff}(list)",
        "(list\u{0b})", "(list\u{0c})", "(\"list\")", "(top 1_000)", "(top 1e3)", "(top １)",
    ])
}

/// Numbers and ids at the ends of their fields.
fn edge_line(g: &mut Gen) -> String {
    let wide = g.rng.pick(&[
        "18446744073709551615", "18446744073709551616", "018446744073709551615",
        "99999999999999999999", "184467440737095516150", "4294967295", "4294967296", "0", "007",
        "36893488147419103232", "340282366920938463463374607431768211456",
    ]);
    let short = g.rng.pick(&[
        "4294967295", "4294967296", "0000004294967295", "0", "42949672950", "18446744073709551616", "7",
    ]);
    let digits = g.rng.pick(&[1usize, 2, 16, 17, 63, 64, 65, 66, 128]);
    let digit = g.rng.pick(&['0', '1', 'f', 'F', 'a', 'g']);
    let id: String = std::iter::repeat_n(digit, digits).collect();
    match g.rng.below(22) {
        0 => format!("(top {wide})"),
        1 => format!("(contains {wide} 1)"),
        2 => format!("(contains 1 {id})"),
        3 => format!("(spending {id})"),
        4 => format!("(fee {short} 1)"),
        5 => format!("(fee 1 {short})"),
        6 => format!("(wait {wide} {wide} 1)"),
        7 => format!("(wait 1 1 {short})"),
        8 => format!("(histogram {wide} 1 {wide})"),
        9 => format!("(histogram 1 {short} 5)"),
        10 => format!("(tx {wide} e1 local 5 50 () () (none))"),
        11 => format!("(tx 1 {id} local 5 50 () () (none))"),
        12 => format!("(tx 1 e1 {wide} 5 50 () () (none))"),
        13 => format!("(tx 1 e1 local {wide} 50 () () (none))"),
        14 => format!("(tx 1 e1 local 5 {short} (({id} set)) () (none))"),
        15 => format!("(tx 1 e1 local 5 50 () ((b {wide} pay {short})) (none))"),
        16 => format!("(tx 1 e1 local 5 50 () () (ok {wide}))"),
        17 => format!("(return e2 {wide} {wide} {short} {wide} 1 1 local () ())"),
        18 => format!("(return e2 1 1 {short} none {wide} {wide} {wide} ({id}) ((1 {short})))"),
        19 => format!("(invalidate {wide} {id})"),
        20 => format!("(open {wide} {wide} {short})"),
        _ => {
            let n = |g: &mut Gen| g.rng.pick(&["5", "5", "5", wide]);
            let numbers: Vec<&str> = (0..8).map(|_| n(g)).collect();
            format!(
                "(pool {} {} cycle {} {} {} {} {} {})",
                numbers[0], numbers[1], numbers[2], numbers[3], numbers[4], numbers[5], numbers[6],
                numbers[7]
            )
        }
    }
}

/// Lines of 4,095 to 4,097 bytes, made long in several ways.
fn long_line(g: &mut Gen) -> Vec<u8> {
    let length = g.rng.pick(&[4_095usize, 4_096, 4_096, 4_097, 4_097, 5_000, 9_000]);
    let (before, filler, behind) = match g.rng.below(7) {
        0 => ("(len", " ", ")"),
        1 => ("(len)", " ", ""),
        2 => ("", " ", "(len)"),
        3 => ("(top ", "0", "1)"),
        4 => ("(rebroadcast (1", " 1", "))"),
        5 => ("(spending ", "1", ")"),
        _ => ("(answer (set", " not", ") (bad))"),
    };
    let room = length - before.len() - behind.len();
    let mut line = before.as_bytes().to_vec();
    line.extend(filler.repeat(room / filler.len()).as_bytes());
    line.extend(behind.as_bytes());
    while line.len() < length {
        line.push(b' ');
    }
    line
}

/// A good line with one or two bytes changed.
fn mutated(g: &mut Gen) -> Vec<u8> {
    let id = hex(&g.old_id());
    let line = g.rng.pick(&[
        "(tx 5 ID 7 512 50 ((b2 set) (b3 set)) ((b3 1500 fee 50) (b4 3 pay 9)) (ok 800))",
        "(return ID 2000 1024 5 none 1 2 local (5 6) ((7 50) (8 51)))",
        "(block 9 ((ID (1 2)) (5 ())))", "(pool 9 10 byte 1000 3 500 10 99999 99999)",
        "(contains 5 ID)", "(spending ID)", "(histogram 9 3 10)", "(wait 9 100 1024)", "(fee 3 1024)",
        "(open 5000 1000 50)", "(answer (set not) (ok 5))", "(rebroadcast (1 2 ID))", "(invalidate 4 ID)",
        "(list)", "(next)", "(charges)", "(written)", "(len)",
    ]);
    let mut line = line.replace("ID", &id).into_bytes();
    for _ in 0..g.rng.between(1, 2) {
        let at = g.rng.below(line.len() as u64) as usize;
        let byte = g.rng.pick(&[b' ', b'(', b')', b'\t', b'\r', 0, 0x80, 0xff, b'0', b'a', b'F', b'z', 0x7f]);
        match g.rng.below(4) {
            0 => line[at] = byte,
            1 => line.insert(at, byte),
            2 => line.insert(at, line[at]),
            _ => drop(line.remove(at)),
        }
        if line.is_empty() {
            break;
        }
    }
    line
}
