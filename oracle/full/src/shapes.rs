//! The shapes of scripts. Each makes its calls from a seed, while it looks at
//! what the calls before came to.

use oracle::forms::{Form, Id, Settings, Tx, Verdict};
use port::{ACCEPTED, APPLIED, CANDIDATE, DONE, ENDED, FULL, ID_WORDS, REPLACED};

use crate::script::{usual, Call, Change, Script};
use crate::tally;

pub struct Shape {
    pub name: &'static str,
    pub make: fn(&mut Script),
    /// How many scripts a run has of it.
    pub scripts: u64,
}

pub const SHAPES: &[Shape] = &[
    Shape { name: "crowd", make: crowd, scripts: 6 },
    Shape { name: "packed", make: packed, scripts: 2 },
    Shape { name: "records", make: records, scripts: 5 },
    Shape { name: "inputs", make: inputs, scripts: 16 },
    Shape { name: "chains", make: chains, scripts: 6 },
    Shape { name: "walks", make: walks, scripts: 40 },
    Shape { name: "evict", make: evict, scripts: 40 },
    Shape { name: "conflicts", make: conflicts, scripts: 24 },
    Shape { name: "limits", make: limits, scripts: 24 },
    Shape { name: "peers", make: peers, scripts: 10 },
    Shape { name: "cache", make: cache, scripts: 20 },
    Shape { name: "tiny", make: tiny, scripts: 24 },
    Shape { name: "refusals", make: refusals, scripts: 50 },
    Shape { name: "few", make: few, scripts: 60 },
    Shape { name: "extremes", make: extremes, scripts: 20 },
    Shape { name: "starts", make: starts, scripts: 4 },
    Shape { name: "junk", make: junk, scripts: 40 },
    Shape { name: "mixed", make: mixed, scripts: 60 },
    Shape { name: "blocks", make: blocks, scripts: 4 },
    Shape { name: "returns", make: returns, scripts: 2 },
    Shape { name: "passes", make: passes, scripts: 40 },
    Shape { name: "sweeps", make: sweeps, scripts: 3 },
];

/// A submission whose boxes others may spend.
struct Known {
    id: Id,
    boxes: Vec<Id>,
}

impl Known {
    fn of(tx: &Tx) -> Known {
        Known { id: tx.id, boxes: tx.outputs.iter().map(|out| out.box_id).collect() }
    }
}

fn fee(s: &mut Script) -> u64 {
    s.rng.between(10, 1_000_000)
}

/// A pool filled to the last entry, with short chains, and then kept full: each
/// admission evicts. At the end one newcomer contests all of it.
fn crowd(s: &mut Script) {
    let by_cycle = s.rng.chance(50);
    s.start(Settings { by_cycle, ..usual() });
    s.every = 512;
    let mut known: Vec<Known> = Vec::new();
    let mut spent: Vec<(Id, Id)> = Vec::new();
    for call in 0..4_800 {
        let mut pooled = Vec::new();
        if !known.is_empty() && s.rng.chance(30) {
            let from = s.rng.below(known.len() as u64) as usize;
            pooled.push(s.rng.pick(&known[from].boxes));
        }
        let count = s.rng.between(1, 2) as usize;
        let confirmed = s.boxes(count);
        let outputs = s.rng.below(3) as usize;
        let fee = if call < 4_200 { fee(s) } else { s.lowest() + s.rng.below(2_000) };
        let tx = s.tx(&confirmed, &pooled, outputs, fee);
        let kept = Known::of(&tx);
        let full = s.len() == 4_095;
        let number = s.submit(tx);
        if number == ACCEPTED || number == REPLACED {
            spent.push((kept.id, confirmed[0]));
            known.push(kept);
            if full && number == ACCEPTED {
                s.met(tally::EVICTS);
            }
        }
    }
    s.every = 1;
    spent.retain(|(id, _)| s.weight_of(id).is_some());
    s.rng.shuffle(&mut spent);
    let boxes: Vec<Id> = spent.iter().map(|(_, box_id)| *box_id).collect();
    for fee in [10, 20_000_000] {
        let mut tx = s.tx(&boxes, &[], 1, fee);
        tx.verdict = Verdict::Ok(0);
        match s.submit(tx) {
            29 if boxes.len() >= 4_000 => s.met(tally::WINNERS),
            REPLACED if boxes.len() >= 4_000 => s.met(tally::LOSERS),
            _ => {}
        }
    }
}

/// All entries and all records at once: 4,095 entries of 16 records, and one more.
fn packed(s: &mut Script) {
    s.start(usual());
    s.every = 1_024;
    for _ in 0..4_095 {
        let count = s.rng.between(1, 3) as usize;
        let confirmed = s.boxes(count);
        let fee = fee(s);
        let tx = s.tx(&confirmed, &[], 15 - count, fee);
        s.submit(tx);
    }
    // 65,520 are in use. A newcomer's records must fit before anything goes.
    for records in [17, 16, 18, 1] {
        let confirmed = s.boxes(1);
        let mut tx = s.tx(&confirmed, &[], records, 2_000_000);
        tx.outputs.truncate(records - 1);
        s.submit(tx);
    }
}

/// All box records used by fewer transactions, freed by a conflict, used again.
fn records(s: &mut Script) {
    s.start(usual());
    s.every = 128;
    let most = s.rng.pick(&[100, 300, 1_000]);
    let mut left = FULL.records as u64;
    let mut spent: Vec<(Id, u64, u64)> = Vec::new();
    // The last ones leave room for a loser's place to be fought for.
    while left > 8 && !s.is_over() {
        let size = s.rng.between(3, most).min(left - 6);
        let confirmed = s.boxes(1);
        let fee = fee(s);
        let tx = s.tx(&confirmed, &[], size as usize - 2, fee);
        if s.submit(tx) != ACCEPTED {
            return;
        }
        spent.push((confirmed[0], size, fee));
        left -= size;
        if left < 9 {
            break;
        }
    }
    for _ in 0..24 {
        let place = s.rng.below(spent.len() as u64) as usize;
        let (loser, size, fee) = spent[place];
        // Too many for what is free, though the loser would make room: 27.
        let tx = s.tx(&[loser], &[], left as usize, fee + 1);
        s.submit(tx);
        let needed = s.rng.between(2, left);
        let tx = s.tx(&[loser], &[], needed as usize - 2, fee + 1);
        if s.submit(tx) != REPLACED {
            return;
        }
        spent[place] = (loser, needed, fee + 1);
        left = left + size - needed;
        // To the last record, and back to a few.
        while left > 6 && !s.is_over() {
            let last = s.rng.chance(30) && left < most;
            let size = if last { left } else { s.rng.between(2, most).min(left - 4) };
            let confirmed = s.boxes(1);
            let tx = s.tx(&confirmed, &[], size as usize - 2, 20);
            s.submit(tx);
            left -= size;
            if !last {
                spent.push((confirmed[0], size, 20));
            }
        }
        if left == 0 {
            // Nothing enters any more but what has no records.
            for outputs in [0, 1] {
                let confirmed = s.boxes(1);
                let tx = s.tx(&confirmed, &[], outputs, 1_000);
                s.submit(tx);
            }
            return;
        }
    }
}

/// Lists of 5,000 inputs and one more, at times in a pool of many records.
fn inputs(s: &mut Script) {
    let capacity = s.rng.pick(&[3, 100, 2_000]);
    s.start(Settings { capacity, ..usual() });
    s.every = 4;
    for _ in 0..s.rng.pick(&[0, 10, 800]).min(capacity) {
        let confirmed = s.boxes(3);
        let fee = fee(s);
        let tx = s.tx(&confirmed, &[], 28, fee);
        s.submit(tx);
    }
    let many = s.boxes(5_001);
    for count in [5_001, 5_000, 4_999] {
        let fee = s.rng.between(2_000_000, 2_000_010) + 5_001 - count as u64;
        let tx = s.tx(&many[..count], &[], 2, fee);
        match s.submit(tx) {
            7 => s.met(tally::TOO_MANY),
            ACCEPTED => s.met(tally::INPUTS),
            _ => {}
        }
    }
    match s.rng.below(4) {
        // One transaction makes what another spends: 5,000 visits are wanted, 500 made.
        0 => {
            let confirmed = s.boxes(1);
            let parent = s.tx(&confirmed, &[], 5_000, 3_000_000);
            let boxes = Known::of(&parent).boxes;
            s.submit(parent);
            let tx = s.tx(&[], &boxes[..5_000], 1, 2_500_000);
            if s.submit(tx) == ACCEPTED {
                s.met(tally::LONG_WALK);
            }
            let tx = s.tx(&[], &boxes[..5_001], 1, 9_000_000);
            s.submit(tx);
        }
        // The last of 5,000 is not found.
        1 => {
            let more = s.boxes(5_000);
            let tx = s.tx(&more[..4_999], &more[4_999..], 1, 5_000_000);
            s.submit(tx);
        }
        // One box 5,000 times, and a conflict over it.
        2 => {
            let one = s.id();
            for fee in [6_000_000, 6_000_001, 6_000_001] {
                let tx = s.tx(&[one; 5_000], &[], 1, fee);
                s.submit(tx);
            }
        }
        // Against a list of another 5,000, in the other order.
        _ => {
            let mut turned: Vec<Id> = many[..5_000].to_vec();
            turned.reverse();
            for fee in [9, 2_000_005, 9_000_000] {
                let tx = s.tx(&turned, &[], 1, fee);
                s.submit(tx);
            }
        }
    }
}

/// One chain of more than 600, from which children branch off.
fn chains(s: &mut Script) {
    s.start(usual());
    s.every = 100;
    let mut last: Vec<Id> = Vec::new();
    let mut outputs: Vec<Id> = Vec::new();
    for depth in 0..640 {
        let confirmed = if depth == 0 { s.boxes(1) } else { Vec::new() };
        let fee = s.rng.between(10, 100_000);
        let tx = s.tx(&confirmed, &last, 1, fee);
        let boxes = Known::of(&tx).boxes;
        if s.submit(tx) != ACCEPTED {
            return;
        }
        match depth {
            500 => s.met(tally::WALK),
            501..600 => s.met(tally::LONG_WALK),
            600.. => s.met(tally::DEEP),
            _ => {}
        }
        outputs.push(boxes[0]);
        last = vec![boxes[1]];
    }
    for _ in 0..60 {
        let from = s.rng.pick(&outputs);
        let fee = s.rng.between(10, 100_000);
        let tx = s.tx(&[], &[from], 0, fee);
        s.submit(tx);
    }
}

/// A transaction whose walk takes a known number of visits, and a free box of it
/// for every child that may come.
struct Ancestor {
    boxes: Vec<Id>,
    visits: u64,
}

/// Pools in which newcomers make exactly 498 to 502 visits, or many more: stars,
/// ladders, diamonds, repeated inputs.
fn walks(s: &mut Script) {
    s.start(usual());
    s.every = 16;
    let mut made: Vec<Ancestor> = Vec::new();
    let roots = s.rng.between(1, 20);
    for _ in 0..roots {
        let confirmed = s.boxes(1);
        ancestor(s, &mut made, &confirmed, &[], 0);
    }
    // Each spends some of the last ones, often several boxes of one.
    for _ in 0..s.rng.between(3, 14) {
        let mut pooled = Vec::new();
        let mut visits = 0;
        for _ in 0..s.rng.between(1, 3) {
            let near = s.rng.below(made.len().min(6) as u64) as usize;
            let at = made.len() - 1 - near;
            if let Some(parent) = made.get_mut(at).filter(|a| !a.boxes.is_empty()) {
                visits += 1 + parent.visits;
                pooled.push(parent.boxes.pop().expect("a box"));
            }
        }
        ancestor(s, &mut made, &[], &pooled, visits);
    }
    for _ in 0..24 {
        let target = s.rng.pick(&[498, 499, 500, 500, 501, 502, 600, 900]);
        let (pooled, visits) = chosen(s, &mut made, target);
        let fee = fee(s);
        let tx = s.tx(&[], &pooled, 1, fee);
        if s.submit(tx) == ACCEPTED {
            match visits {
                500 => s.met(tally::WALK),
                501.. => s.met(tally::LONG_WALK),
                _ => {}
            }
        }
    }
}

fn ancestor(s: &mut Script, made: &mut Vec<Ancestor>, confirmed: &[Id], pooled: &[Id], visits: u64) {
    let (fee, outputs) = (fee(s), s.rng.pick(&[30, 100, 400]));
    let tx = s.tx(confirmed, pooled, outputs, fee);
    let boxes = Known::of(&tx).boxes;
    if s.submit(tx) == ACCEPTED {
        made.push(Ancestor { boxes, visits });
    }
}

/// Boxes to spend so that the walk takes so many visits, or as near as there is.
fn chosen(s: &mut Script, made: &mut [Ancestor], target: u64) -> (Vec<Id>, u64) {
    let (mut pooled, mut visits) = (Vec::new(), 0);
    for _ in 0..4_000 {
        let at = s.rng.below(made.len() as u64) as usize;
        let parent = &mut made[at];
        if visits + 1 + parent.visits <= target && !parent.boxes.is_empty() {
            visits += 1 + parent.visits;
            pooled.push(parent.boxes.pop().expect("a box"));
        }
        if visits == target {
            break;
        }
    }
    s.rng.shuffle(&mut pooled);
    (pooled, visits)
}

/// A full pool, newcomers around its lowest weight, and children of the lowest.
fn evict(s: &mut Script) {
    let capacity = s.rng.pick(&[1, 2, 7, 40, 150, 600]);
    let by_cycle = s.rng.chance(30);
    s.start(Settings { capacity, by_cycle, ..usual() });
    let mut known: Vec<Known> = Vec::new();
    let spread = s.rng.pick(&[5, 300, 1_000_000]);
    for _ in 0..capacity as usize + 300 {
        let full = s.len() as u64 == capacity;
        let mut pooled = Vec::new();
        if s.rng.chance(40) {
            known.retain(|k| s.weight_of(&k.id).is_some());
            let lowest = s.lowest();
            let low = known.iter().find(|k| s.weight_of(&k.id) == Some(lowest));
            match low {
                Some(low) if full && s.rng.chance(50) => pooled.push(low.boxes[0]),
                _ if !known.is_empty() => {
                    let at = s.rng.below(known.len() as u64) as usize;
                    pooled.push(s.rng.pick(&known[at].boxes));
                }
                _ => {}
            }
        }
        let confirmed = s.boxes(1);
        let fee = match s.rng.below(4) {
            0 if full => s.lowest() + s.rng.below(3),
            1 if full => s.lowest() + 1,
            _ => 10 + s.rng.below(spread),
        };
        let tx = s.tx(&confirmed, &pooled, 1, fee.max(10));
        let kept = Known::of(&tx);
        if s.submit(tx) == ACCEPTED {
            if full {
                s.met(tally::EVICTS);
            }
            if s.weight_of(&kept.id).is_none() {
                s.met(tally::GONE);
            }
            known.push(kept);
        }
    }
}

/// Newcomers that spend what many spend: around the average of their weights.
fn conflicts(s: &mut Script) {
    s.start(usual());
    s.every = 40;
    let pooled = s.rng.pick(&[20, 300, 900, 1_500]);
    let mut holders: Vec<(Id, Vec<Id>)> = Vec::new();
    for round in 0..3 {
        while holders.len() < pooled && !s.is_over() {
            let confirmed = s.boxes(2);
            let mut parents = Vec::new();
            if round > 0 && s.rng.chance(10) {
                // A conflict's weight may hold credits.
                parents.extend(holders.first().map(|h| h.1[1]));
            }
            let fee = s.rng.between(10, 5_000);
            let tx = s.tx(&confirmed, &parents, 1, fee);
            let id = tx.id;
            let outputs = Known::of(&tx).boxes;
            match s.submit(tx) {
                ACCEPTED => holders.push((id, vec![confirmed[0], outputs[0], confirmed[1]])),
                // The parent's box was taken by a child before: both are gone or stay.
                _ => holders.retain(|h| s.weight_of(&h.0).is_some()),
            }
        }
        for _ in 0..4 {
            holders.retain(|h| s.weight_of(&h.0).is_some());
            if holders.is_empty() || s.is_over() {
                return;
            }
            s.rng.shuffle(&mut holders);
            let most = holders.len() as u64;
            let count = if s.rng.chance(30) { most } else { s.rng.between(1, most) } as usize;
            let mut boxes = Vec::new();
            let mut sum = 0u64;
            for (id, own) in &holders[..count] {
                boxes.push(own[0]);
                if s.rng.chance(20) {
                    boxes.push(own[2]);
                }
                sum += s.weight_of(id).unwrap_or(0);
            }
            let average = sum / count as u64;
            // One that loses, one exactly at the average, one just above it.
            for fee in [average / 2, average, average + 1] {
                let tx = s.tx(&boxes, &[], 1, fee.max(10));
                s.submit(tx);
            }
        }
    }
}

/// Block and peer limits that are met after a few charges.
fn limits(s: &mut Script) {
    let block_limit = s.rng.pick(&[0, 1, 20_000, 500_000, 1 << 63]);
    let peer_limit = s.rng.pick(&[0, 1, 5_000, 60_000]);
    let capacity = s.rng.pick(&[0, 5, 200]);
    let by_cycle = s.rng.chance(50);
    s.start(Settings { block_limit, peer_limit, capacity, by_cycle, ..usual() });
    let one = s.id();
    for _ in 0..300 {
        let confirmed = if s.rng.chance(20) { vec![one] } else { s.boxes(1) };
        // Below the minimum, too: the charge stands.
        let fee = s.rng.between(5, 60);
        let mut tx = s.tx(&confirmed, &[], 0, fee);
        tx.size = s.rng.between(0, 2_000);
        tx.peer = s.rng.chance(85).then(|| s.rng.below(9));
        tx.verdict = verdict(s, 3_000);
        s.submit(tx);
    }
}

fn verdict(s: &mut Script, most: u64) -> Verdict {
    match s.rng.below(12) {
        0 => Verdict::None,
        1 => Verdict::Bad,
        2 => Verdict::Ok(0),
        _ => Verdict::Ok(s.rng.below(most)),
    }
}

/// More peers than there are records.
fn peers(s: &mut Script) {
    let peer_limit = s.rng.pick(&[0, 3_000, 1 << 63]);
    let capacity = s.rng.pick(&[10, 1_000]);
    s.start(Settings { peer_limit, capacity, ..usual() });
    let names: Vec<u64> = (0..400).map(|k| if k == 0 { u64::MAX } else { k * 0x1_0000_0001 }).collect();
    for call in 0..1_200 {
        let confirmed = s.boxes(1);
        let fee = s.rng.between(8, 1_000);
        let mut tx = s.tx(&confirmed, &[], 0, fee);
        // First mostly new ones, in some order; then any.
        let peer = if call < 420 { names[(call * 7) % 400] } else { s.rng.pick(&names) };
        tx.peer = s.rng.chance(95).then_some(peer);
        tx.verdict = verdict(s, 2_000);
        s.submit(tx);
    }
}

/// Invalid verdicts into caches of every size, and resubmissions around the end
/// of an id's life, on a clock that steps back at times.
fn cache(s: &mut Script) {
    let size = s.rng.pick(&[0, 1, 2, 50, 1_000, 10_000, 10_000]);
    let ttl = s.rng.pick(&[0, 1, 40, 3_000, 1 << 40]);
    s.start(Settings { cache: size, ttl, capacity: 20, ..usual() });
    s.every = 400;
    let calls = if size == 10_000 { 13_000 } else { 1_500 };
    let mut seen: Vec<(Id, u64)> = Vec::new();
    let mut invalid = 0;
    for _ in 0..calls {
        s.time += s.rng.below(4);
        if s.rng.chance(2) {
            s.time = s.time.saturating_sub(s.rng.below(100));
        }
        let confirmed = s.boxes(1);
        let mut tx = s.tx(&confirmed, &[], 0, 50);
        tx.verdict = if s.rng.chance(90) { Verdict::Bad } else { Verdict::Ok(5) };
        if !seen.is_empty() && s.rng.chance(20) {
            // Often one that entered long ago or just now.
            let back = s.rng.pick(&[1, 2, size, size + 1, ttl]).min(seen.len() as u64).max(1);
            let (id, entered) = seen[seen.len() - back as usize];
            tx.id = id;
            if s.rng.chance(50) {
                tx.time = (entered + ttl + s.rng.below(3)).saturating_sub(1);
            }
        }
        let kept = (tx.id, tx.time);
        if s.submit(tx) == 9 {
            invalid += 1;
            seen.push(kept);
        }
    }
    if size == 10_000 && invalid > 10_000 {
        s.met(tally::FULL_CACHE);
    }
}

/// Capacities 0 to 3.
fn tiny(s: &mut Script) {
    let capacity = s.rng.below(4);
    let min_fee = s.rng.pick(&[0, 10]);
    let cache = s.rng.below(3);
    s.start(Settings { capacity, min_fee, cache, ..usual() });
    s.every = 8;
    let boxes = s.boxes(6);
    let mut outputs: Vec<Id> = s.boxes(1);
    for _ in 0..300 {
        let confirmed = vec![s.rng.pick(&boxes)];
        let pooled = if s.rng.chance(40) { vec![s.rng.pick(&outputs)] } else { Vec::new() };
        let fee = s.rng.below(40);
        let mut tx = s.tx(&confirmed, &pooled, 1, fee);
        tx.verdict = verdict(s, 900);
        let known = Known::of(&tx);
        if s.submit(tx) == ACCEPTED && capacity == 0 && s.len() == 0 {
            s.met(tally::EMPTY);
        }
        outputs.extend(known.boxes);
    }
}

/// Submissions with several faults at once, so that the order of the tests shows.
fn refusals(s: &mut Script) {
    let settings = Settings {
        capacity: s.rng.pick(&[2, 30, 400]),
        by_cycle: s.rng.chance(50),
        block_limit: s.rng.pick(&[30_000, 1 << 40]),
        peer_limit: s.rng.pick(&[4_000, 1 << 40]),
        ttl: 500,
        cache: s.rng.pick(&[2, 100]),
        ..usual()
    };
    s.start(settings);
    let mut known: Vec<Known> = Vec::new();
    let mut ids: Vec<Id> = Vec::new();
    let many = s.boxes(5_001);
    // The rarer a fault, the more of the others are reached.
    let often = s.rng.pick(&[3, 8, 20]);
    for _ in 0..500 {
        s.time += s.rng.below(20);
        let confirmed = s.boxes(1);
        let mut pooled = Vec::new();
        if !known.is_empty() && s.rng.chance(30) {
            let at = s.rng.below(known.len() as u64) as usize;
            pooled.push(s.rng.pick(&known[at].boxes));
        }
        let fee = s.rng.between(8, 100);
        let mut tx = s.tx(&confirmed, &pooled, 1, fee);
        tx.size = s.rng.between(100, 3_000);
        tx.peer = s.rng.chance(50).then(|| s.rng.below(300));
        if s.rng.chance(often) {
            tx.size = s.rng.pick(&[0, 98_304, 98_305, u64::MAX]);
        }
        if s.rng.chance(often) {
            let value = s.rng.pick(&[u64::MAX, u64::MAX - fee, u64::MAX - fee + 1]);
            tx.outputs[1].value = value;
            tx.outputs[1].fee = true;
            // Such a fee is not to be pooled here: credits would not fit.
            tx.verdict = if s.rng.chance(50) { Verdict::None } else { Verdict::Bad };
        } else if s.rng.chance(often) {
            tx.verdict = Verdict::Ok(s.rng.pick(&[(1 << 32) - 1, 1 << 32, u64::MAX]));
        } else if s.rng.chance(often) {
            tx.verdict = if s.rng.chance(50) { Verdict::None } else { Verdict::Bad };
        }
        if !ids.is_empty() && s.rng.chance(often) {
            tx.id = s.rng.pick(&ids);
        }
        if s.rng.chance(often) {
            tx.inputs.push((s.id(), false));
        }
        if s.rng.chance(often) {
            tx.outputs[1].height = s.rng.pick(&[50, 51, (1 << 31) - 1, 1 << 31, u32::MAX]);
            tx.preheader = s.rng.pick(&[50, 50, (1 << 31) - 1, 1 << 31, u32::MAX]);
        }
        if s.rng.chance(1) {
            tx.inputs = many.iter().map(|b| (*b, true)).collect();
        }
        ids.push(tx.id);
        let kept = Known::of(&tx);
        let mut call = Call::from(tx);
        if s.rng.chance(often) {
            call.cut.0 = s.rng.between(1, 4) as usize;
        }
        if s.rng.chance(often) {
            call.cut.1 = s.rng.between(1, 6) as usize;
        }
        if s.rng.chance(often) {
            // One id too few, just enough, or words of a last one that is cut off.
            let just = (s.len() + 1) * ID_WORDS;
            call.room = s.rng.pick(&[0, just - 4, just - 1, just, just + 3]);
        }
        call.in_pass = s.rng.chance(often / 3);
        if s.call(call) == ACCEPTED {
            known.push(kept);
        }
    }
}

/// Few ids and few boxes: everything meets everything, with repeated inputs and
/// outputs, boxes made twice, transactions that spend what they make, and cycles.
fn few(s: &mut Script) {
    let capacity = s.rng.pick(&[4, 15, 60]);
    let by_cycle = s.rng.chance(40);
    let min_fee = s.rng.pick(&[0, 20]);
    s.start(Settings { capacity, by_cycle, min_fee, ..usual() });
    s.every = 16;
    let count = s.rng.pick(&[6, 25, 80]);
    let (boxes, ids) = (s.boxes(count), s.boxes(count * 3));
    let confirmed = s.rng.pick(&[40, 70, 95]);
    for _ in 0..500 {
        let tx = meeting(s, &boxes, &ids, confirmed);
        s.submit(tx);
    }
}

/// A submission with boxes, and at times an id, out of few.
fn meeting(s: &mut Script, boxes: &[Id], ids: &[Id], confirmed: u64) -> Tx {
    // Cycles credit much: only a higher fee gets past those that they left.
    let fee = s.rng.below(3_000) << s.rng.below(28);
    let mut tx = s.tx(&[], &[], 0, fee);
    if s.rng.chance(30) {
        tx.id = s.rng.pick(ids);
    }
    tx.size = s.rng.between(500, 1_500);
    for _ in 0..s.rng.below(5) {
        tx.inputs.push((s.rng.pick(boxes), s.rng.chance(confirmed)));
    }
    for _ in 0..s.rng.below(4) {
        let mut out = tx.outputs[0];
        out.box_id = s.rng.pick(boxes);
        out.value = s.rng.below(500);
        out.fee = s.rng.chance(30);
        tx.outputs.push(out);
    }
    if s.rng.chance(70) {
        tx.outputs[0].box_id = s.rng.pick(boxes);
    }
    tx.peer = s.rng.chance(30).then(|| s.rng.below(5));
    if s.rng.chance(8) {
        tx.verdict = verdict(s, 2_000);
    }
    tx
}

/// A pool like those of `few`, whose words are then disturbed before each call:
/// the port ends with an outcome of the call's kinds, and no more is asked.
fn junk(s: &mut Script) {
    s.start(Settings { capacity: 40, min_fee: 0, ..usual() });
    let (boxes, ids) = (s.boxes(30), s.boxes(90));
    for _ in 0..100 {
        let tx = meeting(s, &boxes, &ids, 90);
        s.submit(tx);
    }
    for _ in 0..150 {
        let tx = meeting(s, &boxes, &ids, 60);
        s.disturbed(&tx);
    }
}

/// Fees and costs at their ends. Where a sum of the Rust does not fit, it ends.
fn extremes(s: &mut Script) {
    let by_cycle = s.rng.chance(60);
    let capacity = s.rng.pick(&[3, 50]);
    s.start(Settings { capacity, by_cycle, ..usual() });
    s.every = 8;
    let top = s.rng.pick(&[40, 52, 60, 64]);
    let one = s.id();
    let mut made: Vec<Id> = Vec::new();
    for _ in 0..200 {
        let confirmed = if s.rng.chance(10) { vec![one] } else { s.boxes(1) };
        let fee = s.rng.next() >> (64 - top) >> s.rng.below(20);
        let pooled = if s.rng.chance(15) { made.last().copied() } else { None };
        let mut tx = s.tx(&confirmed, pooled.as_slice(), 1, fee);
        made.push(tx.outputs[1].box_id);
        tx.size = s.rng.pick(&[0, 1, 2, 1_023, 1_024, 98_304]);
        let cost = s.rng.pick(&[0, 1, 999, 1_000, 1_001, 98_304, (1 << 32) - 1]);
        tx.verdict = Verdict::Ok(cost);
        tx.peer = s.rng.chance(50).then(|| s.rng.below(5));
        s.submit(tx);
    }
}

/// Starts that are refused, starts on smaller tables, and a start over a pool.
fn starts(s: &mut Script) {
    let edges = [
        Settings { capacity: 4_096, ..usual() },
        Settings { capacity: u64::MAX, ..usual() },
        Settings { cache: 10_001, ..usual() },
        Settings { block_limit: (1 << 63) + 1, ..usual() },
        Settings { peer_limit: u64::MAX, ..usual() },
    ];
    for settings in edges {
        s.start(settings);
    }
    // Entries, box records, cache ids and peer records: each as many as there may be, then one table with fewer or more.
    let largest = [4_096, 65_536, 10_000, 256];
    let others = [(0, [0, 4_097]), (1, [0, 65_537]), (2, [0, 10_001]), (3, [255, 257])];
    let mut sizes = vec![largest];
    for (table, counts) in others {
        for count in counts {
            let mut other = largest;
            other[table] = count;
            sizes.push(other);
        }
    }
    sizes.extend([[1, 1, 1, 256], [11, 1, 7, 256], [10, 1, 7, 256], [11, 1, 6, 256]]);
    for sizes in sizes {
        let small = Settings { capacity: 10, cache: 7, ..usual() };
        s.start_sized(&small, sizes);
        let smallest = Settings { capacity: 0, cache: 1, ..usual() };
        s.start_sized(&smallest, sizes);
    }
    for _ in 0..3 {
        s.start(Settings { capacity: 25, ..usual() });
        for _ in 0..40 {
            let confirmed = s.boxes(1);
            let fee = fee(s);
            let mut tx = s.tx(&confirmed, &[], 1, fee);
            tx.peer = s.rng.chance(50).then(|| s.rng.below(9));
            tx.verdict = verdict(s, 2_000);
            s.submit(tx);
        }
        s.compare_pools();
    }
}

/// Every call beside one another: submissions and returns out of few boxes and
/// ids, blocks that confirm pooled and other transactions and spend their
/// boxes, invalidations, passes, rebroadcasts, and the fee queries, while the
/// time goes on.
fn mixed(s: &mut Script) {
    let settings = Settings {
        capacity: s.rng.pick(&[3, 40, 400]),
        by_cycle: s.rng.chance(40),
        min_fee: s.rng.pick(&[0, 20]),
        ttl: s.rng.pick(&[0, 60_000, 1_800_000]),
        cache: s.rng.pick(&[0, 3, 200]),
        ..usual()
    };
    s.start(settings);
    s.every = 16;
    let count = s.rng.pick(&[12, 60, 400]);
    let (boxes, ids) = (s.boxes(count), s.boxes(count * 3));
    let odd = s.rng.pick(&[0, 2, 10]);
    for _ in 0..1_000 {
        // Waits of every minute, and longer ones.
        let step = s.rng.pick(&[0, 1_000, 59_999, 60_000, 60_001, 400_000]);
        s.time += s.rng.below(step + 1);
        match s.rng.below(100) {
            0..=39 => {
                let tx = meeting(s, &boxes, &ids, 80);
                s.submit(tx);
            }
            40..=59 => {
                let tx = meeting(s, &boxes, &ids, 80);
                give_back(s, &tx, odd);
            }
            60..=66 => confirm(s, &boxes, &ids, odd),
            67..=72 => {
                let id = any_id(s, &ids);
                let (time, in_pass) = (s.time, s.rng.chance(odd));
                s.change(Change { in_pass, ..Form::Invalidate { time, id }.into() });
            }
            73 => pass(s, &boxes, &ids, odd, 60),
            74..=76 => send(s, odd),
            _ => ask(s),
        }
    }
}

/// A pooled id, or one that may not be.
fn any_id(s: &mut Script, ids: &[Id]) -> Id {
    let pooled = s.pooled();
    if pooled.is_empty() || s.rng.chance(30) {
        return s.rng.pick(ids);
    }
    s.rng.pick(&pooled).0
}

/// A return of this transaction, at times with faults.
fn give_back(s: &mut Script, tx: &Tx, odd: u64) -> u64 {
    let mut back = s.back(tx);
    if s.rng.chance(odd) {
        back.size = s.rng.pick(&[0, 98_304, 98_305, u64::MAX]);
    }
    let mut change = Change::from(Form::Return(back));
    let lists = (tx.inputs.len() * 4, tx.outputs.len() * 5);
    if s.rng.chance(odd) {
        change.cut.0 = lists.0.min(s.rng.between(1, 3) as usize);
    }
    if s.rng.chance(odd) {
        change.cut.1 = lists.1.min(s.rng.between(1, 4) as usize);
    }
    change.in_pass = s.rng.chance(odd / 2);
    let full = s.len() as u64 >= s.settings.capacity;
    let number = s.change(change);
    if full && number == DONE {
        s.met(tally::OVERFULL);
    }
    number
}

/// A block of pooled transactions and of others, which spend their own inputs,
/// those of others, or boxes that nobody asked for.
fn confirm(s: &mut Script, boxes: &[Id], ids: &[Id], odd: u64) {
    let mut txs = s.pooled();
    s.rng.shuffle(&mut txs);
    let most = s.rng.pick(&[0, 1, 5, 60]);
    txs.truncate(most);
    for _ in 0..s.rng.below(4) {
        let id = if s.rng.chance(30) { s.rng.pick(ids) } else { s.id() };
        let inputs = (0..s.rng.below(4)).map(|_| s.rng.pick(boxes)).collect();
        txs.push((id, inputs));
    }
    if s.rng.chance(10) && !txs.is_empty() {
        // The same one twice.
        let again = s.rng.pick(&txs);
        txs.push(again);
    }
    s.rng.shuffle(&mut txs);
    let lists = (txs.len() * 5, txs.iter().map(|(_, inputs)| inputs.len() * 4).sum::<usize>());
    let confirmed = txs.len();
    let mut change = Change::from(Form::Block { time: s.time, txs });
    if s.rng.chance(odd) {
        change.cut.0 = lists.0.min(s.rng.between(1, 4) as usize);
    }
    if s.rng.chance(odd) {
        change.cut.1 = lists.1.min(s.rng.between(1, 3) as usize);
    }
    if s.rng.chance(odd) {
        let just = (s.len() + 1) * ID_WORDS;
        change.room = s.rng.pick(&[0, just - 4, just - 1, just, just + 3]);
    }
    change.in_pass = s.rng.chance(odd / 2);
    let before = s.len();
    if s.change(change) == APPLIED && before - s.len() > confirmed {
        s.met(tally::DOUBLE_SPENDS);
    }
}

/// One of the fee queries.
fn ask(s: &mut Script) {
    let size = s.rng.pick(&[0, 1, 300, 1_024, 98_304, 98_305, u32::MAX]);
    let time = s.time + s.rng.pick(&[0, 1, 59_999, 60_000, 60_001, 3_600_000]);
    let form = match s.rng.below(3) {
        0 => Form::Fee { minutes: s.rng.pick(&[0, 1, 2, 5, 30, 58, 59, 60, u32::MAX]), size },
        1 => {
            let shift = s.rng.below(64);
            Form::Wait { time, fee: s.rng.next() >> shift, size }
        }
        _ => {
            let bins = s.rng.pick(&[0, 1, 2, 7, 60, 8_193, 8_194, u32::MAX]);
            let longest = s.rng.pick(&[0, 1, 59, 60, 61, 3_600_000, 40_000_000, u64::MAX]);
            Form::Histogram { time, bins, longest }
        }
    };
    s.query(form);
}

/// Full pools, of which a block takes thousands; what it took is given back.
fn blocks(s: &mut Script) {
    s.start(usual());
    s.every = 1_024;
    let mut made: Vec<Tx> = Vec::new();
    for _ in 0..4_300 {
        s.time += s.rng.below(900);
        let mut pooled = Vec::new();
        if !made.is_empty() && s.rng.chance(20) {
            let from = s.rng.below(made.len() as u64) as usize;
            pooled.push(made[from].outputs[0].box_id);
        }
        let confirmed = s.boxes(2);
        let fee = fee(s);
        let tx = s.tx(&confirmed, &pooled, 1, fee);
        made.push(tx.clone());
        s.submit(tx);
    }
    for round in 0..6 {
        for _ in 0..20 {
            ask(s);
        }
        s.time += 61_000;
        let mut txs = s.pooled();
        s.rng.shuffle(&mut txs);
        let full = s.len() >= 4_095;
        txs.truncate(if round == 0 { 2_000 } else { 300 });
        for _ in 0..20 {
            // Not pooled, but it spends what a pooled one does.
            let rival = s.rng.below(made.len() as u64) as usize;
            txs.push((s.id(), vec![made[rival].inputs[0].0]));
        }
        let form = Form::Block { time: s.time, txs };
        let before = s.len();
        s.every = 1;
        if s.change(form.into()) == APPLIED && full && before - s.len() >= 2_000 {
            s.met(tally::BIG_BLOCK);
        }
        s.every = 256;
        for at in 0..made.len() {
            if s.rng.chance(10) && s.weight_of(&made[at].id).is_none() && give_back(s, &made[at], 0) == DONE {
                s.met(tally::SENT_BACK);
            }
        }
        for _ in 0..20 {
            let at = s.rng.below(made.len() as u64) as usize;
            let (time, id) = (s.time, made[at].id);
            s.change(Form::Invalidate { time, id }.into());
        }
    }
}

/// Returns until the last entry and the last record are used, and more.
fn returns(s: &mut Script) {
    let capacity = s.rng.pick(&[0, 100, 4_095]);
    s.start(Settings { capacity, ..usual() });
    s.every = 1_024;
    for _ in 0..4_100 {
        s.time += s.rng.below(900);
        let count = s.rng.between(1, 3) as usize;
        let confirmed = s.boxes(count);
        let fee = fee(s);
        let tx = s.tx(&confirmed, &[], 15 - count, fee);
        give_back(s, &tx, 0);
    }
    for _ in 0..60 {
        ask(s);
    }
    let mut txs = s.pooled();
    txs.truncate(500);
    let form = Form::Block { time: s.time + 30_000, txs };
    s.every = 1;
    s.change(form.into());
    // Room for one record short, just enough, and the last entry.
    for records in [16, 17, 7_999, 8_000] {
        let confirmed = s.boxes(1);
        let fee = fee(s);
        let tx = s.tx(&confirmed, &[], records - 2, fee);
        give_back(s, &tx, 0);
    }
}

/// A pass, of at most so many answers: candidates with all their inputs, with
/// some, and invalid ones; the rest is found valid and free. At times there are
/// calls out of turn, and queries.
fn pass(s: &mut Script, boxes: &[Id], ids: &[Id], odd: u64, most: u64) {
    let limit = s.rng.pick(&[0, 1, 2_000, 20_000, 1 << 40, u64::MAX, u64::MAX]);
    let preheader = s.rng.pick(&[0, 24, 25, 50, 50, 50, 1 << 31, u32::MAX]);
    let time = s.time;
    s.change(Form::Open { time, limit, preheader }.into());
    let confirmed = s.rng.pick(&[100, 98, 60]);
    let mut answers = 0;
    while s.in_pass() && !s.is_over() {
        if s.rng.chance(odd) {
            out_of_turn(s, boxes, ids);
        }
        match s.change(Form::Next.into()) {
            CANDIDATE if answers < most => {}
            CANDIDATE => {
                let flags = vec![true; s.inputs_out()];
                s.change(Form::Answer { flags, verdict: Verdict::Ok(0) }.into());
                answers += 1;
                continue;
            }
            ENDED => {
                if limit < 1 << 41 && answers > 0 && s.ended_with() >= limit {
                    s.met(tally::AT_LIMIT);
                }
                break;
            }
            _ => break,
        }
        if s.rng.chance(odd) {
            let count = s.inputs_out() + s.rng.pick(&[0, 0, 1]);
            let flags = vec![true; count];
            let verdict = if count == s.inputs_out() { Verdict::None } else { Verdict::Ok(1) };
            s.change(Form::Answer { flags, verdict }.into());
            out_of_turn(s, boxes, ids);
        }
        let flags = (0..s.inputs_out()).map(|_| s.rng.chance(confirmed)).collect();
        let verdict = match s.rng.below(10) {
            0 => Verdict::Bad,
            1 => Verdict::Ok(s.rng.pick(&[0, 1, 1 << 33, u64::MAX / 2, u64::MAX])),
            _ => Verdict::Ok(s.rng.below(900)),
        };
        s.change(Form::Answer { flags, verdict }.into());
        answers += 1;
        if s.rng.chance(odd) {
            send(s, odd);
            ask(s);
        }
    }
    if answers >= 100 {
        s.met(tally::LONG_PASS);
    }
}

/// Calls that an open pass refuses, or that have no candidate.
fn out_of_turn(s: &mut Script, boxes: &[Id], ids: &[Id]) {
    let time = s.time;
    match s.rng.below(6) {
        0 => {
            let tx = meeting(s, boxes, ids, 80);
            s.submit(tx);
        }
        1 => {
            let tx = meeting(s, boxes, ids, 80);
            give_back(s, &tx, 0);
        }
        2 => {
            s.change(Form::Open { time, limit: 7, preheader: 7 }.into());
        }
        3 => {
            s.change(Form::Answer { flags: Vec::new(), verdict: Verdict::Ok(7) }.into());
        }
        4 => {
            let id = any_id(s, ids);
            s.change(Form::Invalidate { time, id }.into());
        }
        _ => {
            s.change(Form::Next.into());
        }
    }
}

/// A rebroadcast: the inputs of some, and boxes that nobody asked for.
fn send(s: &mut Script, odd: u64) {
    let part = s.rng.pick(&[0, 50, 95, 100]);
    let mut confirmed: Vec<Id> = Vec::new();
    for (_, inputs) in s.pooled() {
        if s.rng.chance(part) {
            confirmed.extend(inputs);
        } else {
            confirmed.extend(inputs.iter().skip(1));
        }
    }
    s.rng.shuffle(&mut confirmed);
    let others = s.boxes(2);
    confirmed.extend(others);
    let cut = if s.rng.chance(odd) { s.rng.between(1, 3) as usize } else { 0 };
    let just = (s.len() + 1) * ID_WORDS;
    let room = if s.rng.chance(odd) { s.rng.pick(&[0, just - 1, just]) } else { just + 9 };
    s.rebroadcast(confirmed, cut, room);
}

/// Pools of up to 400 whose passes come one after the other; a start cuts the
/// last one off.
fn passes(s: &mut Script) {
    let settings = Settings {
        capacity: s.rng.pick(&[3, 40, 400]),
        min_fee: 0,
        interval: s.rng.pick(&[0, 1, 30_000]),
        rebroadcast: s.rng.pick(&[0, 1, 3, 1_000]),
        ttl: s.rng.pick(&[0, 60_000]),
        cache: s.rng.pick(&[0, 3, 200]),
        ..usual()
    };
    s.start(settings.clone());
    s.every = 8;
    let count = s.rng.pick(&[30, 400]);
    let (boxes, ids) = (s.boxes(count), s.boxes(count * 3));
    let odd = s.rng.pick(&[2, 10]);
    for _ in 0..12 {
        for _ in 0..s.rng.pick(&[5, 60]) {
            s.time += s.rng.below(2_000);
            let tx = meeting(s, &boxes, &ids, 95);
            if s.rng.chance(30) {
                give_back(s, &tx, 0);
            } else {
                s.submit(tx);
            }
        }
        s.time += s.rng.pick(&[0, 1, 2, 29_999, 30_000, 30_001, 90_000]);
        send(s, odd);
        let most = s.rng.pick(&[0, 5, u64::MAX]);
        pass(s, &boxes, &ids, odd, most);
        send(s, odd);
    }
    let time = s.time;
    s.change(Form::Open { time, limit: 9, preheader: 50 }.into());
    s.change(Form::Next.into());
    if s.in_pass() && s.start(settings) == 0 {
        s.met(tally::CUT_OFF);
    }
    s.change(Form::Next.into());
    let tx = meeting(s, &boxes, &ids, 100);
    s.submit(tx);
}

/// A pass over a full pool: the first are answered, then it comes to its limit;
/// and rebroadcasts out of it.
fn sweeps(s: &mut Script) {
    let rebroadcast = s.rng.pick(&[200, 4_095]);
    s.start(Settings { rebroadcast, ..usual() });
    s.every = 2_048;
    let mut made: Vec<Id> = Vec::new();
    for _ in 0..4_200 {
        s.time += s.rng.below(900);
        let pooled = if s.rng.chance(20) { made.last().copied() } else { None };
        let confirmed = s.boxes(2);
        let fee = fee(s);
        let tx = s.tx(&confirmed, pooled.as_slice(), 1, fee);
        made.push(tx.outputs[1].box_id);
        s.submit(tx);
    }
    let full = s.len() == 4_095;
    s.every = 16;
    for answers in [10, 40] {
        s.time += 61_000;
        send(s, 0);
        let time = s.time;
        s.change(Form::Open { time, limit: answers * 1_000, preheader: 50 }.into());
        while s.in_pass() && s.change(Form::Next.into()) == CANDIDATE {
            let flags = (0..s.inputs_out()).map(|_| s.rng.chance(98)).collect();
            let verdict = if s.rng.chance(10) { Verdict::Bad } else { Verdict::Ok(1_000) };
            s.change(Form::Answer { flags, verdict }.into());
        }
        if full && !s.in_pass() {
            s.met(tally::SWEPT);
        }
        send(s, 0);
    }
}
