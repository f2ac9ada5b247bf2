//! One busy peer fills its line and goes on asking; three others are served in turn between.
use gunthyd::Intake;

const BUSY: u64 = 7;
const OTHERS: [u64; 3] = [3, 90, 255];

fn main() {
    let mut queue = Intake::new();
    let mut refused = 0;
    for n in 0..20 {
        refused += u32::from(queue.put(BUSY, 700 + n).is_err());
    }
    println!("peer {BUSY}: 20 handles, {refused} refused");
    for (n, peer) in (0..2).flat_map(|n| OTHERS.map(|peer| (n, peer))) {
        queue.put(peer, peer * 10 + n).expect("its line has room");
    }
    for n in 0..12 {
        let Some(served) = queue.turn() else { break };
        println!("peer {}: handle {}", served.line, served.handle);
        // the busy peer fills the place that it got back
        if served.line == BUSY {
            queue.put(BUSY, 720 + n).expect("a place was freed");
        }
    }
}
