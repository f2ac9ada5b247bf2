//! The rules of document 02, "Ask 11", call by call, and the wrap at 32 bits.
use gunthyd::intake::{Intake, Served, LAST_AT, LINES, LINE_WORDS, PLACES, QUEUE_WORDS};

fn served(line: u64, handle: u64) -> Option<Served> {
    Some(Served { line, handle })
}

#[test]
fn calls_in_order() {
    let mut q = Intake::new();
    assert_eq!(q.turn(), None);
    q.put(3, 10).unwrap();
    q.put(3, 11).unwrap();
    q.put(0, 12).unwrap();
    assert_eq!(q.put(256, 13).unwrap_err().number(), 32);
    assert_eq!(q.turn(), served(0, 12));
    assert_eq!(q.turn(), served(3, 10));
    q.put(0, 14).unwrap();
    assert_eq!(q.turn(), served(0, 14));
    assert_eq!(q.turn(), served(3, 11));
    let before = q.words().to_vec();
    assert_eq!(q.turn(), None);
    assert_eq!(q.words(), before);
}

#[test]
fn sixteen_and_no_more() {
    let mut q = Intake::new();
    for n in 0..PLACES as u64 {
        q.put(255, n).unwrap();
    }
    let before = q.words().to_vec();
    assert_eq!(q.put(255, 16).unwrap_err().number(), 32);
    assert_eq!(q.put(u64::MAX, 16).unwrap_err().number(), 32);
    assert_eq!(q.words(), before);
    for n in 0..PLACES as u64 {
        assert_eq!(q.turn(), served(255, n));
    }
}

/// Head and tail of every line just below 2^32, the words' high halves full of ones, which nobody reads.
#[test]
fn over_the_wrap() {
    for below in 0..=20u64 {
        let mut words = Box::new([0u64; QUEUE_WORDS]);
        for line in 0..LINES {
            let count = (1 << 32) - below;
            words[line * LINE_WORDS] = count | 0xffff_ffff << 32;
            words[line * LINE_WORDS + 1] = count & 0xffff_ffff;
        }
        words[LAST_AT] = 255;
        let mut q = Intake::from_words(words);
        for n in 0..PLACES as u64 {
            q.put(5, n).unwrap();
        }
        assert!(q.put(5, 16).is_err());
        for n in 0..100 {
            assert_eq!(q.turn(), served(5, n));
            q.put(5, n + PLACES as u64).unwrap();
            assert!(q.put(5, 0).is_err());
        }
    }
}

/// With no handle before it, a handle waits 256 turns where its line was served last and every other line holds one: not 255, not 257.
#[test]
fn the_bound_is_reached() {
    let mut q = Intake::new();
    q.put(255, 7).unwrap();
    for line in 0..255 {
        q.put(line, 1).unwrap();
        q.put(line, 2).unwrap();
    }
    for turn in 1..256u64 {
        assert_eq!(q.turn(), served(turn - 1, 1));
    }
    assert_eq!(q.turn(), served(255, 7));
}
