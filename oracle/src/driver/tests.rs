//! The driver's answers against document 01: its example, its edges, and what the driver decides by itself.

use super::*;

/// The answers of a new driver to these lines.
fn answers<L: AsRef<str>>(lines: impl IntoIterator<Item = L>) -> Vec<String> {
    let mut driver = Driver::default();
    lines.into_iter().map(|line| driver.answer(line.as_ref().as_bytes()).text).collect()
}

/// Lines, each with the answer that is wanted.
#[track_caller]
fn answered(lines: &[(&str, &str)]) {
    let found = answers(lines.iter().map(|(line, _)| line));
    for ((line, wanted), found) in lines.iter().zip(found) {
        assert_eq!(found, *wanted, "{line}");
    }
}

/// Fees by size, no minimum, an interval of 10, a ttl of 100.
const POOL: &str = "(pool 5 0 byte 10 3 100 10 12000000 10000000)";
const TOP: u64 = u64::MAX;

/// A local submission of one confirmed box and one fee.
fn plain(time: u64, id: &str, size: u64, fee: u64) -> String {
    format!("(tx {time} {id} local {size} 50 ((1{id} set)) ((2{id} {fee} fee 50)) (ok {size}))")
}

#[test]
fn the_example_of_document_01() {
    let forms = include_str!("../../example.forms").lines();
    let wanted: Vec<&str> = include_str!("../../example.answers").lines().collect();
    assert_eq!(wanted.len(), 4);
    assert_eq!(answers(forms), wanted);
}

#[test]
fn weights_at_their_ends() {
    let by_size = |fee, size| answers([POOL.into(), plain(1, "a", size, fee), "(list)".into()])[2].clone();
    assert_eq!(by_size(1_000_000, 300), "(pooled (a 3413333 3413333))");
    assert_eq!(by_size(TOP, 1_024), format!("(pooled (a {TOP} {TOP}))"));
    assert_eq!(by_size(TOP - 1, 1_024), format!("(pooled (a {0} {0}))", TOP - 1));
    assert_eq!(by_size(TOP, 1_023), format!("(pooled (a {TOP} {TOP}))"));
    assert_eq!(by_size(5, 0), "(pooled (a 0 0))");
    let by_cycle = POOL.replace("byte", "cycle");
    // Cost 0 counts as 1,000.
    assert_eq!(answers([by_cycle, plain(1, "a", 0, 1_000), "(list)".into()])[2], "(pooled (a 1024 1024))");
}

#[test]
fn conflicts_of_10_and_15() {
    answered(&[
        (POOL, "(ready)"),
        (&plain(1, "a", 1_024, 10), "(accepted a)"),
        (&plain(1, "b", 1_024, 15), "(accepted b)"),
        ("(tx 2 c local 1024 50 ((1b set) (1a set)) ((2c 12 fee 50)) (ok 9))", "(refused 29)"),
        ("(written)", "(ids b a)"),
        ("(tx 2 c local 1024 50 ((1b set) (1a set)) ((2c 13 fee 50)) (ok 9))", "(replaced c (b a))"),
        ("(list)", "(pooled (c 13 13))"),
        ("(spending 1a)", "(spender c 13 13)"),
    ]);
}

#[test]
fn a_diamond_credits_its_top_twice() {
    answered(&[
        (POOL, "(ready)"),
        ("(tx 1 a local 1024 50 ((1 set)) ((2 100 fee 50) (3 0 pay 50)) (ok 9))", "(accepted a)"),
        ("(tx 1 b local 1024 50 ((2 not)) ((4 10 fee 50)) (ok 9))", "(accepted b)"),
        ("(tx 1 c local 1024 50 ((3 not)) ((5 20 fee 50)) (ok 9))", "(accepted c)"),
        ("(tx 1 d local 1024 50 ((4 not) (5 not)) ((6 1 fee 50)) (ok 9))", "(accepted d)"),
        ("(list)", "(pooled (a 132 100) (c 21 20) (b 11 10) (d 1 1))"),
    ]);
}

#[test]
fn an_age_equal_to_the_interval_is_not_due() {
    answered(&[
        (POOL, "(ready)"),
        (&plain(1, "a", 1_024, 10), "(accepted a)"),
        ("(open 11 1000 50)", "(opened)"),
        ("(next)", "(ended 0)"),
        ("(open 12 1000 50)", "(opened)"),
        ("(next)", "(candidate a)"),
        ("(next)", "(candidate a)"),
        ("(answer (set) (none))", "(verdict needed)"),
        ("(answer (set) (ok 7))", "(valid a)"),
        ("(next)", "(ended 7)"),
    ]);
}

#[test]
fn a_pass_is_seen_by_queries_and_hinders_changes() {
    answered(&[
        (POOL, "(ready)"),
        ("(next)", "(refused 21)"),
        (&plain(1, "a", 1_024, 20), "(accepted a)"),
        (&plain(1, "b", 1_024, 10), "(accepted b)"),
        ("(open 12 2000 50)", "(opened)"),
        ("(answer (set) (bad))", "(refused 21)"),
        ("(next)", "(candidate a)"),
        (&plain(12, "c", 1_024, 10), "(refused 20)"),
        ("(open 12 2000 50)", "(refused 20)"),
        ("(answer () (bad))", "(refused 1)"),
        ("(answer (set) (bad))", "(invalid a)"),
        ("(list)", "(pooled (b 10 10))"),
        ("(next)", "(candidate b)"),
        ("(answer (not) (none))", "(missing b)"),
        ("(len)", "(len 0)"),
        // What a and b cost when they were submitted.
        ("(next)", "(ended 2048)"),
        ("(len)", "(len 0)"),
        ("(contains 12 a)", "(yes)"),
        ("(contains 12 b)", "(no)"),
    ]);
}

#[test]
fn a_pass_ends_when_its_sum_reaches_the_limit() {
    let after_a = |limit: u64| {
        let open = format!("(open 12 {limit} 50)");
        let (a, b) = (plain(1, "a", 1_024, 20), plain(1, "b", 1_024, 10));
        answers([POOL, &a, &b, &open, "(next)", "(answer (set) (ok 7))", "(next)"])[6].clone()
    };
    assert_eq!(after_a(7), "(ended 7)");
    assert_eq!(after_a(8), "(candidate b)");
}

#[test]
fn an_age_equal_to_the_ttl_is_not_held() {
    answered(&[
        (POOL, "(ready)"),
        ("(invalidate 5 a)", "(invalidated a)"),
        ("(contains 104 a)", "(yes)"),
        (&plain(104, "a", 1_024, 10), "(refused 22)"),
        ("(contains 105 a)", "(no)"),
        (&plain(105, "a", 1_024, 10), "(accepted a)"),
    ]);
}

#[test]
fn waits_in_bins() {
    answered(&[
        (POOL, "(ready)"),
        (&plain(0, "a", 1_024, 10), "(accepted a)"),
        ("(histogram 9 3 10)", "(bins (0 0) (0 0) (0 0) (1 10))"),
        ("(histogram 8 3 10)", "(bins (0 0) (0 0) (1 10) (0 0))"),
        ("(histogram 8 3 2)", "(refused 11)"),
        ("(histogram 8 511 511)", &format!("(bins{} (1 10){})", " (0 0)".repeat(8), " (0 0)".repeat(503))),
        ("(histogram 8 512 512)", "(refused 2)"),
    ]);
    let fee_after = |wait: u64| {
        let block = format!("(block {wait} ((a ())))");
        let lines = [POOL.into(), plain(0, "a", 1_024, 777), block, "(fee 58 1024)".into(), "(fee 59 1024)".into()];
        answers(lines)[3..].join(" ")
    };
    assert_eq!(fee_after(3_539_999), "(fee 777) (fee 777)");
    assert_eq!(fee_after(3_599_999), "(fee 0) (fee 777)");
    assert_eq!(fee_after(3_600_000), "(fee 0) (fee 0)");
}

#[test]
fn the_wait_for_position_10() {
    let mut lines = vec![POOL.replace("pool 5", "pool 20")];
    lines.extend((0..14).map(|n| plain(0, &format!("c{n}"), 1_024, 10 + n)));
    lines.push("(block 10 ((c0 ()) (c1 ()) (c2 ()) (c3 ())))".into());
    lines.extend(["(wait 60000 13 1024)", "(wait 30000 13 1024)", "(wait 60000 14 1024)", "(wait 1 1 0)"].map(String::from));
    let found = answers(&lines);
    assert_eq!(found[16..], ["(wait 150000)", "(wait 75000)", "(wait 135000)", "(refused 3)"]);
}

#[test]
fn heights_are_read_as_signed() {
    let of_height = |height: u32| {
        let line = format!("(tx 1 a local 9 50 ((1 set)) ((2 10 fee {height})) (ok 9))");
        answers([POOL.into(), line])[1].clone()
    };
    assert_eq!(of_height(50), "(accepted a)");
    assert_eq!(of_height(51), "(refused 8)");
    assert_eq!(of_height((1 << 31) - 1), "(refused 8)");
    assert_eq!(of_height(1 << 31), "(accepted a)");
    assert_eq!(of_height(u32::MAX), "(accepted a)");
}

#[test]
fn a_peer_limit_of_0_and_a_capacity_of_0() {
    answered(&[
        ("(pool 5 0 byte 10 3 100 10 12000000 0)", "(ready)"),
        ("(tx 1 a 7 100 50 ((1 set)) ((2 50 fee 50)) (ok 9))", "(accepted a)"),
        ("(tx 1 b 7 100 50 ((3 set)) ((4 50 fee 50)) (ok 9))", "(refused 25)"),
        ("(charges)", "(charges 100 (7 100))"),
        ("(pool 0 0 byte 10 3 100 10 12000000 10000000)", "(ready)"),
        (&plain(1, "a", 1_024, 10), "(accepted a)"),
        ("(list)", "(pooled)"),
    ]);
}

#[test]
fn inputs_up_to_5000() {
    let of_inputs = |count: u64| {
        let mut driver = Driver::on(Store { records: 65_536, ..POOLRUN });
        driver.answer(POOL.as_bytes());
        let box_id = |n: u64| {
            let mut id = [0; 32];
            id[..8].copy_from_slice(&n.to_be_bytes());
            id
        };
        driver.submit(&Tx {
            time: 1,
            id: [1; 32],
            peer: None,
            size: 1_024,
            preheader: 50,
            inputs: (0..count).map(|n| (box_id(n), true)).collect(),
            outputs: Vec::new(),
            verdict: Verdict::Ok(9),
        })
    };
    assert!(matches!(of_inputs(5_000), Ok(Submitted::Accepted)));
    assert!(matches!(of_inputs(5_001), Err(Stop::Refused(7))));
}

#[test]
fn what_the_driver_decides_itself() {
    answered(&[
        ("(len)", "(no pool)"),
        ("(lens)", "(unread 2)"),
        ("(pool 128 0 byte 10 3 100 10 1 1)", "(refused 6)"),
        ("(pool 127 0 byte 10 3 100 1001 1 1)", "(refused 6)"),
        ("(pool 127 0 byte 10 3 100 10 1 9223372036854775809)", "(refused 6)"),
        ("(len)", "(no pool)"),
        ("(pool 127 0 byte 10 3 100 1000 9223372036854775808 9223372036854775808)", "(ready)"),
        (&plain(1, "a", 98_305, 10), "(refused 3)"),
        ("(tx 1 a local 9 50 () ((1 18446744073709551615 fee 1) (2 1 fee 1)) (ok 9))", "(refused 4)"),
        ("(tx 1 a local 9 50 () () (ok 4294967296))", "(refused 5)"),
        ("(tx 1 a local 9 50 () () (none))", "(verdict needed)"),
        ("(return a 1 98305 9 none 0 0 local () ())", "(refused 3)"),
        ("(return a 1 1024 9 none 0 0 local () ())", "(returned a)"),
        ("(return a 1 1024 9 none 0 0 local () ())", "(refused 23)"),
        ("(len)", "(len 1)"),
        ("", "(unread 16)"),
    ]);
}

#[test]
fn a_peer_too_many() {
    let mut lines = vec![POOL.to_string()];
    lines.extend((0..257).map(|n| format!("(tx 1 {n:x} {n} 9 50 ((1 set)) () (ok 9))")));
    let found = answers(&lines);
    assert_eq!(found[1], "(accepted 0)");
    assert_eq!(found[256..], ["(refused 29)", "(refused 26)"]);
}

#[test]
fn a_sum_that_does_not_fit_ends_the_script() {
    let mut driver = Driver::default();
    for line in [POOL, "(tx 1 a local 1024 50 ((1 set)) ((2 18446744073709551615 fee 50)) (ok 9))"] {
        assert!(!driver.answer(line.as_bytes()).end);
    }
    let mut careful = driver.fork();
    let reply = driver.answer(b"(tx 1 b local 1024 50 ((2 not)) ((3 1 fee 50)) (ok 9))");
    assert_eq!((reply.text.as_str(), reply.form, reply.end), (OVERFLOW, "tx", true));
    // The fork has seen nothing of it.
    assert_eq!(careful.answer(b"(list)").text, format!("(pooled (a {TOP} {TOP}))"));
}
