//! Every form, and lines on either side of each edge of what can be read.

use super::*;

fn id_of(n: u64) -> Id {
    let mut id = [0; 32];
    id[24..].copy_from_slice(&n.to_be_bytes());
    id
}

#[track_caller]
fn reads(line: &str, form: Form) {
    assert_eq!(read(line.as_bytes()), Some(form), "{line}");
}

#[track_caller]
fn unread(line: impl AsRef<[u8]>) {
    let line = line.as_ref();
    assert_eq!(read(line), None, "{}", line.escape_ascii());
}

fn submission() -> Tx {
    Tx {
        time: 1,
        id: id_of(0xa1),
        peer: Some(7),
        size: 512,
        preheader: 50,
        inputs: vec![(id_of(0xb1), true), (id_of(0xb2), false)],
        outputs: vec![
            Output { box_id: id_of(0xc1), value: 9, fee: true, height: 51 },
            Output { box_id: id_of(0xc2), value: 10, fee: false, height: 52 },
        ],
        verdict: Verdict::Ok(800),
    }
}

fn returned() -> Return {
    Return {
        id: id_of(0xa1),
        fee: 2,
        size: 3,
        cost: 4,
        measured: Some(5),
        created: 6,
        checked: 7,
        peer: Some(8),
        inputs: vec![id_of(0xb1), id_of(0xb2)],
        outputs: vec![(id_of(0xc1), 9), (id_of(0xc2), 10)],
    }
}

fn settings() -> Settings {
    Settings {
        capacity: 1,
        min_fee: 2,
        by_cycle: true,
        interval: 3,
        rebroadcast: 4,
        ttl: 5,
        cache: 6,
        block_limit: 7,
        peer_limit: 8,
    }
}

/// A line of each form with the form that it spells, in the order of NAMES. Fields of a kind have
/// different values, so that none can stand for another.
fn one_of_each() -> Vec<(&'static str, Form)> {
    let (id, box_id) = (id_of(0xa1), id_of(0xb1));
    let txs = vec![(id, vec![]), (id_of(0xa2), vec![box_id, id_of(0xb2)])];
    vec![
        ("(pool 1 2 cycle 3 4 5 6 7 8)", Form::Pool(settings())),
        ("(tx 1 a1 7 512 50 ((b1 set) (b2 not)) ((c1 9 fee 51) (c2 10 pay 52)) (ok 800))", Form::Tx(submission())),
        ("(return a1 2 3 4 5 6 7 8 (b1 b2) ((c1 9) (c2 10)))", Form::Return(returned())),
        ("(block 1 ((a1 ()) (a2 (b1 b2))))", Form::Block { time: 1, txs }),
        ("(invalidate 1 a1)", Form::Invalidate { time: 1, id }),
        ("(open 1 2 3)", Form::Open { time: 1, limit: 2, preheader: 3 }),
        ("(next)", Form::Next),
        ("(answer (set not) (bad))", Form::Answer { flags: vec![true, false], verdict: Verdict::Bad }),
        ("(rebroadcast (b1 a1))", Form::Rebroadcast(vec![box_id, id])),
        ("(list)", Form::List),
        ("(top 3)", Form::Top(3)),
        ("(len)", Form::Len),
        ("(contains 1 a1)", Form::Contains { time: 1, id }),
        ("(spending b1)", Form::Spending(box_id)),
        ("(fee 1 2)", Form::Fee { minutes: 1, size: 2 }),
        ("(wait 1 2 3)", Form::Wait { time: 1, fee: 2, size: 3 }),
        ("(histogram 1 2 3)", Form::Histogram { time: 1, bins: 2, longest: 3 }),
        ("(charges)", Form::Charges),
        ("(written)", Form::Written),
    ]
}

#[test]
fn every_form_is_read() {
    let names: Vec<&str> = one_of_each().iter().map(|(_, form)| form.name()).collect();
    assert_eq!(names, NAMES);
    for (line, form) in one_of_each() {
        let name = line.trim_matches(['(', ')']).split(' ').next();
        assert_eq!(name, Some(form.name()));
        reads(line, form);
    }
}

#[test]
fn words_in_place_of_numbers() {
    let peer = |line: &str| match read(line.as_bytes()) {
        Some(Form::Tx(tx)) => (tx.peer, tx.verdict),
        Some(Form::Return(r)) => (r.peer, r.measured.map_or(Verdict::None, Verdict::Ok)),
        other => panic!("{line}: {other:?}"),
    };
    assert_eq!(peer("(tx 1 a local 5 6 () () (none))"), (None, Verdict::None));
    assert_eq!(peer("(tx 1 a 0 5 6 () () (bad))"), (Some(0), Verdict::Bad));
    assert_eq!(peer("(return a 1 2 3 none 4 5 local () ())"), (None, Verdict::None));
    assert_eq!(peer("(return a 1 2 3 0 4 5 6 () ())"), (Some(6), Verdict::Ok(0)));
    let byte = read(b"(pool 1 2 byte 3 4 5 6 7 8)");
    assert!(matches!(byte, Some(Form::Pool(Settings { by_cycle: false, .. }))));
    unread("(tx 1 a none 5 6 () () (none))");
    unread("(return a 1 2 3 local 4 5 local () ())");
    unread("(return a 1 2 3 none 4 5 none () ())");
}

#[test]
fn a_member_more_or_less_is_not_read() {
    for (line, _) in one_of_each() {
        let inside = &line[..line.len() - 1];
        unread(format!("{inside} 1)"));
        unread(format!("{inside} ())"));
        let mut reader = Reader { line: line.as_bytes(), at: 1 };
        let mut members = reader.list(1).expect("a list");
        members.pop();
        assert!(form(&members).is_none(), "{line} without its last member");
    }
}

#[test]
fn spaces_may_stand_outside_words() {
    for (line, form) in one_of_each() {
        let wide = line.replace(' ', "   ").replace('(', "( ").replace(')', " )");
        reads(&format!("  {wide} "), form.clone());
        reads(&format!("{line}   "), form);
    }
    for line in ["(top3)", "(to p 3)", "(block 1((a1 ())))", "(block 1 ((a1())))", "(block 1 ((1 ())(2 ())))"] {
        unread(line);
    }
    for other in ["\t", "\r", "\0", "\u{b}", "\u{a0}", "\n"] {
        unread(format!("(top{other}3)"));
        unread(format!("(top 3){other}"));
        unread(format!("{other}(top 3)"));
    }
}

#[test]
fn brackets_that_do_not_match_are_not_read() {
    for line in ["", " ", "(", ")", "()", "(())", "len", "(len", "len)", "(len))", "((len)", "((len))", "(len)(len)", "(len) len"] {
        unread(line);
    }
}

#[test]
fn words_are_read_to_the_letter() {
    for line in ["(Len)", "(lens)", "(le)", "(top x)", "(answer (Set) (bad))", "(answer (set) (Bad))", "(answer (set) bad)", "(answer set (bad))"] {
        unread(line);
    }
    unread("(pool 1 2 bytes 3 4 5 6 7 8)");
    unread("(tx 1 a local 5 6 () ((b 1 fees 2)) (none))");
    unread("(answer () (ok))");
    unread("(answer () (bad 1))");
    unread(b"(len\xff)");
}

#[test]
fn numbers_of_64_bits() {
    reads("(top 0)", Form::Top(0));
    reads("(top 18446744073709551615)", Form::Top(u64::MAX));
    reads("(top 000018446744073709551615)", Form::Top(u64::MAX));
    unread("(top 18446744073709551616)");
    unread("(top 99999999999999999999)");
    unread("(top 184467440737095516150)");
    for word in ["-1", "+1", "1.0", "1e3", "0x1", "1_000", "()", "(1)"] {
        unread(format!("(top {word})"));
    }
    // A line's fields of 64 bits, each at its end and one beyond it.
    let lines = [
        "(pool N 2 byte 3 4 5 6 7 8)", "(pool 1 2 byte 3 4 5 6 7 N)", "(tx N a 1 2 3 () () (none))", "(tx 1 a N 2 3 () () (none))",
        "(tx 1 a 1 N 3 () () (none))", "(tx 1 a 1 2 3 () ((b N pay 1)) (none))", "(tx 1 a 1 2 3 () () (ok N))",
        "(return a N 2 3 4 5 6 7 () ())", "(return a 1 2 3 N 5 6 7 () ())", "(open 1 N 3)", "(wait N N 1)", "(histogram N 1 N)",
    ];
    for line in lines {
        assert!(read(line.replace('N', "18446744073709551615").as_bytes()).is_some(), "{line}");
        unread(line.replace('N', "18446744073709551616"));
    }
}

#[test]
fn numbers_of_32_bits() {
    let lines = [
        "(tx 1 a 1 2 N () () (none))", "(tx 1 a 1 2 3 () ((b 1 pay N)) (none))", "(return a 1 2 N 4 5 6 7 () ())",
        "(return a 1 2 3 4 5 6 7 () ((b N)))", "(open 1 2 N)", "(fee N 1)", "(fee 1 N)", "(wait 1 2 N)", "(histogram 1 N 3)",
    ];
    for line in lines {
        for digits in ["0", "4294967295", "0000004294967295"] {
            assert!(read(line.replace('N', digits).as_bytes()).is_some(), "{line} {digits}");
        }
        unread(line.replace('N', "4294967296"));
        unread(line.replace('N', "18446744073709551616"));
    }
    reads("(fee 4294967295 1)", Form::Fee { minutes: u32::MAX, size: 1 });
}

#[test]
fn ids_of_1_to_64_digits_of_either_case() {
    reads("(spending AbCdEf)", Form::Spending(id_of(0xab_cdef)));
    reads("(spending 0)", Form::Spending([0; 32]));
    reads("(spending 000a1)", Form::Spending(id_of(0xa1)));
    reads(&format!("(spending {})", "f".repeat(64)), Form::Spending([0xff; 32]));
    let mut high = [0; 32];
    high[0] = 0x0f;
    reads(&format!("(spending F{})", "0".repeat(62)), Form::Spending(high));
    unread(format!("(spending {})", "f".repeat(65)));
    unread(format!("(spending 0{})", "0".repeat(64)));
    for word in ["g", "0x1", "a-1", "(a1)", "a1 a1"] {
        unread(format!("(spending {word})"));
    }
}

#[test]
fn ids_are_printed_short_and_in_lower_case() {
    assert_eq!(hex(&[0; 32]), "0");
    assert_eq!(hex(&id_of(0xA1)), "a1");
    assert_eq!(hex(&id_of(0xa10)), "a10");
    assert_eq!(hex(&[0xff; 32]), "f".repeat(64));
    let mut high = [0; 32];
    high[0] = 0x10;
    assert_eq!(hex(&high), format!("1{}", "0".repeat(63)));
    for n in [0, 1, 0xf, 0x10, 0xabc, u64::MAX] {
        reads(&format!("(spending {})", hex(&id_of(n))), Form::Spending(id_of(n)));
    }
}

/// No form is deeper than four, so the members are read without asking for a form.
#[test]
fn lists_are_read_8_deep() {
    let deep = |depth: usize| {
        let line = format!("{}x{}", "(".repeat(depth), ")".repeat(depth));
        let mut reader = Reader { line: line.as_bytes(), at: 1 };
        reader.list(1).is_some()
    };
    for depth in 1..=12 {
        assert_eq!(deep(depth), depth <= 8, "{depth} deep");
    }
    unread("((((((((len))))))))");
}

#[test]
fn lines_are_read_up_to_4096_bytes() {
    let of_length = |before: &str, filler: &str, behind: &str, length: usize| {
        format!("{before}{}{behind}", filler.repeat(length - before.len() - behind.len()))
    };
    let len = [("(len", " ", ")"), ("(len)", " ", ""), ("", " ", "(len)")];
    for (before, filler, behind) in len {
        reads(&of_length(before, filler, behind, 4_096), Form::Len);
        unread(of_length(before, filler, behind, 4_097));
    }
    reads(&of_length("(top ", "0", "7)", 4_096), Form::Top(7));
    unread(of_length("(top ", "0", "7)", 4_097));
}

#[test]
fn a_script_ends_with_or_without_a_newline() {
    assert_eq!(lines(b""), Vec::<&[u8]>::new());
    assert_eq!(lines(b"\n"), [b""]);
    assert_eq!(lines(b"a\nb"), [b"a", b"b"]);
    assert_eq!(lines(b"a\nb\n"), [b"a", b"b"]);
    assert_eq!(lines(b"a\n\nb\n\n"), [&b"a"[..], b"", b"b", b""]);
}
