//! Odd lines: each stands at an edge of what can be read, on one side or the other of it.

/// The same lines every time: a pool, then forms with spaces where they may and may not stand, numbers and ids at the ends of their widths, foreign
/// bytes, brackets of every depth, lines at the greatest length.
pub fn lines() -> Vec<Vec<u8>> {
    let mut all = vec![b"(pool 5 0 byte 10 3 100 10 9223372036854775808 9223372036854775808)".to_vec()];
    let forms = [
        "(len)",
        "(top 3)",
        "(contains 7 a1)",
        "(tx 1 a1 local 100 50 ((1 set)) ((b1 500 fee 50)) (ok 9))",
    ];
    for form in forms {
        spaces(form, &mut all);
    }
    for form in ["(len)", "(top 3)"] {
        foreign(form, &mut all);
    }
    widths(&mut all);
    ids(&mut all);
    brackets(&mut all);
    lengths(&mut all);
    edges(&mut all);
    full(&mut all);
    all
}

/// Document 01's edges that are checked by running: a peer limit of 0 and a peer without a record; capacity 0 and an empty pool.
fn edges(all: &mut Vec<Vec<u8>>) {
    all.push(b"(pool 5 0 byte 10 3 100 10 12000000 0)".to_vec());
    all.push(b"(tx 1 e1 7 100 50 ((1 set)) ((f1 500 fee 50)) (ok 9))".to_vec());
    all.push(b"(tx 2 e2 7 100 50 ((2 set)) ((f2 500 fee 50)) (ok 9))".to_vec());
    all.push(b"(charges)".to_vec());
    all.push(b"(pool 0 0 byte 10 3 100 10 12000000 10000000)".to_vec());
    all.push(b"(tx 1 e1 local 100 50 ((1 set)) ((f1 500 fee 50)) (ok 9))".to_vec());
    all.push(b"(list)".to_vec());
}

/// All box records used: the ninth of these transactions finds none (27), and the tenth, which asks for as many as are left, does.
fn full(all: &mut Vec<Vec<u8>>) {
    all.push(b"(pool 100 0 byte 10 3 100 10 12000000 10000000)".to_vec());
    let outputs = |tx: usize, n: usize| (0..n).map(|i| format!("({tx:x}{i:03x} 9 pay 1)")).collect::<Vec<_>>().join(" ");
    for tx in 1..=8 {
        all.push(format!("(tx 1 {tx:x}0 local 100 50 ((aa{tx:x} set)) ({} (fee{tx:x} 900 fee 1)) (ok 9))", outputs(tx, 125)).into_bytes());
    }
    all.push(format!("(tx 1 90 local 100 50 ((aa9 set)) ({} (fee9 900 fee 1)) (ok 9))", outputs(9, 7)).into_bytes());
    all.push(format!("(tx 1 90 local 100 50 ((aa9 set)) ({} (fee9 900 fee 1)) (ok 9))", outputs(9, 6)).into_bytes());
    all.push(b"(len)".to_vec());
}

/// A space put in at every place, one taken away at every place that has one, and two for one.
fn spaces(form: &str, all: &mut Vec<Vec<u8>>) {
    let bytes = form.as_bytes();
    for at in 0..=bytes.len() {
        let mut more = bytes.to_vec();
        more.insert(at, b' ');
        all.push(more);
    }
    for at in (0..bytes.len()).filter(|&at| bytes[at] == b' ') {
        let mut less = bytes.to_vec();
        less.remove(at);
        all.push(less);
    }
}

/// A byte that is no space and no digit, before, inside and behind.
fn foreign(form: &str, all: &mut Vec<Vec<u8>>) {
    let bytes = form.as_bytes();
    for byte in [b'\t', b'\r', 0, 0x0b, 0x1f, 0x7f, 0x80, 0xa0, 0xff] {
        for at in [0, 1, bytes.len() / 2, bytes.len() - 1, bytes.len()] {
            let mut line = bytes.to_vec();
            line.insert(at, byte);
            all.push(line);
        }
    }
}

/// Numbers at, one beyond and far beyond their fields' widths, with and without leading zeros.
fn widths(all: &mut Vec<Vec<u8>>) {
    let wide = ["0", "18446744073709551615", "18446744073709551616", "018446744073709551615", "99999999999999999999999", "-1", "1e3", ""];
    let small = ["0", "4294967295", "4294967296", "0000004294967295", "18446744073709551615", "42949672960"];
    for n in wide {
        all.push(format!("(top {n})").into_bytes());
        all.push(format!("(contains {n} a1)").into_bytes());
        all.push(format!("(tx {n} c1 7 100 50 () () (none))").into_bytes());
        all.push(format!("(tx 1 c1 {n} 100 50 () () (none))").into_bytes());
        all.push(format!("(tx 1 c1 local 100 50 () ((d1 {n} pay 1)) (none))").into_bytes());
        all.push(format!("(tx 1 c1 local 100 50 () () (ok {n}))").into_bytes());
        all.push(format!("(pool 5 {n} byte 10 3 100 10 12000000 10000000)").into_bytes());
        all.push(format!("(pool 5 0 byte 10 3 100 10 {n} 10000000)").into_bytes());
    }
    for n in small {
        all.push(format!("(tx 1 c2 local 100 {n} () () (none))").into_bytes());
        all.push(format!("(tx 1 c2 local 100 50 () ((d1 5 pay {n})) (none))").into_bytes());
    }
    all.push([b"(top ".to_vec(), vec![b'0'; 300], b"2)".to_vec()].concat());
}

/// Ids of 1, 63, 64 and 65 digits, of either case, and what is none.
fn ids(all: &mut Vec<Vec<u8>>) {
    let digits = "ABCDEFabcdef0123456789".repeat(4);
    for length in [1, 2, 15, 16, 17, 31, 32, 33, 48, 63, 64, 65, 66] {
        all.push(format!("(contains 1 {})", &digits[..length]).into_bytes());
        all.push(format!("(tx 1 {} local 100 50 ((1 set)) ((b{length} 900 fee 50)) (ok 9))", &digits[..length]).into_bytes());
        all.push(format!("(spending {}1)", "0".repeat(length - 1)).into_bytes());
        all.push(b"(list)".to_vec());
    }
    for word in ["g", "0x1", "a-1", "a_1", "A1", "a1 a1", "(a1)"] {
        all.push(format!("(spending {word})").into_bytes());
    }
}

/// Nested and unbalanced brackets: no form is as deep as a line may be.
fn brackets(all: &mut Vec<Vec<u8>>) {
    for depth in 1..=12 {
        all.push(format!("{}{}", "(".repeat(depth), ")".repeat(depth)).into_bytes());
        all.push(format!("{}len{}", "(".repeat(depth), ")".repeat(depth)).into_bytes());
        all.push(format!("(len {}{})", "(".repeat(depth), ")".repeat(depth)).into_bytes());
        all.push(format!("{}len{}", "( ".repeat(depth), " )".repeat(depth)).into_bytes());
    }
    let broken = ["", " ", "(", ")", ")(", "(len", "len)", "(len))", "((len)", "(len)(len)", "(len) (len)", "len", "(len) len", "(()())", "(() ())", "( ( ) )"];
    for line in broken {
        all.push(line.as_bytes().to_vec());
    }
}

/// The greatest length, one more and many more: the same form, with spaces before, behind or inside.
fn lengths(all: &mut Vec<Vec<u8>>) {
    for length in [4095, 4096, 4097, 4098, 8192, 20000] {
        let fill = length - "(len)".len();
        all.push([b"(len)".to_vec(), vec![b' '; fill]].concat());
        all.push([vec![b' '; fill], b"(len)".to_vec()].concat());
        all.push([b"(len".to_vec(), vec![b' '; fill], b")".to_vec()].concat());
        all.push([b"(len".to_vec(), vec![b'n'; fill], b")".to_vec()].concat());
    }
}
