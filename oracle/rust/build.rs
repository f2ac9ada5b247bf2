//! Reads the Rust files of the pool, checks them against ../SOURCES.sha256,
//! applies the substitutions that SUBSTITUTIONS.md lists and leaves the result
//! in OUT_DIR/mempool. A substitution that does not find its place exactly as
//! often as expected stops the build.

use std::path::{Path, PathBuf};
use std::{env, fs};

/// One of the Rust files and everything that is done to it.
struct Source {
    /// The module's name: the file is src--mempool--src--NAME.rs.txt.
    name: &'static str,
    /// Pieces of text replaced: what, by what, how often it stands there.
    replace: &'static [(&'static str, &'static str, usize)],
    /// Lines of doc comment at the end of the file that belong to nothing.
    tail: usize,
}

// The clock: one import, or the one place that names the type in full.
const CLOCK: (&str, &str, usize) = ("std::time::Instant", "clock::Instant", 1);
const CLOCK_AND_DURATION: (&str, &str, usize) =
    ("std::time::{Duration, Instant}", "clock::{Duration, Instant}", 1);
// The last statement of `revalidate_within`: what the pass spent is reported before it.
const SPENT: (&str, &str, usize) =
    ("        removed\n    }\n", "        clock::report_spent(spent);\n        removed\n    }\n", 1);

const SOURCES: &[Source] = &[
    Source { name: "cleanup", replace: &[CLOCK, SPENT], tail: 6 },
    Source { name: "expiring_cache", replace: &[CLOCK_AND_DURATION], tail: 0 },
    Source { name: "family", replace: &[CLOCK], tail: 0 },
    Source { name: "lib", replace: &[CLOCK], tail: 0 },
    Source { name: "pool", replace: &[], tail: 0 },
    Source { name: "process", replace: &[CLOCK], tail: 0 },
    Source { name: "reader", replace: &[], tail: 0 },
    Source { name: "stats", replace: &[CLOCK_AND_DURATION], tail: 2 },
    Source { name: "types", replace: &[CLOCK_AND_DURATION], tail: 0 },
    Source { name: "weight", replace: &[], tail: 0 },
];

fn main() {
    println!("cargo:rerun-if-env-changed=MEMPOOL_SRC");
    for own in ["build.rs", "../SOURCES.sha256", "../appended"] {
        println!("cargo:rerun-if-changed={own}");
    }
    let folder = sources_folder();
    let out = PathBuf::from(env::var("OUT_DIR").unwrap());
    fs::create_dir_all(out.join("mempool")).unwrap();
    let list = fs::read_to_string("../SOURCES.sha256").expect("SOURCES.sha256");

    let mut known = String::from("pub const SOURCES: &[(&str, &str, &str)] = &[\n");
    for source in SOURCES {
        let file = format!("src--mempool--src--{}.rs.txt", source.name);
        let path = folder.join(&file);
        println!("cargo:rerun-if-changed={}", path.display());
        let bytes = fs::read(&path).unwrap_or_else(|e| {
            panic!("{}: {e}. MEMPOOL_SRC names the folder of the Rust files.", path.display())
        });
        let found = sha256(&bytes);
        let wanted = listed(&list, &file);
        if found != wanted {
            println!("cargo:warning={file} is not the file that SOURCES.sha256 lists");
        }
        known.push_str(&format!("    ({file:?}, {wanted:?}, {found:?}),\n"));

        let text = String::from_utf8(bytes).unwrap_or_else(|_| panic!("{file}: not UTF-8"));
        let text = substitute(source, text);
        fs::write(out.join("mempool").join(format!("{}.rs", source.name)), text).unwrap();
    }
    known.push_str("];\n");
    fs::write(out.join("sources.rs"), known).unwrap();
}

/// The folder that MEMPOOL_SRC names, a relative one seen from the repository's
/// root or else from `oracle`; by default docs/src of `shared`, beside the repository.
fn sources_folder() -> PathBuf {
    match env::var("MEMPOOL_SRC") {
        Ok(named) if !named.is_empty() => {
            let from_root = Path::new("../..").join(&named);
            if from_root.is_dir() { from_root } else { Path::new("..").join(named) }
        }
        _ => PathBuf::from("../../../shared/docs/src"),
    }
}

fn listed(list: &str, file: &str) -> String {
    list.lines()
        .find_map(|line| line.strip_suffix(file).map(|sum| sum.trim().to_string()))
        .unwrap_or_else(|| panic!("SOURCES.sha256 does not list {file}"))
}

fn substitute(source: &Source, mut text: String) -> String {
    let name = source.name;
    for (what, by, times) in source.replace {
        let found = text.matches(what).count();
        assert!(found == *times, "{name}: {what:?} stands there {found} times, not {times}");
        text = text.replace(what, by);
    }
    let dangling = text.lines().rev().take_while(|line| line.starts_with("///")).count();
    let tail = source.tail;
    assert!(dangling == tail, "{name}: {dangling} lines of comment at the end, not {tail}");
    let lines: Vec<&str> = text.lines().collect();
    let mut text = lines[..lines.len() - tail].join("\n");
    text.push('\n');
    let more = format!("../appended/{name}.rs");
    if Path::new(&more).exists() {
        text.push_str(&fs::read_to_string(&more).unwrap());
    }
    text
}

/// SHA-256 as FIPS 180-4 has it. The constants are the first bits of the
/// fractional parts of roots of primes, computed here with whole numbers.
fn sha256(bytes: &[u8]) -> String {
    let primes: Vec<u128> = (2u128..).filter(|n| (2..*n).all(|d| n % d != 0)).take(64).collect();
    let k: Vec<u32> = primes.iter().map(|p| root(p << 96, 3) as u32).collect();
    let mut h: Vec<u32> = primes[..8].iter().map(|p| root(p << 64, 2) as u32).collect();

    let mut message = bytes.to_vec();
    message.push(0x80);
    while message.len() % 64 != 56 {
        message.push(0);
    }
    message.extend_from_slice(&(bytes.len() as u64 * 8).to_be_bytes());

    for block in message.chunks(64) {
        let mut w: Vec<u32> =
            block.chunks(4).map(|c| u32::from_be_bytes(c.try_into().unwrap())).collect();
        for i in 16..64 {
            let (a, b) = (w[i - 15], w[i - 2]);
            let s0 = a.rotate_right(7) ^ a.rotate_right(18) ^ (a >> 3);
            let s1 = b.rotate_right(17) ^ b.rotate_right(19) ^ (b >> 10);
            w.push(w[i - 16].wrapping_add(s0).wrapping_add(w[i - 7]).wrapping_add(s1));
        }
        let mut v = h.clone();
        for i in 0..64 {
            let s1 = v[4].rotate_right(6) ^ v[4].rotate_right(11) ^ v[4].rotate_right(25);
            let choice = (v[4] & v[5]) ^ (!v[4] & v[6]);
            let t1 = v[7].wrapping_add(s1).wrapping_add(choice).wrapping_add(k[i]).wrapping_add(w[i]);
            let s0 = v[0].rotate_right(2) ^ v[0].rotate_right(13) ^ v[0].rotate_right(22);
            let most = (v[0] & v[1]) ^ (v[0] & v[2]) ^ (v[1] & v[2]);
            v.rotate_right(1);
            v[4] = v[4].wrapping_add(t1);
            v[0] = t1.wrapping_add(s0).wrapping_add(most);
        }
        for (sum, x) in h.iter_mut().zip(v) {
            *sum = sum.wrapping_add(x);
        }
    }
    h.iter().map(|word| format!("{word:08x}")).collect()
}

/// The greatest whole number whose `power` is at most `n`.
fn root(n: u128, power: u32) -> u128 {
    let (mut low, mut high) = (0u128, 1u128 << (127 / power));
    while low < high {
        let middle = (low + high).div_ceil(2);
        match middle.checked_pow(power) {
            Some(p) if p <= n => low = middle,
            _ => high = middle - 1,
        }
    }
    low
}
