//! Random and mutated bytes: whatever they are, each line has to be answered.

use std::io::{self, Write};

use oracle::forms;
use oracle::rng::Rng;

use crate::gen;
use crate::profiles::PROFILES;

/// Writes so many bytes: lines of scripts as they are or with bytes changed, put in or taken away, and runs of random bytes, some of them long.
pub fn write(bytes: usize, seed: u64, only: Option<&[String]>) -> io::Result<()> {
    let mut rng = Rng::new(seed);
    let mut out: Vec<u8> = Vec::with_capacity(bytes + 8192);
    let mut part = seed;
    while out.len() < bytes {
        part += 1;
        for profile in PROFILES {
            for line in forms::lines(&gen::script(part, profile, gen::LINES, only)) {
                let mut line = line.to_vec();
                match rng.below(4) {
                    0 => {}
                    1 => line = random(&mut rng),
                    _ => mutate(&mut rng, &mut line),
                }
                out.append(&mut line);
                out.push(b'\n');
            }
        }
    }
    out.truncate(bytes);
    io::stdout().lock().write_all(&out)
}

fn random(rng: &mut Rng) -> Vec<u8> {
    let length = if rng.chance(2) { rng.between(4000, 9000) } else { rng.below(80) };
    (0..length).map(|_| rng.next() as u8).collect()
}

fn mutate(rng: &mut Rng, line: &mut Vec<u8>) {
    for _ in 0..rng.between(1, 4) {
        if line.is_empty() {
            return;
        }
        let at = rng.below(line.len() as u64) as usize;
        let byte = if rng.chance(50) { rng.next() as u8 } else { rng.pick(b" ()0a9F\t\r\0") };
        match rng.below(4) {
            0 => line[at] = byte,
            1 => line.insert(at, byte),
            2 => line.insert(at, line[at]),
            _ => drop(line.remove(at)),
        }
    }
}
