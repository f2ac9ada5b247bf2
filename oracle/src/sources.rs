//! Which files this program was built from.

use ergo_mempool::sources::SOURCES;

/// Prints the list; true if every file is the one that SOURCES.sha256 lists.
pub fn print() -> bool {
    let mut all = true;
    for (file, wanted, found) in SOURCES {
        let same = wanted == found;
        all &= same;
        println!("{found}  {file}  {}", if same { "matches" } else { "differs" });
    }
    all
}
