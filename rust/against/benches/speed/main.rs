//! How fast the archive judges and runs, against the independent implementation, and two kernels
//! beside C and Lua.
//!
//! `cargo bench -p against` prints the tables of docs/PERFORMANCE.md; `images` behind `--` prints
//! one of them alone, and numbers there choose the lanes of the blocks, as `images 4 16`. All sides
//! of a row are timed in turn, round after round, and each one's best round counts.

mod calls;
mod floats;
mod growth;
mod images;
mod lanes;
mod peer;
mod texts;
mod timing;

/// Prints a table, of blocks with so many lanes.
type Print = fn(&[usize]);

/// The tables, by the word that chooses one.
const TABLES: [(&str, Print); 5] = [
    ("calls", calls::print),
    ("images", images::print),
    ("lanes", lanes::print),
    ("floats", floats::print),
    ("growth", growth::print),
];

/// The lanes of the blocks, where nothing else is said.
const LANES: [usize; 3] = [4, 16, 64];

fn main() {
    // Cargo itself adds `--bench`.
    let chosen: Vec<String> = std::env::args().skip(1).collect();
    let named = |name: &str| chosen.iter().any(|word| word == name);
    let any = TABLES.iter().any(|(name, _)| named(name));
    let mut lanes: Vec<usize> = chosen.iter().filter_map(|word| word.parse().ok()).collect();
    if lanes.is_empty() {
        lanes = LANES.to_vec();
    }
    for (name, print) in TABLES {
        if named(name) || !any {
            print(&lanes);
            println!();
        }
    }
}
