//! Document 02, R-9: blocks of 32 and 64 lanes, on the archive.

use ruihmento as side;

#[path = "../../cases/common.rs"]
mod common;
#[path = "../../cases/longer_blocks.rs"]
mod longer_blocks;

/// Where the variables of an accepted text lie, in text order.
fn addresses(text: &str) -> Vec<usize> {
    let listed = side::variables(text.as_bytes()).unwrap();
    listed.list.iter().map(|row| row.address).collect()
}
