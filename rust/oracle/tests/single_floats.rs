//! Document 02, R-2: single floats, on the independent implementation.

use oracle as side;

#[path = "../../cases/common.rs"]
mod common;
#[path = "../../cases/single_floats.rs"]
mod single_floats;

/// Where the variables of an accepted text lie, in text order.
fn addresses(text: &str) -> Vec<usize> {
    let listed = side::variables(text.as_bytes());
    listed.rows.iter().map(|row| row.address as usize).collect()
}
