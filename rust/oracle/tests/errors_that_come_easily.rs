//! Document 01, "Errors that come easily", on the independent implementation.

use oracle as side;

#[path = "../../cases/common.rs"]
mod common;
#[path = "../../cases/errors_that_come_easily.rs"]
mod errors_that_come_easily;

/// Where the variables of an accepted text lie, in text order.
fn addresses(text: &str) -> Vec<usize> {
    let listed = side::variables(text.as_bytes());
    listed.rows.iter().map(|row| row.address as usize).collect()
}
