//! Document 01, "Errors that come easily", on the archive.

use ruihmento as side;

#[path = "../../cases/common.rs"]
mod common;
#[path = "../../cases/errors_that_come_easily.rs"]
mod errors_that_come_easily;

/// Where the variables of an accepted text lie, in text order.
fn addresses(text: &str) -> Vec<usize> {
    let listed = side::variables(text.as_bytes()).unwrap();
    listed.list.iter().map(|row| row.address).collect()
}
