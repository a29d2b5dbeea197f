//! Document 02, R-2: the arithmetic of singles against the hardware's, on the independent implementation.

use oracle as side;

#[path = "../../cases/common.rs"]
mod common;
#[path = "../../cases/singles.rs"]
mod singles;
