//! Document 02, R-2: the arithmetic of singles against the hardware's, on the archive.

use ruihmento as side;

#[path = "../../cases/common.rs"]
mod common;
#[path = "../../cases/singles.rs"]
mod singles;
