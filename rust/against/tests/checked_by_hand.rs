//! Document 01, "Checked by hand", on the archive.

use ruihmento as side;

#[path = "../../cases/checked_by_hand.rs"]
mod checked_by_hand;
#[path = "../../cases/common.rs"]
mod common;
