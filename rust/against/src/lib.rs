//! The proved archive and the independent implementation against each other.
//!
//! [`sweep`] takes generated cases, one after another, and makes every call of a [`Plan`] on
//! both: the number returned, every byte of the answer slice and every byte of memory, images or
//! table must be equal, and no byte round them may change.
#![forbid(unsafe_code)]
#![warn(missing_docs)]

mod call;
mod compare;
mod plan;
mod services;
pub mod show;
mod sweep;

pub use call::{Call, Images, Left, Service};
pub use compare::{compare, smallest, Difference, Made};
pub use plan::Plan;
pub use services::{Archive, Oracle, Services};
pub use sweep::{sweep, Found, Tally};
