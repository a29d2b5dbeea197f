//! Document 02, R-4: the reserved words, on the independent implementation.

use oracle as side;

#[path = "../../cases/common.rs"]
mod common;
#[path = "../../cases/reserved_words.rs"]
mod reserved_words;
