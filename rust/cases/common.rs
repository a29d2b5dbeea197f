//! What the tests of both sides share: answers as four numbers, memories as ints. A test names the side that it is
//! about: `use ruihmento as side` or `use oracle as side`.
#![allow(dead_code)]
// A place and a need are `usize` on one side and `u32` on the other.
#![allow(clippy::unnecessary_cast)]

use crate::side::{judge, run, Answer};

/// A budget that suffices for every run here that ends.
pub const PLENTY: u32 = 10_000;

/// The most bytes of memory that a text can need.
pub const MOST_NEED: usize = 16_384;

/// The routine of document 01.
pub const ROUTINE: &str = "bool block[4] ok; int block[4] s; int block[4] t = 10; \
    if (ok) { if (s < t) s = s + t; else s = s - t; } else ;";

/// The memory of document 01's routine.
pub fn routine_memory() -> Vec<u8> {
    let mut memory = vec![1, 0, 1, 0];
    memory.extend([0xaa; 12]);
    memory.extend(ints(&[4, 7, 25, 90]));
    memory.extend([0xaa; 16]);
    memory
}

/// The four numbers in document 01's order.
pub fn numbers(answer: Answer) -> [u32; 4] {
    let (place, need) = (answer.place as u32, answer.need as u32);
    [answer.code, place, need, answer.steps]
}

/// These ints as little-endian bytes.
pub fn ints(values: &[i32]) -> Vec<u8> {
    let bytes = values.iter().flat_map(|value| value.to_le_bytes());
    bytes.collect()
}

/// The judge's code and place. A run must answer the same and keep every byte; need and steps of
/// a refusal are 0.
pub fn verdict(text: impl AsRef<[u8]>) -> (u32, u32) {
    let text = text.as_ref();
    let answer = judge(text);
    assert_eq!(answer.steps, 0);
    if answer.code != 0 {
        let mut memory = [0x5a; MOST_NEED];
        assert_eq!(run(text, &mut memory, PLENTY), answer);
        assert_eq!((answer.need, memory), (0, [0x5a; MOST_NEED]));
    }
    (answer.code, answer.place as u32)
}

/// Runs with plenty of budget over this memory; gives the four numbers and the memory after.
pub fn after(text: &str, memory: &[u8]) -> ([u32; 4], Vec<u8>) {
    let mut memory = memory.to_vec();
    let answer = run(text.as_bytes(), &mut memory, PLENTY);
    (numbers(answer), memory)
}

/// Runs over ints; the run must end, and gives its steps and the ints after.
pub fn ints_after(text: &str, values: &[i32]) -> (u32, Vec<i32>) {
    let (answer, memory) = after(text, &ints(values));
    assert_eq!((answer[0], answer[1]), (0, 0), "{text}");
    let values = memory.chunks_exact(4);
    let values = values.map(|bytes| i32::from_le_bytes(bytes.try_into().unwrap()));
    (answer[3], values.collect())
}
