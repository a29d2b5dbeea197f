//! One lane of a program as a program of its own, for demand 3.

use crate::pieces::{pieces, Piece};
use oracle::Row;

/// The text with every block longer than one made single: in each `block[N]` with N above 1 the
/// first digit becomes `1` and any other a space, so that every place stays.
pub fn narrow(text: &[u8]) -> Vec<u8> {
    let mut narrowed = text.to_vec();
    let read: Vec<Piece<'_>> = pieces(text);
    let read: Vec<_> = read.into_iter().filter(|piece| !piece.is_space()).collect();
    for three in read.windows(3) {
        let number = three[2];
        let block = three[0].bytes == b"block" && three[1].bytes == b"[";
        if block && number.bytes[0].is_ascii_digit() && !matches!(number.bytes, b"0" | b"1") {
            let digits = &mut narrowed[number.start..number.start + number.bytes.len()];
            digits.fill(b' ');
            digits[0] = b'1';
        }
    }
    narrowed
}

/// The bytes of one lane of a variable; a variable of length 1 is its own lane.
pub fn lane_bytes<'m>(row: &Row, memory: &'m [u8], lane: usize) -> &'m [u8] {
    let size = row.lane_size();
    let lane = if row.length == 1 { 0 } else { lane };
    let at = row.address as usize + lane * size;
    &memory[at..at + size]
}

/// A memory for the narrowed text: each variable starts from its lane's bytes in the full memory,
/// and every other byte is `rest`.
pub fn narrow_memory(text: &[u8], memory: &[u8], lane: usize, rest: u8) -> Vec<u8> {
    let full = oracle::variables(text);
    let single = oracle::variables(&narrow(text));
    let mut narrowed = vec![rest; single.answer.need as usize];
    for (from, to) in full.rows.iter().zip(&single.rows) {
        let bytes = lane_bytes(from, memory, lane);
        let at = to.address as usize;
        narrowed[at..at + bytes.len()].copy_from_slice(bytes);
    }
    narrowed
}
