//! Memories and budgets for a text.

use crate::random::Random;
use crate::singles;
use oracle::Row;

/// A memory for this text: mostly as long as it needs, at times longer or shorter.
pub fn memory_for(text: &[u8], random: &mut Random) -> Vec<u8> {
    let listed = oracle::variables(text);
    let need = listed.answer.need as usize;
    let length = match random.below(20) {
        0 if need > 0 => random.below(need),
        1 if need > 0 => need - 1,
        2..=5 => need + random.between(1, 40),
        6 => need + 4096,
        7..=12 if need == 0 => random.below(70),
        _ => need,
    };
    memory_of(&listed.rows, length, random)
}

/// A memory of this length, with values in the lanes of these variables that lie in it.
pub(crate) fn memory_of(rows: &[Row], length: usize, random: &mut Random) -> Vec<u8> {
    let mut memory: Vec<u8> = match random.below(3) {
        0 => vec![0xaa; length],
        _ => (0..length).map(|_| random.byte()).collect(),
    };
    for row in rows {
        let lanes = row.length as usize;
        let apart = apart(lanes, random);
        let two = [value(row.kind, random), value(row.kind, random)];
        for lane in 0..lanes {
            let size = row.lane_size();
            let at = row.address as usize + lane * size;
            if at + size > length {
                break;
            }
            let element = &mut memory[at..at + size];
            match apart.map(|apart| apart >> lane & 1 == 1) {
                Some(apart) => put(element, two[usize::from(apart)], apart),
                None => fill(element, row.kind, random),
            }
        }
    }
    memory
}

/// Which lanes of a block stand apart from the others, one bit a lane, lane 0 lowest: none or all
/// of them, the last, one, or those from one on. Nothing where each lane is for itself.
fn apart(length: usize, random: &mut Random) -> Option<u64> {
    let every = u64::MAX >> (64 - length);
    let (one, last) = (1 << random.below(length), 1 << (length - 1));
    let apart = match random.below(12) {
        _ if length == 1 => return None,
        0 => 0,
        1 => every,
        2 => last,
        3 => every ^ last,
        4 => one,
        5 => every ^ one,
        6 => every & !(one - 1),
        _ => return None,
    };
    Some(apart)
}

/// Writes a lane: this word, or a bool that is true or not.
fn put(element: &mut [u8], value: u32, truth: bool) {
    if let [byte] = element {
        *byte = match truth {
            true => [1, 2, 128, 255][value as usize % 4],
            false => 0,
        };
        return;
    }
    element.copy_from_slice(&value.to_le_bytes());
}

/// A number of this kind; a bool of 0, 1 or another byte.
fn fill(element: &mut [u8], kind: u32, random: &mut Random) {
    if let [truth] = element {
        let other = random.byte();
        *truth = *random.pick(&[0, 0, 0, 1, 1, 2, 128, 255, other]);
        return;
    }
    element.copy_from_slice(&value(kind, random).to_le_bytes());
}

/// A word for a lane of this kind.
fn value(kind: u32, random: &mut Random) -> u32 {
    match kind {
        2 => singles::pattern(random),
        _ => int(random) as u32,
    }
}

/// A small int, one at the limits or any.
fn int(random: &mut Random) -> i32 {
    let edges = [i32::MIN, i32::MIN + 1, -1, 0, 1, i32::MAX - 1, i32::MAX];
    match random.below(6) {
        0 => *random.pick(&edges),
        1 => random.bits() as i32,
        _ => random.between(0, 25) as i32 - 6,
    }
}

/// A budget for this text: small or ample, the greatest only where nothing can loop.
pub fn budget_for(text: &[u8], random: &mut Random) -> u32 {
    let loops = text.windows(5).any(|bytes| bytes == b"while");
    match random.below(8) {
        0 => random.below(4) as u32,
        1 => random.below(20) as u32,
        2 => random.below(200) as u32,
        3 if !loops => u32::MAX - random.below(2) as u32,
        _ => 3000,
    }
}
