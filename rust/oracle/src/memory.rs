//! Document 01, "Memory": addresses, and the bytes of one variable.

use crate::lanes::{Lanes, Length, Mask};
use crate::program::Variable;
use crate::singles;
use crate::tree::Kind;
use std::ops::Range;

/// Memory: "An int is 4 bytes"; document 02, R-2: "`float`, 4 bytes".
const NUMBER_SIZE: usize = 4;

/// Memory: "An int is 4 bytes ..; a bool is one byte", and "a block's elements lie side by side".
fn whole_size(kind: Kind, length: Length) -> u32 {
    match kind {
        Kind::Int | Kind::Float => NUMBER_SIZE as u32 * u32::from(length),
        Kind::Bool => u32::from(length),
    }
}

/// Memory: an address is "the next multiple of its whole size" after the end so far.
pub fn address_after(end: u32, kind: Kind, length: Length) -> u32 {
    let size = whole_size(kind, length);
    (end + size - 1) / size * size
}

impl Variable {
    /// Memory: the end of this variable's bytes.
    pub fn end(self) -> u32 {
        self.address + whole_size(self.kind, self.length)
    }

    /// Execution: "the bytes of one variable and no others".
    pub fn bytes(self) -> Range<usize> {
        self.address as usize..self.end() as usize
    }
}

/// Memory: an int is "little-endian two's complement", a bool "false exactly at 0"; document 02,
/// a float is its pattern.
pub fn load(bytes: &[u8], kind: Kind, lanes: &mut Lanes) {
    match kind {
        Kind::Int | Kind::Float => {
            for (lane, element) in lanes.iter_mut().zip(bytes.chunks_exact(NUMBER_SIZE)) {
                *lane = u32::from_le_bytes([element[0], element[1], element[2], element[3]]);
            }
        }
        Kind::Bool => {
            for (lane, element) in lanes.iter_mut().zip(bytes) {
                *lane = u32::from(*element != 0);
            }
        }
    }
}

/// Execution: "A store is handed the bytes of one variable and no others", and "writes exactly
/// the active lanes of its target"; Memory: "a true is written as 1"; document 02, R-2: "Every
/// stored not-a-number is the pattern 7FC00000".
pub fn store(bytes: &mut [u8], kind: Kind, lanes: &Lanes, active: Mask) {
    match kind {
        Kind::Int => store_numbers(bytes, lanes, active, |value| value),
        Kind::Float => store_numbers(bytes, lanes, active, singles::stored),
        Kind::Bool => {
            for (lane, (element, value)) in bytes.iter_mut().zip(lanes).enumerate() {
                if active >> lane & 1 == 1 {
                    *element = *value as u8;
                }
            }
        }
    }
}

/// Memory: "4 bytes little-endian" for each active lane, of the pattern that is stored for its value.
fn store_numbers(bytes: &mut [u8], lanes: &Lanes, active: Mask, stored: impl Fn(u32) -> u32) {
    let elements = bytes.chunks_exact_mut(NUMBER_SIZE).zip(lanes);
    for (lane, (element, value)) in elements.enumerate() {
        if active >> lane & 1 == 1 {
            element.copy_from_slice(&stored(*value).to_le_bytes());
        }
    }
}
