//! Patterns of singles, as memories hold them, and constants, well formed and nearly so.

use crate::random::Random;

/// Sizes that rounding, cancelling and the limits turn on, without their signs.
const EDGES: [u32; 16] = [
    0x0000_0000, // zero
    0x0000_0001, // the smallest above it
    0x007f_ffff, // the largest subnormal
    0x0080_0000, // the smallest normal
    0x3380_0000, // half of what 1 is apart from the next
    0x3f00_0000, // a half
    0x3f7f_ffff,
    0x3f80_0000, // one
    0x3f80_0001,
    0x4b7f_ffff, // 2 to the 24th less one
    0x4b80_0000, // 2 to the 24th
    0x4b80_0001,
    0x5f80_0000, // its square is past the largest
    0x7300_0000, // half of what the largest is apart from the next below
    0x7f7f_ffff, // the largest
    0x7f80_0000, // infinity
];

/// Constants at the limits.
const EDGE_CONSTANTS: [&str; 7] = [
    "16777216.0",
    "16777215.0",
    "16777214.0",
    "8388609.0",
    "8388607.0",
    "65537.0",
    "0.0",
];

/// What is nearly a constant: malformed, larger, or in two tokens.
pub const NEAR_CONSTANTS: [&str; 22] = [
    "1.",
    "1.00",
    "1.01",
    "1.5",
    "0.5",
    "01.0",
    "00.0",
    "0.",
    ".0",
    ".5",
    "1 .0",
    "1. 0",
    "1.0x",
    "1.0.0",
    "1..0",
    "1.0e1",
    "1.x",
    "16777217.0",
    "16777216.5",
    "2147483648.0",
    "4294967297.0",
    "99999999999.0",
];

/// A constant: small mostly, at a limit or any.
pub fn constant(random: &mut Random) -> String {
    match random.below(5) {
        0 => random.token(&EDGE_CONSTANTS).into(),
        1 => format!("{}.0", random.below((1 << 24) + 1)),
        _ => format!("{}.0", random.below(20)),
    }
}

/// A pattern: a small number often, with or without a half, or one at the limits, beside one, of
/// a tie, a subnormal, a not-a-number, a zero, an infinity, or any.
pub fn pattern(random: &mut Random) -> u32 {
    let sign = (random.below(2) as u32) << 31;
    match random.below(20) {
        0 => sign | *random.pick(&EDGES),
        1 => (sign | *random.pick(&EDGES))
            .wrapping_add(random.below(5) as u32)
            .wrapping_sub(2),
        2 => sign | random.below(0x80_0000) as u32,
        3 => sign | tie(random),
        4 => random.bits() as u32,
        5..=6 => sign,
        7..=8 => sign | 0x7f80_0000,
        9..=12 => sign | not_a_number(random),
        13..=14 => (random.between(0, 25) as f32 - 6.5).to_bits(),
        _ => (random.between(0, 25) as f32 - 6.0).to_bits(),
    }
}

/// A not-a-number without its sign: the one that is stored, another quiet one, or a signalling one.
fn not_a_number(random: &mut Random) -> u32 {
    let fraction = match random.below(6) {
        0..=1 => 0x40_0000,
        2 => 0x40_0000 | random.below(0x40_0000) as u32,
        3 => 1,
        4 => 0x7f_ffff,
        _ => 1 + random.below(0x3f_ffff) as u32,
    };
    0x7f80_0000 | fraction
}

/// A number with few digits at an exponent near 2 to the 24th's or at its other end, so that sums
/// and products of two are often ties.
fn tie(random: &mut Random) -> u32 {
    let exponent = *random.pick(&[
        1, 2, 24, 63, 64, 102, 103, 126, 127, 128, 149, 150, 151, 152, 190, 254,
    ]);
    let fraction = *random.pick(&[0, 1, 2, 3, 0x40_0000, 0x40_0001, 0x7f_fffe, 0x7f_ffff]);
    exponent << 23 | fraction
}
