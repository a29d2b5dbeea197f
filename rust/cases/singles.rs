//! Document 02, R-2: the arithmetic of singles against the hardware's, on pairs of patterns. `RUIHMENTO_PAIRS` asks
//! for more random pairs than the test has by itself.

use crate::common::PLENTY;
use crate::side::run;

/// How many random pairs there are unless more are asked for.
const PAIRS: usize = 1_000_000;

/// The lanes of one run.
const LANES: usize = 64;

/// Every operator that floats have, on two blocks.
const ROUTINE: &str = "float block[64] a; float block[64] b; \
    float s = a + b; float d = a - b; float p = a * b; float m = -a; \
    bool e = a == b; bool u = a != b; bool l = a < b; bool g = a > b; bool x = a <= b; bool y = a >= b;";

/// Sizes that rounding, cancelling and the limits turn on, without their signs.
fn sizes() -> Vec<u32> {
    let mut sizes = vec![
        0x0000_0000, // zero
        0x0000_0001, // the smallest above it
        0x0000_0002,
        0x0000_0003,
        0x0040_0000, // half of the smallest normal
        0x0040_0001,
        0x007f_fffe,
        0x007f_ffff, // the largest subnormal
        0x0080_0000, // the smallest normal
        0x0080_0001,
        0x00ff_ffff,
        0x0100_0000,
        0x0100_0001,
        0x1980_0000, // its square is half of the smallest
        0x1980_0001,
        0x1a00_0000,
        0x1fff_ffff, // its square is about the smallest normal
        0x2000_0000,
        0x3380_0000, // half of what 1 is apart from the next
        0x3380_0001,
        0x3400_0000,
        0x3f00_0000, // a half
        0x3f7f_ffff,
        0x3f80_0000, // one
        0x3f80_0001,
        0x3fc0_0000, // one and a half
        0x3fff_ffff,
        0x4000_0000, // two
        0x4040_0000, // three
        0x4b00_0000, // 2 to the 23rd
        0x4b7f_ffff, // 2 to the 24th less one
        0x4b80_0000, // 2 to the 24th
        0x4b80_0001,
        0x5f7f_ffff, // its square is the largest or past it
        0x5f80_0000,
        0x7300_0000, // half of what the largest is apart from the next below
        0x7380_0000,
        0x7e80_0000,
        0x7eff_ffff,
        0x7f00_0000,
        0x7f7f_fffe,
        0x7f7f_ffff, // the largest
        0x7f80_0000, // infinity
        0x7f80_0001, // not-a-numbers: signalling
        0x7fa5_a5a5,
        0x7fbf_ffff,
        0x7fc0_0000, // and quiet
        0x7fc0_0001,
        0x7fff_ffff,
    ];
    // Ties: a significand whose half is odd, and one whose half is even.
    for exponent in [1, 64, 127, 150, 151, 174, 175, 200, 254] {
        sizes.extend(
            [1, 3, 5, 0x40_0001, 0x55_5555, 0x7f_fffd].map(|fraction| exponent << 23 | fraction),
        );
    }
    sizes
}

/// Every size with both signs, with each other.
fn crossed() -> Vec<(u32, u32)> {
    let sizes = sizes();
    let patterns: Vec<u32> = sizes
        .iter()
        .flat_map(|size| [*size, size | 1 << 31])
        .collect();
    let pairs = patterns
        .iter()
        .flat_map(|one| patterns.iter().map(move |other| (*one, *other)));
    pairs.collect()
}

/// A splitmix64 generator.
struct Random(u64);

impl Random {
    fn bits(&mut self) -> u64 {
        self.0 = self.0.wrapping_add(0x9e37_79b9_7f4a_7c15);
        let bits = (self.0 ^ (self.0 >> 30)).wrapping_mul(0xbf58_476d_1ce4_e5b9);
        let bits = (bits ^ (bits >> 27)).wrapping_mul(0x94d0_49bb_1331_11eb);
        bits ^ (bits >> 31)
    }

    /// Two patterns: any, neighbours, of exponents that are near or that make a product near a limit, or with few
    /// digits set, so that ties are frequent.
    fn pair(&mut self) -> (u32, u32) {
        let bits = self.bits();
        let (one, other) = (bits as u32, (bits >> 32) as u32);
        let more = self.bits();
        let few = |pattern: u32| pattern & (0xff80_0000 | 0x7f_ffff << ((more >> 8) % 24));
        match more % 8 {
            0 => (one, other),
            1 => (
                one,
                (one ^ other & 1 << 31)
                    .wrapping_add((more >> 32) as u32 % 9)
                    .wrapping_sub(4),
            ),
            2..=4 => (one, near(one, other, (more >> 32) as u32 % 64)),
            5 => (few(one), few(near(one, other, (more >> 32) as u32 % 64))),
            6 => (one, against(one, other, 127, (more >> 32) as u32 % 64)),
            _ => (one, against(one, other, 381, (more >> 32) as u32 % 64)),
        }
    }
}

/// The second with an exponent near that of the first.
fn near(one: u32, other: u32, apart: u32) -> u32 {
    let exponent = (one >> 23 & 0xff).wrapping_add(apart).wrapping_sub(32) & 0xff;
    other & 0x807f_ffff | exponent << 23
}

/// The second with an exponent that sums with that of the first to about this.
fn against(one: u32, other: u32, sum: u32, apart: u32) -> u32 {
    let exponent = sum
        .wrapping_sub(one >> 23 & 0xff)
        .wrapping_add(apart)
        .wrapping_sub(32);
    other & 0x807f_ffff | exponent.min(254) << 23
}

/// The bytes of the two blocks with these pairs, and room for the results.
fn memory(pairs: &[(u32, u32)]) -> Vec<u8> {
    let mut memory = vec![0xaa; LANES * (6 * 4 + 6)];
    let (a, rest) = memory.split_at_mut(LANES * 4);
    let lanes = a.chunks_exact_mut(4).zip(rest.chunks_exact_mut(4));
    for ((a, b), (one, other)) in lanes.zip(pairs) {
        a.copy_from_slice(&one.to_le_bytes());
        b.copy_from_slice(&other.to_le_bytes());
    }
    memory
}

/// What is stored for a single of the hardware.
fn stored(single: f32) -> u32 {
    match single.is_nan() {
        true => 0x7fc0_0000,
        false => single.to_bits(),
    }
}

/// What the hardware makes of a pair: the four patterns, and the bytes of the six truths.
fn hardware((one, other): (u32, u32)) -> ([u32; 4], [u8; 6]) {
    let (a, b) = (f32::from_bits(one), f32::from_bits(other));
    let singles = [a + b, a - b, a * b, -a].map(stored);
    let truths = [a == b, a != b, a < b, a > b, a <= b, a >= b];
    (singles, truths.map(u8::from))
}

/// What a run left in one lane: the four patterns, and the bytes of the six truths.
fn left(memory: &[u8], lane: usize) -> ([u32; 4], [u8; 6]) {
    let single = |block: usize| {
        let at = (block * LANES + lane) * 4;
        u32::from_le_bytes(memory[at..at + 4].try_into().unwrap())
    };
    let truth = |block: usize| memory[6 * 4 * LANES + block * LANES + lane];
    ([2, 3, 4, 5].map(single), [0, 1, 2, 3, 4, 5].map(truth))
}

/// Runs the routine on these pairs, and compares each lane with the hardware.
fn check(pairs: &[(u32, u32)]) {
    for pairs in pairs.chunks(LANES) {
        let mut memory = memory(pairs);
        let answer = run(ROUTINE.as_bytes(), &mut memory, PLENTY);
        assert_eq!((answer.code, answer.steps), (0, 12));
        for (lane, pair) in pairs.iter().enumerate() {
            let (one, other) = pair;
            assert_eq!(
                left(&memory, lane),
                hardware(*pair),
                "{one:08x} {other:08x}"
            );
        }
    }
}

#[test]
fn exceptional_singles_with_each_other() {
    check(&crossed());
}

#[test]
fn random_pairs_of_singles() {
    let asked = std::env::var("RUIHMENTO_PAIRS").ok();
    let count = asked.map_or(PAIRS, |count| count.parse().unwrap());
    let mut random = Random(2026);
    for _ in 0..count / LANES {
        let pairs: Vec<_> = (0..LANES).map(|_| random.pair()).collect();
        check(&pairs);
    }
}
