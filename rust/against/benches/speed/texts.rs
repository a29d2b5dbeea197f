//! The texts that are judged and run, and their memories.

use generate::pieces;

/// Four small texts of document 01.
pub const SMALL: [&str; 4] = [
    "int x = 2147483647 + 1;",
    "int block[2] a; if (a < 5) a = 9; else a = 0;",
    "int block[2] n; while (0 < n) n = n - 1;",
    "bool block[4] m; int s; if (m) scalar s = 1; else ;",
];

/// The nested test of document 01's routine.
pub const TEST: &str = "if (ok) { if (s < t) s = s + t; else s = s - t; } else ;";

/// The declarations of document 01's routine, for blocks of this length.
pub fn declarations(length: usize) -> String {
    format!("bool block[{length}] ok; int block[{length}] s; int block[{length}] t = 10; ")
}

/// Document 01's routine, for blocks of this length.
pub fn routine(length: usize) -> String {
    declarations(length) + TEST
}

/// The memory of document 01's routine, its samples repeated for blocks of this length.
pub fn routine_memory(length: usize) -> Vec<u8> {
    let mut memory = flags(length);
    memory.resize(4 * length, 0xaa);
    memory.extend(samples(length));
    memory.resize(12 * length + 16, 0xaa);
    memory
}

/// A routine as a collector may have it, about 300 bytes long: samples outside their range are
/// set to its end and counted, and a lane that is outside too often raises its alarm.
pub fn ranges(length: usize) -> String {
    format!(
        "bool block[{length}] ok; int block[{length}] s;\n\
         int block[{length}] out; bool block[{length}] alarm;\n\
         int low = 5; int high = 80; // the range\n\
         if (ok) {{\n  \
           if (s < low) {{ s = low; out = out + 1; }}\n  \
           else if (s > high) {{ s = high; out = out + 1; }}\n  \
           else if (out > 0) out = out - 1; else ;\n  \
           alarm = out >= 3;\n\
         }} else alarm = false;\n"
    )
}

/// A memory for `ranges`: as the routine's, with every count 2 and no alarm.
pub fn ranges_memory(length: usize) -> Vec<u8> {
    let mut memory = routine_memory(length);
    memory.truncate(8 * length);
    memory.extend((0..length).flat_map(|_| 2i32.to_le_bytes()));
    memory.resize(13 * length + 16, 0);
    memory
}

/// Every second sample arrived.
fn flags(length: usize) -> Vec<u8> {
    (0..length).map(|lane| u8::from(lane % 2 == 0)).collect()
}

/// The samples of document 01's routine, repeated, as bytes.
fn samples(length: usize) -> impl Iterator<Item = u8> {
    (0..length).flat_map(|lane| [4i32, 7, 25, 90][lane % 4].to_le_bytes())
}

/// Counts down in every lane at once: 2·turns + 2 steps.
pub fn countdown(length: usize, turns: usize) -> String {
    format!("int block[{length}] n = {turns}; while (0 < n) n = n - 1;")
}

/// Each lane adds up the numbers from its own down to one.
pub fn sum(length: usize) -> String {
    format!(
        "int block[{length}] n; int block[{length}] a = 0; \
         while (0 < n) {{ a = a + n; n = n - 1; }}"
    )
}

/// Four products and four sums in every lane.
pub fn products(length: usize) -> String {
    format!(
        "int block[{length}] n; int block[{length}] a; \
         a = a * n + n; a = a * 3 - n; a = n - a * n; a = a * n + a;"
    )
}

/// The same text in floats: every int a float, every number a constant of one.
pub fn in_floats(text: &[u8]) -> Vec<u8> {
    let mut floats = Vec::new();
    for piece in pieces(text) {
        let length = floats.ends_with(b"block[");
        match piece.bytes {
            b"int" => floats.extend(b"float"),
            [b'0'..=b'9', ..] if !length => floats.extend([piece.bytes, b".0"].concat()),
            other => floats.extend(other),
        }
    }
    floats
}

/// The memory of `sum`: 10, 20, 30 .., so that the lanes leave the loop one by one.
pub fn counters(length: usize) -> Vec<u8> {
    let counters = (1..=length as i32).map(|lane| 10 * lane);
    let mut memory: Vec<u8> = counters.flat_map(i32::to_le_bytes).collect();
    memory.resize(8 * length, 0xaa);
    memory
}

/// This text over and over behind a start, filled up with spaces to so many bytes.
pub fn filled(bytes: usize, start: &str, again: &str, end: &str) -> String {
    let times = (bytes - start.len() - end.len()) / again.len();
    format!("{:bytes$}", format!("{start}{}{end}", again.repeat(times)))
}
