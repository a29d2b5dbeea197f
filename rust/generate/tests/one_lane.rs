//! Demand 3 on the oracle: one lane of a run is the run of that lane.

use generate::{lane_bytes, memory_for, narrow, narrow_memory, well_typed_text};
use generate::{Random, Wishes, BLOCK_LENGTHS};
use oracle::{run, variables};

/// The budget of the full runs.
const BUDGET: u32 = 2000;

/// A program with no `scalar` and one block length, its length, and a memory.
fn program(index: u64) -> (Vec<u8>, usize, Vec<u8>) {
    let mut random = Random::new(31, index);
    let length = *random.pick(&BLOCK_LENGTHS);
    let wishes = Wishes::one_length(length, &mut random);
    let text = well_typed_text(&wishes, &mut random);
    let mut memory = memory_for(&text, &mut random);
    memory.resize(oracle::judge(&text).need as usize, 0x77);
    (text, length, memory)
}

/// Checks one lane of a run that took these steps and left this memory.
fn check_lane(text: &[u8], memory: &[u8], lane: usize, steps: u32, left: &[u8]) {
    let narrowed = narrow(text);
    assert_eq!(narrowed.len(), text.len());
    let mut single = narrow_memory(text, memory, lane, 0xee);
    let answer = run(&narrowed, &mut single, BUDGET);
    assert_eq!(answer.code, 0, "{}", String::from_utf8_lossy(&narrowed));
    assert!(answer.steps <= steps);
    let (full, narrow) = (variables(text), variables(&narrowed));
    assert_eq!(full.rows.len(), narrow.rows.len());
    for (from, to) in full.rows.iter().zip(&narrow.rows) {
        assert_eq!((from.place, from.kind, to.length), (to.place, to.kind, 1));
        let text = String::from_utf8_lossy(text);
        assert_eq!(
            lane_bytes(from, left, lane),
            lane_bytes(to, &single, 0),
            "{text}"
        );
    }
}

#[test]
fn one_lane_of_a_run_is_the_run_of_that_lane() {
    let mut checked = 0;
    let mut long = 0;
    let mut fewer = 0;
    let mut floats = 0;
    for index in 0..1500 {
        let (text, length, memory) = program(index);
        let mut left = memory.clone();
        let answer = run(&text, &mut left, BUDGET);
        if answer.code != 0 || !text.windows(5).any(|bytes| bytes == b"block") {
            continue;
        }
        for lane in 0..length {
            check_lane(&text, &memory, lane, answer.steps, &left);
        }
        checked += 1;
        long += usize::from(length > 16);
        floats += usize::from(variables(&text).rows.iter().any(|row| row.kind == 2));
        let mut single = narrow_memory(&text, &memory, 0, 0);
        fewer += usize::from(run(&narrow(&text), &mut single, BUDGET).steps < answer.steps);
    }
    assert!(
        checked > 500 && long > 150 && fewer > 100 && floats > 200,
        "{checked} runs, {long} of long blocks, {fewer} with fewer steps, {floats} with floats"
    );
}

#[test]
fn other_lanes_make_no_difference() {
    for index in 0..600 {
        let (text, length, memory) = program(index);
        let mut random = Random::new(32, index);
        let lane = random.below(length);
        let mut other = memory_for(&text, &mut random);
        other.resize(memory.len(), 0);
        let rows = variables(&text).rows;
        for row in &rows {
            let bytes = lane_bytes(row, &memory, lane);
            let chosen = if row.length == 1 { 0 } else { lane };
            let at = row.address as usize + chosen * bytes.len();
            other[at..at + bytes.len()].copy_from_slice(bytes);
        }
        let mut memory = memory;
        let ended = run(&text, &mut memory, BUDGET).code == 0;
        if ended && run(&text, &mut other, BUDGET).code == 0 {
            for row in &rows {
                assert_eq!(
                    lane_bytes(row, &memory, lane),
                    lane_bytes(row, &other, lane)
                );
            }
        }
    }
}

#[test]
fn scalar_must_be_left_out() {
    let text = b"int block[2] v; int s; if (v < 1) scalar s = 1; else ;";
    let mut memory = vec![0; 12];
    memory[0] = 5;
    let mut left = memory.clone();
    assert_eq!(run(text, &mut left, BUDGET).code, 0);
    let mut single = narrow_memory(text, &memory, 0, 0);
    assert_eq!(run(&narrow(text), &mut single, BUDGET).code, 0);
    assert_eq!((left[8], single[4]), (1, 0));
}

#[test]
fn narrowing_keeps_every_place() {
    for (text, narrowed) in [
        ("int block[16] a;", "int block[1 ] a;"),
        ("bool block[64] a;", "bool block[1 ] a;"),
        (
            "int block[8] a; bool block[1] b;",
            "int block[1] a; bool block[1] b;",
        ),
        (
            "int block // block[4]\n [ 2 ] a;",
            "int block // block[4]\n [ 1 ] a;",
        ),
        (
            "int//\nblock//[\n[//8\n16//\n]a;",
            "int//\nblock//[\n[//8\n1 //\n]a;",
        ),
        (
            "int block[2]a;int block[4]c=a;",
            "int block[1]a;int block[1]c=a;",
        ),
        ("// block[4]", "// block[4]"),
    ] {
        assert_eq!(narrow(text.as_bytes()), narrowed.as_bytes());
    }
}
