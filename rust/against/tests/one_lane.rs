//! Demand 3 on the archive: one lane of a run is the run of that lane.

use generate::{memory_for, narrow, well_typed_text, Random, Wishes, BLOCK_LENGTHS};
use ruihmento::{run, variables, Kind, Variable, Variables};
use std::ops::Range;

/// The budget of the full runs.
const BUDGET: u32 = 2000;

/// A program with no `scalar` and one block length, its length, and a memory.
fn program(index: u64) -> (Vec<u8>, usize, Vec<u8>) {
    let mut random = Random::new(47, index);
    let length = *random.pick(&BLOCK_LENGTHS);
    let wishes = Wishes::one_length(length, &mut random);
    let text = well_typed_text(&wishes, &mut random);
    let mut memory = memory_for(&text, &mut random);
    memory.resize(ruihmento::judge(&text).need, 0x77);
    (text, length, memory)
}

/// Where one lane of a variable lies; a variable of length 1 is its own lane.
fn lane_range(variable: &Variable<'_>, lane: usize) -> Range<usize> {
    let size = variable.kind.size();
    let lane = if variable.length == 1 { 0 } else { lane };
    let start = variable.address + lane * size;
    start..start + size
}

/// A memory for the narrowed text: each variable starts from its lane's bytes, every other byte
/// is 0xee.
fn narrow_memory(full: &Variables, single: &Variables, memory: &[u8], lane: usize) -> Vec<u8> {
    let mut narrowed = vec![0xee; single.need];
    for (from, to) in full.list.iter().zip(&single.list) {
        narrowed[to.range()].copy_from_slice(&memory[lane_range(from, lane)]);
    }
    narrowed
}

/// Checks every lane of a run that took these steps and left this memory; gives how many lanes
/// took fewer steps by themselves.
fn check_lanes(text: &[u8], length: usize, memory: &[u8], steps: u32, left: &[u8]) -> usize {
    let narrowed = narrow(text);
    let shown = String::from_utf8_lossy(text);
    let full = variables(text).expect("the program is accepted");
    let single = variables(&narrowed).expect("the narrowed program is accepted");
    assert_eq!(full.list.len(), single.list.len());
    let mut fewer = 0;
    for lane in 0..length {
        let mut alone = narrow_memory(&full, &single, memory, lane);
        let answer = run(&narrowed, &mut alone, BUDGET);
        assert_eq!((answer.code, answer.place), (0, 0), "{shown}");
        assert!(answer.steps <= steps, "lane {lane} of {shown}");
        fewer += usize::from(answer.steps < steps);
        for (from, to) in full.list.iter().zip(&single.list) {
            assert_eq!((from.name, from.place), (to.name, to.place));
            assert_eq!((from.kind, to.length), (to.kind, 1));
            let (lanes, own) = (&left[lane_range(from, lane)], &alone[to.range()]);
            assert_eq!(lanes, own, "lane {lane} of `{}` in {shown}", from.name);
        }
    }
    fewer
}

/// Whether an accepted text has floats.
fn has_floats(text: &[u8]) -> bool {
    let listed = variables(text).expect("the program is accepted");
    listed
        .list
        .iter()
        .any(|variable| variable.kind == Kind::Float)
}

#[test]
fn one_lane_of_a_run_is_the_run_of_that_lane() {
    let (mut checked, mut fewer, mut floats) = ([0; BLOCK_LENGTHS.len()], 0, 0);
    for index in 0..3000 {
        let (text, length, memory) = program(index);
        let mut left = memory.clone();
        let answer = run(&text, &mut left, BUDGET);
        if answer.is_ended() {
            fewer += check_lanes(&text, length, &memory, answer.steps, &left);
            let of_length = BLOCK_LENGTHS.iter().position(|known| *known == length);
            checked[of_length.expect("it is one of the lengths")] += 1;
            floats += usize::from(has_floats(&text));
        }
    }
    assert!(checked.iter().all(|runs| *runs > 300), "{checked:?} runs");
    assert!(fewer > 1000, "{fewer} lanes took fewer steps");
    assert!(floats > 600, "{floats} runs with floats");
}

#[test]
fn other_lanes_make_no_difference() {
    let mut checked = 0;
    for index in 0..3000 {
        let (text, length, mut memory) = program(index);
        let mut random = Random::new(48, index);
        let lane = random.below(length);
        let mut other = memory_for(&text, &mut random);
        other.resize(memory.len(), 0);
        let listed = match variables(&text) {
            Ok(listed) => listed,
            Err(_) => continue, // Above 4,096 bytes.
        };
        let lanes = || {
            listed
                .list
                .iter()
                .map(|variable| lane_range(variable, lane))
        };
        lanes().for_each(|at| other[at.clone()].copy_from_slice(&memory[at]));
        let ended = run(&text, &mut memory, BUDGET).is_ended();
        if ended && run(&text, &mut other, BUDGET).is_ended() {
            lanes().for_each(|at| assert_eq!(memory[at.clone()], other[at]));
            checked += 1;
        }
    }
    assert!(checked > 1500, "{checked} pairs of runs");
}

/// Why demand 3 leaves `scalar` out: it reaches lanes that are off.
#[test]
fn scalar_must_be_left_out() {
    let text = b"int block[2] v; int s; if (v < 1) scalar s = 1; else ;";
    let narrowed = narrow(text);
    let (full, single) = (variables(text).unwrap(), variables(&narrowed).unwrap());
    let mut memory = vec![0; 12];
    memory[0] = 5;
    let mut alone = narrow_memory(&full, &single, &memory, 0);
    assert!(run(text, &mut memory, BUDGET).is_ended());
    assert!(run(&narrowed, &mut alone, BUDGET).is_ended());
    assert_eq!((memory[8], alone[4]), (1, 0));
}
