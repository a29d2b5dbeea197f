//! The mask of the step that is due.

use oracle as side;

#[path = "../../cases/common.rs"]
mod common;

use common::ints;
use oracle::Program;

/// Place and mask, lane 0 first, of every step of a run over this memory.
fn watched(text: &str, memory: &[u8]) -> Vec<(u32, String)> {
    let program = Program::prepare(text.as_bytes()).unwrap();
    let mut steps = Vec::new();
    for budget in 0.. {
        let (answer, due) = program.run_watched(&mut memory.to_vec(), budget);
        let due = match due {
            Some(due) => due,
            None => {
                assert_eq!((answer.code, answer.steps), (0, budget));
                break;
            }
        };
        assert_eq!(answer.code, 13);
        let lanes = (0..due.length).map(|lane| if due.mask >> lane & 1 == 1 { '1' } else { '0' });
        steps.push((answer.place, lanes.collect()));
    }
    steps
}

#[test]
fn nested_branches() {
    let text = "bool block[4] m; int block[4] s; if (m) { if (s < 5) s = 1; else s = 2; } else ;";
    let mut memory = vec![1, 0, 1, 1, 0, 0, 0, 0, 0, 0, 0, 0, 0, 0, 0, 0];
    memory.extend(ints(&[4, 4, 25, 3]));
    let steps = watched(text, &memory);
    let steps: Vec<_> = steps
        .iter()
        .map(|(place, mask)| (*place, &mask[..]))
        .collect();
    let expected = [
        (0, "1"),
        (17, "1"),
        (33, "1"),
        (42, "1011"),
        (53, "1001"),
        (65, "0010"),
        (79, "0100"),
    ];
    assert_eq!(steps, expected);
}

#[test]
fn lanes_still_in_a_loop() {
    let text = "int block[2] n; while (0 < n) n = n - 1;";
    let masks: Vec<_> = watched(text, &ints(&[2, 1]))
        .into_iter()
        .map(|(_, mask)| mask)
        .collect();
    assert_eq!(masks, ["1", "11", "11", "11", "10", "10"]);
}

#[test]
fn a_mask_has_64_lanes() {
    let text = "int block[64] n; while (0 < n) n = n - 1;";
    let mut lanes = [0; 64];
    (lanes[0], lanes[63]) = (1, 2);
    let steps = watched(text, &ints(&lanes));
    let (every, both) = ("1".repeat(64), format!("1{}1", "0".repeat(62)));
    let last = format!("{}1", "0".repeat(63));
    let expected = ["1", &every, &both, &both, &last, &last];
    let masks: Vec<_> = steps.iter().map(|(_, mask)| &mask[..]).collect();
    assert_eq!(masks, expected);
}

#[test]
fn scalar_has_one_lane_and_a_short_memory_none() {
    let text = "bool block[2] m; if (m) scalar ; else ;";
    let steps = watched(text, &[0, 1]);
    let steps: Vec<_> = steps
        .iter()
        .map(|(place, mask)| (*place, &mask[..]))
        .collect();
    assert_eq!(steps, [(0, "1"), (17, "1"), (31, "1"), (38, "10")]);
    let program = Program::prepare(text.as_bytes()).unwrap();
    let (answer, due) = program.run_watched(&mut [0], 0);
    assert_eq!((answer.code, due), (12, None));
}
