//! Document 02, R-9: blocks of 32 and 64 lanes, checked by hand.

use crate::addresses;
use crate::common::{after, ints, ints_after, numbers, verdict, MOST_NEED, PLENTY};
use crate::side::{judge, run};

/// The last lane of the longest block.
const LAST: usize = 63;

/// So many lanes with this value, one of them with another.
fn lanes_but<T: Copy>(length: usize, value: T, lane: usize, other: T) -> Vec<T> {
    let mut lanes = vec![value; length];
    lanes[lane] = other;
    lanes
}

#[test]
fn lengths_of_32_and_64_are_accepted() {
    let text = "bool block[32] a; bool block[64] b;";
    assert_eq!(numbers(judge(text.as_bytes())), [0, 0, 128, 0]);
    assert_eq!(addresses(text), [0, 64]);
}

#[test]
fn a_length_of_128_is_7_at_10() {
    assert_eq!(verdict("int block[128] a;"), (7, 10));
}

#[test]
fn lengths_beside_the_list_are_7_at_10() {
    for length in [24, 31, 33, 48, 63, 65, 96, 127, 320, 640, 6464] {
        assert_eq!(verdict(format!("int block[{length}] a;")), (7, 10));
    }
}

#[test]
fn declarations_of_64_lanes_need_16384_bytes() {
    let text: String = (0..64).map(|v| format!("int block[64] v{v};")).collect();
    assert_eq!(text.len(), 1142);
    assert_eq!(numbers(judge(text.as_bytes())), [0, 0, 16_384, 0]);
    let last = text + "v63 = v0 - 1;";
    let mut memory = vec![3; MOST_NEED];
    assert_eq!(after(&last, &memory).0, [0, 0, 16_384, 65]);
    memory[MOST_NEED - 256..].copy_from_slice(&[2, 3, 3, 3].repeat(64));
    assert_eq!(after(&last, &[3; MOST_NEED]).1, memory);
}

#[test]
fn the_last_of_64_lanes_takes_the_else_in_4_steps() {
    let text = "bool block[64] a; if (a) ; else a = true;";
    let memory = lanes_but(64, 1, LAST, 0);
    assert_eq!(after(text, &memory), ([0, 0, 64, 4], vec![1; 64]));
}

#[test]
fn one_of_64_lanes_runs_a_loop_in_6_steps() {
    let text = "int block[64] n; while (0 < n) n = n - 1;";
    for lane in [0, 15, 16, 31, 32, 40, 47, 48, LAST] {
        let from = lanes_but(64, 0, lane, 2);
        assert_eq!(ints_after(text, &from), (6, vec![0; 64]), "lane {lane}");
    }
}

#[test]
fn a_memory_of_127_bytes_is_too_short_for_32_ints() {
    let text = "int block[32] a = 3;";
    assert_eq!(after(text, &[0; 127]), ([12, 0, 128, 0], vec![0; 127]));
    assert_eq!(after(text, &[0; 128]).1, ints(&[3; 32]));
}

/// Each lane by itself takes the first branch, then by itself the second.
#[test]
fn each_of_64_lanes_has_a_bit_of_its_own() {
    let text = "int block[64] v; if (v < 5) v = v + 10; else v = v - 10;";
    for lane in 0..64 {
        let (steps, left) = ints_after(text, &lanes_but(64, 7, lane, 1));
        assert_eq!((steps, left), (4, lanes_but(64, -3, lane, 11)));
        let (steps, left) = ints_after(text, &lanes_but(64, 1, lane, 7));
        assert_eq!((steps, left), (4, lanes_but(64, 11, lane, -3)));
    }
    assert_eq!(ints_after(text, &[1; 64]), (3, vec![11; 64]));
    assert_eq!(ints_after(text, &[7; 64]), (3, vec![-3; 64]));
}

/// Lanes 0 to 63 have 0 to 63: lane k runs the body k times.
#[test]
fn lanes_leave_a_loop_one_by_one() {
    let text = "int block[64] n; int block[64] c; while (c < n) c = c + 1;";
    let numbers: Vec<i32> = (0..64).collect();
    let (steps, left) = ints_after(text, &[&numbers[..], &[0; 64]].concat());
    assert_eq!((steps, &left[64..]), (2 + 64 + 63, &numbers[..]));
}

/// "a lane that has left a loop stays out of it", where `scalar` sets all lanes anew.
#[test]
fn the_last_lane_that_left_a_loop_stays_out() {
    let text = "int block[64] n; int block[64] c; int t; \
        while (0 < n) { c = c + 1; n = n - 1; scalar { t = t + 1; if (t == 2) n = 1; else ; } }";
    let mut from = vec![2; 64];
    from[LAST] = 1;
    from.resize(129, 0);
    let (_, left) = ints_after(text, &from);
    assert_eq!(left[..64], lanes_but(64, 0, LAST, 1));
    assert_eq!(left[64..128], lanes_but(64, 3, LAST, 1));
    assert_eq!(left[128], 3);
}

/// Nested conditions: lanes 48 to 63 in the first, of these the odd ones in the second.
#[test]
fn inner_branches_keep_the_outer_mask() {
    let text = "int block[64] v; if (v > 47) { if ((v & 1) == 1) v = 1; else v = 0; } else ;";
    let from: Vec<i32> = (0..64).collect();
    let (steps, left) = ints_after(text, &from);
    let expected = from.iter().map(|v| if *v > 47 { v & 1 } else { *v });
    assert_eq!((steps, left), (6, expected.collect()));
}

#[test]
fn current_mask_has_64_lanes() {
    let text = "bool block[64] m; bool block[64] seen; \
        if (m) seen = current_mask; else seen = !current_mask;";
    for (others, last) in [(1, 0), (0, 9)] {
        let mut memory = lanes_but(64, others, LAST, last);
        memory.resize(128, 7);
        let seen = lanes_but(64, u8::from(others > 0), LAST, u8::from(last > 0));
        assert_eq!(after(text, &memory).1[64..], seen);
    }
    let (answer, memory) = after("bool block[64] b = current_mask;", &[9; 64]);
    assert_eq!((answer, memory), ([0, 0, 64, 1], vec![1; 64]));
}

#[test]
fn scalars_stand_for_64_lanes_and_choose_for_all() {
    let text = "int block[64] v; int s; \
        if (v < 0) { if (s == 1) v = s; else v = 2; while (s < 3) scalar s = s + 1; } else ;";
    for (s, value) in [(1, 1), (0, 2)] {
        let mut from = lanes_but(64, 5, LAST, -5);
        from.push(s);
        let mut expected = lanes_but(64, 5, LAST, value);
        expected.push(3);
        assert_eq!(ints_after(text, &from).1, expected);
    }
}

#[test]
fn scalar_writes_all_64_lanes() {
    let text = "int block[64] v; if (v < 0) scalar v = v + 1; else ;";
    let from = lanes_but(64, 5, LAST, -5);
    let left = lanes_but(64, 6, LAST, -4);
    assert_eq!(ints_after(text, &from), (4, left));
    assert_eq!(ints_after(text, &[5; 64]), (3, vec![5; 64]));
}

#[test]
fn lengths_of_32_and_64_do_not_go_together() {
    let text = "int block[32] a; int block[64] b; a = a + b;";
    assert_eq!(verdict(text), (9, 40));
    let text = "bool block[64] m; int block[32] b; if (m) b = 1; else ;";
    assert_eq!(verdict(text), (9, 42));
    let text = "bool block[64] m; int s; if (m) s = 1; else ;";
    assert_eq!(verdict(text), (10, 34));
    let text = "bool block[64] m; int block[32] b; if (m) scalar b = 1; else ;";
    assert_eq!(verdict(text), (0, 0));
}

/// The budget is spent behind the first branch: lane 63 is not yet written.
#[test]
fn a_budget_that_is_spent_leaves_the_last_lane() {
    let text = "int block[64] v; if (v < 5) v = 9; else v = 0;";
    let from = lanes_but(64, 1, LAST, 7);
    let mut memory = ints(&from);
    let answer = numbers(run(text.as_bytes(), &mut memory, 3));
    assert_eq!(answer, [13, 40, 256, 3]);
    assert_eq!(memory, ints(&lanes_but(64, 9, LAST, 7)));
    let answer = numbers(run(text.as_bytes(), &mut ints(&from), PLENTY));
    assert_eq!(answer, [0, 0, 256, 4]);
}

/// Masked lanes keep their very bytes, a true is written as 1, in all four quarters.
#[test]
fn masked_bools_of_64_lanes_keep_their_bytes() {
    let text = "bool block[64] m; bool block[64] b; if (m) b = !b; else ;";
    let masks = [0u8, 7, 0, 1].repeat(16);
    let memory = [&masks[..], &[255, 255, 0, 0].repeat(16)].concat();
    let expected = [&masks[..], &[255, 0, 0, 1].repeat(16)].concat();
    assert_eq!(after(text, &memory).1, expected);
}
