//! Document 01, "Errors that come easily", and limits that its cases checked by hand do not
//! reach: for each, a case that the error would change.

use crate::addresses;
use crate::common::{after, ints, ints_after, routine_memory, verdict, MOST_NEED, ROUTINE};

/// "Running an inner else under not-m alone: in the routine above 90 becomes 80."
#[test]
fn inner_else_runs_under_the_outer_mask_too() {
    let (answer, memory) = after(ROUTINE, &routine_memory());
    assert_eq!(answer, [0, 0, 48, 8]);
    assert_eq!(memory[16..32], ints(&[14, 7, 15, 90]));
}

/// "Testing the condition again for the else branch: the 9,0 case becomes 0,0."
#[test]
fn condition_is_evaluated_once() {
    let text = "int block[2] a; if (a < 5) a = 9; else a = 0;";
    assert_eq!(ints_after(text, &[1, 7]).1, [9, 0]);
    let text = "int a; if (a < 5) a = 9; else a = 0;";
    assert_eq!(ints_after(text, &[1]), (3, vec![9]));
}

/// "Writing zero, or the old value of another lane, in masked lanes."
#[test]
fn masked_lanes_keep_their_bytes() {
    let text = "int block[4] v; int block[4] w; if (v < 0) w = v; else ;";
    let (_, values) = ints_after(text, &[1, -2, 3, -4, 10, 20, 30, 40]);
    assert_eq!(values[4..], [10, -2, 30, -4]);
}

/// A masked bool keeps its very byte, and a true is written as 1.
#[test]
fn masked_bools_keep_their_bytes() {
    let text = "bool block[4] m; bool block[4] b; if (m) b = !b; else ;";
    let (_, memory) = after(text, &[0, 7, 0, 1, 255, 255, 0, 0]);
    assert_eq!(memory, [0, 7, 0, 1, 255, 0, 0, 1]);
}

/// "Reusing a closed scope's bytes: a bool block and a later int block then mix lanes."
#[test]
fn closed_scopes_keep_their_bytes() {
    let text = "{ bool block[16] b = true; } { int block[4] v = 7; } int s;";
    assert_eq!(addresses(text), [0, 16, 32]);
    let (answer, memory) = after(text, &[9; 40]);
    assert_eq!(answer, [0, 0, 36, 3]);
    assert_eq!(memory[..16], [1; 16]);
    assert_eq!(memory[16..32], ints(&[7, 7, 7, 7]));
    assert_eq!(memory[32..], [9; 8]);
}

/// "Letting a lane back into a loop after `scalar` has changed its value."
#[test]
fn lane_that_left_a_loop_stays_out() {
    let text = "int block[2] n; int block[2] c; int t; \
        while (0 < n) { c = c + 1; n = n - 1; scalar { t = t + 1; if (t == 2) n = 1; else ; } }";
    // From 1, 2: lane 0 leaves at the second test; the second body sets both lanes to 1.
    let (_, values) = ints_after(text, &[1, 2, 0, 0, 0, 0, 0, 0]);
    assert_eq!(values[..5], [1, 0, 1, 3, 3]);
}

#[test]
fn name_of_31_bytes_is_accepted_and_of_32_refused() {
    let declared = |length: usize| format!("int {};", "a".repeat(length));
    assert_eq!(verdict(declared(31)), (0, 0));
    assert_eq!(verdict(declared(32)), (2, 4));
}

#[test]
fn declaration_65_is_refused() {
    let declared = |count: usize| -> String {
        let declarations = (0..count).map(|number| format!("int v{number};"));
        declarations.collect()
    };
    assert_eq!(verdict(declared(64)), (0, 0));
    assert_eq!(verdict(declared(65)), (11, declared(64).len() as u32 + 4));
}

#[test]
fn text_of_4096_bytes_is_accepted_and_of_4097_refused() {
    assert_eq!(verdict(";".repeat(4096)), (0, 0));
    assert_eq!(verdict(";".repeat(4097)), (1, 0));
}

#[test]
fn greatest_need_is_16384() {
    let text: String = (0..64).map(|v| format!("int block[64] v{v};")).collect();
    let whole = vec![3; MOST_NEED];
    assert_eq!(after(&text, &whole), ([0, 0, 16_384, 64], whole.clone()));
    let short = vec![3; MOST_NEED - 1];
    assert_eq!(after(&text, &short), ([12, 0, 16_384, 0], short.clone()));
}

/// The same inside the second branch, whose mask is not-m of the outer condition.
#[test]
fn inner_branches_of_an_else_run_under_its_mask() {
    let text = "int block[4] v; if (v < 10) ; else { if (v < 20) v = 1; else v = 2; }";
    let (steps, values) = ints_after(text, &[5, 15, 25, 9]);
    assert_eq!((steps, values), (6, vec![5, 1, 2, 9]));
}

/// Branches of one `if` do not share bytes either.
#[test]
fn two_branches_do_not_share_bytes() {
    let text = "bool block[2] m; if (m) int block[2] x = 5; else int block[2] y = 6;";
    let (_, memory) = after(
        text,
        &[
            1, 0, 9, 9, 9, 9, 9, 9, 0, 0, 0, 0, 0, 0, 0, 0, 0, 0, 0, 0, 0, 0, 0, 0,
        ],
    );
    assert_eq!(memory[8..24], ints(&[5, 0, 0, 6]));
}

/// Execution: "current_mask in the condition is the mask at entry".
#[test]
fn current_mask_in_a_loop_test_is_the_mask_at_entry() {
    let text = "int block[2] n; int block[2] c; \
        if (n != 9) { while (current_mask & (0 < n)) { n = n - 1; c = c + 1; } } else ;";
    let (_, values) = ints_after(text, &[1, 3, 0, 0]);
    assert_eq!(values, [0, 0, 1, 3]);
    // A lane that is off at entry is off in current_mask, whatever the loop does.
    let text = "int block[2] n; bool block[2] b; \
        if (n != 9) { while (0 < n) { n = n - 1; b = current_mask; } } else ;";
    let mut memory = ints(&[9, 2]);
    memory.extend([5, 5]);
    let (_, memory) = after(text, &memory);
    assert_eq!(memory[8..10], [5, 1]);
}

/// In a context of length 1, current_mask in a loop's condition has length 1 and is true.
#[test]
fn current_mask_at_the_start_is_one_true_lane() {
    let text = "int block[2] n; while (current_mask & (0 < n)) n = n - 1;";
    assert_eq!(ints_after(text, &[2, 1]), (6, vec![0, 0]));
    let (answer, memory) = after("bool block[4] b = current_mask;", &[9; 4]);
    assert_eq!((answer, memory), ([0, 0, 4, 1], vec![1; 4]));
    assert_eq!(verdict("bool block[1] b = current_mask;"), (0, 0));
}
