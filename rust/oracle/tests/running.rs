//! Document 01, "Memory" and "Execution": values, addresses and steps.

use oracle as side;

#[path = "../../cases/common.rs"]
mod common;

use common::{after, ints, ints_after, numbers};
use oracle::{judge, run, variables, Program};

/// The value that an int expression leaves.
fn int(expression: &str) -> i32 {
    ints_after(&format!("int x = {expression};"), &[77]).1[0]
}

/// The byte that a bool expression leaves.
fn truth(expression: &str) -> u8 {
    let (answer, memory) = after(&format!("bool b = {expression};"), &[77]);
    assert_eq!(answer, [0, 0, 1, 1], "{expression}");
    memory[0]
}

#[test]
fn operators_bind_as_listed_and_group_to_the_left() {
    assert_eq!(int("1 + 2 * 3"), 7);
    assert_eq!(int("2 * 3 + 1"), 7);
    assert_eq!(int("10 - 4 - 3"), 3);
    assert_eq!(int("10 - (4 - 3)"), 9);
    assert_eq!(int("10 - 4 + 3"), 9);
    assert_eq!(int("-2 * -3"), 6);
    assert_eq!(int("- 2 - - 3"), 1);
    assert_eq!(int("~0 * 2"), -2);
    assert_eq!(int("~-1"), 0);
    assert_eq!(int("1 | 2 ^ 3 & 5"), 1 | (2 ^ (3 & 5)));
    assert_eq!(int("1 & 3 + 4"), 1 & 7);
    assert_eq!(int("6 ^ 3 | 8"), (6 ^ 3) | 8);
    assert_eq!(truth("1 + 1 < 3 == 2 > 1"), 1);
    assert_eq!(truth("true | false & false"), 1);
    assert_eq!(truth("true ^ true & false"), 1);
    assert_eq!(truth("true | true ^ true"), 1);
    assert_eq!(truth("false == false == false"), 0);
    assert_eq!(truth("1 == 2 == false"), 1);
    assert_eq!(truth("!true == false"), 1);
    assert_eq!(truth("!(true == false)"), 1);
    assert_eq!(truth("!false & false"), 0);
}

#[test]
fn ints_keep_the_low_32_bits() {
    assert_eq!(int("2147483647 * 2147483647"), 1);
    assert_eq!(int("-2147483647 - 2"), 2147483647);
    assert_eq!(int("-(-2147483647 - 1)"), -2147483648);
    assert_eq!(int("65536 * 65536"), 0);
    assert_eq!(int("65535 * 65537"), -1);
    assert_eq!(int("~2147483647"), -2147483648);
    assert_eq!(int("-0"), 0);
}

#[test]
fn ints_compare_as_signed() {
    assert_eq!(truth("-1 < 0"), 1);
    assert_eq!(truth("-2147483647 - 1 < 2147483647"), 1);
    assert_eq!(truth("-1 > 1"), 0);
    assert_eq!(truth("-1 >= -1"), 1);
    assert_eq!(truth("-1 <= -2"), 0);
    assert_eq!(truth("3 <= 3"), 1);
    assert_eq!(truth("3 > 3"), 0);
    assert_eq!(truth("3 != 3"), 0);
    assert_eq!(truth("3 == 3"), 1);
}

#[test]
fn bools_are_compared_and_joined_by_truth() {
    let text = "bool a; bool b; bool e = a == b; bool u = a != b; bool n = a & b; bool o = a | b; \
        bool x = a ^ b; bool c = a; bool i = !a;";
    assert_eq!(
        after(text, &[2, 4, 9, 9, 9, 9, 9, 9, 9]).1,
        [2, 4, 1, 0, 1, 1, 0, 1, 0]
    );
    assert_eq!(
        after(text, &[128, 0, 9, 9, 9, 9, 9, 9, 9]).1,
        [128, 0, 0, 1, 0, 1, 1, 1, 0]
    );
}

#[test]
fn length_1_is_replicated_on_either_side() {
    let text = "int block[4] a; int s; int t; a = s - a; a = a * t;";
    let (_, values) = ints_after(text, &[1, 2, 3, 4, 10, 3]);
    assert_eq!(values[..4], [27, 24, 21, 18]);
    let text = "int block[4] a; a = 7;";
    assert_eq!(ints_after(text, &[1, 2, 3, 4]).1, [7; 4]);
}

#[test]
fn addresses_are_the_next_multiple_of_the_whole_size() {
    let text =
        "bool a; int block[2] b; bool c; bool block[16] d; int e; int block[16] f; int g = 1;";
    let listed = variables(text.as_bytes());
    assert_eq!(numbers(listed.answer), [0, 0, 132, 7]);
    let rows: Vec<_> = listed
        .rows
        .iter()
        .map(|row| [row.place, row.kind, row.length, row.address])
        .collect();
    assert_eq!(
        rows,
        [
            [5, 1, 1, 0],
            [21, 0, 2, 8],
            [29, 1, 1, 16],
            [47, 1, 16, 32],
            [54, 0, 1, 48],
            [71, 0, 16, 64],
            [78, 0, 1, 128]
        ]
    );
    let refused = variables(b"int x; int x;");
    assert_eq!(numbers(refused.answer), [6, 11, 0, 0]);
    assert_eq!(refused.rows, []);
    let taken = variables(b"int block[4] a; bool b = a < 1;");
    assert_eq!(
        (
            taken.rows[1].kind,
            taken.rows[1].length,
            taken.rows[1].address
        ),
        (1, 4, 16)
    );
}

#[test]
fn addresses_of_long_blocks_are_multiples_of_256_bytes_at_most() {
    let text = "bool a; bool block[32] b; bool c; bool block[64] d; int e; int block[32] f; \
        bool g; int block[64] h; bool i;";
    let listed = variables(text.as_bytes());
    assert_eq!(numbers(listed.answer), [0, 0, 769, 9]);
    let rows = listed.rows.iter();
    let rows: Vec<_> = rows.map(|row| (row.length, row.address)).collect();
    let expected = [
        (1, 0),
        (32, 32),
        (1, 64),
        (64, 128),
        (1, 192),
        (32, 256),
        (1, 384),
        (64, 512),
        (1, 768),
    ];
    assert_eq!(rows, expected);
}

#[test]
fn declaring_without_a_value_leaves_the_bytes() {
    let text = "int n; while (0 < n) { int c; c = c + n; n = n - 1; }";
    let (steps, values) = ints_after(text, &[3, 100]);
    assert_eq!((steps, values), (14, vec![0, 106]));
}

#[test]
fn bytes_outside_the_variables_never_change() {
    let text = "bool b = true; int x = 5; bool c = true;";
    let (answer, memory) = after(text, &[9; 12]);
    assert_eq!(answer, [0, 0, 9, 3]);
    assert_eq!(memory, [1, 9, 9, 9, 5, 0, 0, 0, 1, 9, 9, 9]);
}

#[test]
fn scalar_condition_keeps_the_mask() {
    let text = "int block[4] v; int s; if (v < 3) { if (s == 1) v = 10; else v = 20; } else ;";
    assert_eq!(
        ints_after(text, &[1, 2, 3, 4, 1]),
        (6, vec![10, 10, 3, 4, 1])
    );
    assert_eq!(ints_after(text, &[1, 2, 3, 4, 0]).1, [20, 20, 3, 4, 0]);
    let text =
        "int block[2] v; int s; if (v < 3) while (s < 2) { v = v + 1; scalar s = s + 1; } else ;";
    assert_eq!(ints_after(text, &[1, 5, 0]).1, [3, 5, 2]);
}

#[test]
fn scalar_writes_lanes_that_were_masked_off() {
    let text = "int block[2] v; if (v < 3) { scalar v = v + 1; v = 9; } else v = 0 - v;";
    assert_eq!(ints_after(text, &[1, 5]).1, [9, -6]);
    let text =
        "int block[4] v; bool block[2] m; while (m) { m = false; scalar if (v < 0) v = 0; else ; }";
    let mut memory = ints(&[-1, 2, -3, 4]);
    memory.extend([1, 0]);
    let (answer, memory) = after(text, &memory);
    assert_eq!(answer, [0, 0, 18, 8]);
    assert_eq!(memory[..16], ints(&[0, 2, 0, 4]));
}

#[test]
fn current_mask_is_the_mask_of_the_context() {
    let text =
        "int block[4] v; bool block[4] m; if (v < 3) m = current_mask; else m = !current_mask;";
    let mut memory = ints(&[1, 5, 2, 6]);
    memory.extend([7; 4]);
    assert_eq!(after(text, &memory).1[16..], [1, 0, 1, 0]);
    let text = "int block[4] v; bool block[4] m; if (v < 3) scalar m = current_mask; else ;";
    assert_eq!(after(text, &memory).1[16..], [1; 4]);
}

#[test]
fn skipped_branches_cost_no_step() {
    let text = "int block[2] v; if (v < 9) ; else { ; ; ; } if (true) ; else ;";
    assert_eq!(ints_after(text, &[1, 2]).0, 5);
    assert_eq!(ints_after(text, &[9, 9]).0, 7);
    assert_eq!(ints_after(text, &[1, 9]).0, 8);
    assert_eq!(
        ints_after("while (false) ; {{}} scalar {} scalar ;", &[]).0,
        2
    );
}

#[test]
fn the_step_due_is_placed_at_its_own_statement() {
    let text = b"{ int x; } scalar { bool b = true; while (b) b = b; }";
    let mut memory = [9; 8];
    let mut due = |budget| numbers(run(text, &mut memory, budget))[1];
    assert_eq!([0, 1, 2, 3, 4, 5].map(&mut due), [2, 20, 35, 45, 35, 45]);
    let mut memory = [9; 8];
    let mut code = |budget| numbers(run(b";;", &mut memory, budget));
    assert_eq!(
        [0, 1, 2].map(&mut code),
        [[13, 0, 0, 0], [13, 1, 0, 1], [0, 0, 0, 2]]
    );
}

#[test]
fn every_budget_of_a_long_loop_is_spent_exactly() {
    let answer = run(b"while (true) ;", &mut [], 1_000_001);
    assert_eq!(numbers(answer), [13, 13, 0, 1_000_001]);
    assert_eq!(numbers(run(b";", &mut [], u32::MAX)), [0, 0, 0, 1]);
}

#[test]
fn a_prepared_program_runs_over_one_memory_after_another() {
    let program = Program::prepare(b"int x; x = x + 1;").unwrap();
    assert_eq!(program.need(), 4);
    let mut memory = ints(&[5, 6]);
    for _ in 0..3 {
        assert_eq!(numbers(program.run(&mut memory, 9)), [0, 0, 4, 2]);
    }
    assert_eq!(memory, ints(&[8, 6]));
    assert_eq!(numbers(program.run(&mut [], 9)), [12, 0, 4, 0]);
    let refused = Program::prepare(b"x").unwrap_err();
    assert_eq!(refused, judge(b"x"));
}
