//! Document 01, "Checked by hand": every case, by name.

use crate::common::{after, ints_after, numbers, routine_memory, verdict, ROUTINE};
use crate::side::{judge, run};

/// The four numbers on one line, then the memory in rows of 16 bytes as lower-case hex.
fn printed(answer: [u32; 4], memory: &[u8]) -> String {
    let [code, place, need, steps] = answer;
    let mut out = format!("{code} {place} {need} {steps}\n");
    for row in memory.chunks(16) {
        let hex: String = row.iter().map(|byte| format!("{byte:02x}")).collect();
        out.push_str(&hex);
        out.push('\n');
    }
    out
}

#[test]
fn empty_text_with_budget_0() {
    assert_eq!(numbers(run(b"", &mut [], 0)), [0, 0, 0, 0]);
    assert_eq!(numbers(judge(b"")), [0, 0, 0, 0]);
}

#[test]
fn declaration_with_budget_0() {
    let mut memory = [1, 2, 3, 4];
    assert_eq!(numbers(run(b"int x;", &mut memory, 0)), [13, 0, 4, 0]);
    assert_eq!(memory, [1, 2, 3, 4]);
}

#[test]
fn missing_semicolon_is_3_at_5() {
    assert_eq!(verdict("int x"), (3, 5));
}

#[test]
fn unknown_name_is_5_at_0() {
    assert_eq!(verdict("x = 1;"), (5, 0));
}

#[test]
fn name_already_open_is_6_at_11() {
    assert_eq!(verdict("int a; int a;"), (6, 11));
}

#[test]
fn block_of_3_is_7_at_10() {
    assert_eq!(verdict("int block[3] v;"), (7, 10));
}

#[test]
fn int_into_bool_is_8_at_7() {
    assert_eq!(verdict("bool b = 3;"), (8, 7));
}

#[test]
fn leading_zero_is_2_at_8() {
    assert_eq!(verdict("int x = 010;"), (2, 8));
}

#[test]
fn number_too_large_is_2_at_8() {
    assert_eq!(verdict("int x = 2147483648;"), (2, 8));
}

#[test]
fn two_lengths_under_plus_are_9_at_38() {
    let text = "int block[4] a; int block[2] b; a = a + b;";
    assert_eq!(verdict(text), (9, 38));
}

#[test]
fn scalar_target_under_a_block_condition_is_10_at_33() {
    let text = "bool block[4] m; int s; if (m) s = 1; else ;";
    assert_eq!(verdict(text), (10, 33));
}

#[test]
fn scalar_statement_writes_s_in_5_steps() {
    let text = "bool block[4] m; int s; if (m) scalar s = 1; else ;";
    let memory = [0, 0, 1, 0, 9, 9, 9, 9];
    let left = vec![0, 0, 1, 0, 1, 0, 0, 0];
    assert_eq!(after(text, &memory), ([0, 0, 8, 5], left));
}

#[test]
fn scalar_statement_without_lanes_leaves_s_in_4_steps() {
    let text = "bool block[4] m; int s; if (m) scalar s = 1; else ;";
    let memory = [0, 0, 0, 0, 9, 9, 9, 9];
    assert_eq!(after(text, &memory), ([0, 0, 8, 4], memory.to_vec()));
}

#[test]
fn plus_keeps_the_low_32_bits_in_1_step() {
    let text = "int x = 2147483647 + 1;";
    assert_eq!(ints_after(text, &[0]), (1, vec![-2147483648]));
}

#[test]
fn both_branches_leave_9_and_0_in_4_steps() {
    let text = "int block[2] a; if (a < 5) a = 9; else a = 0;";
    assert_eq!(ints_after(text, &[1, 7]), (4, vec![9, 0]));
}

#[test]
fn while_leaves_0_and_minus_3_in_6_steps() {
    let text = "int block[2] n; while (0 < n) n = n - 1;";
    assert_eq!(ints_after(text, &[2, -3]), (6, vec![0, -3]));
}

#[test]
fn parentheses_nest_32_deep_and_no_deeper() {
    let nested = |n: usize| format!("int x = {}1{};", "(".repeat(n), ")".repeat(n));
    assert_eq!(verdict(nested(32)), (0, 0));
    assert_eq!(verdict(nested(33)), (4, 40));
}

#[test]
fn routine_prints_its_output() {
    let mut memory = routine_memory();
    let answer = numbers(run(ROUTINE.as_bytes(), &mut memory, 1000));
    let expected = "0 0 48 8\n\
        01000100aaaaaaaaaaaaaaaaaaaaaaaa\n\
        0e000000070000000f0000005a000000\n\
        0a0000000a0000000a0000000a000000\n";
    assert_eq!(printed(answer, &memory), expected);
}

#[test]
fn routine_with_budget_6_stops_at_92() {
    let mut memory = routine_memory();
    let answer = numbers(run(ROUTINE.as_bytes(), &mut memory, 6));
    let expected = "13 92 48 6\n\
        01000100aaaaaaaaaaaaaaaaaaaaaaaa\n\
        0e00000007000000190000005a000000\n\
        0a0000000a0000000a0000000a000000\n";
    assert_eq!(printed(answer, &memory), expected);
}
