//! Document 01, "The text", "Typing" and "Codes": each refusal, its place and its order.

use oracle as side;

#[path = "../../cases/common.rs"]
mod common;

use common::{numbers, verdict};
use oracle::{judge, run};

#[test]
fn text_length_is_judged_first() {
    assert_eq!(verdict(" ".repeat(4096)), (0, 0));
    assert_eq!(verdict(" ".repeat(4097)), (1, 0));
    assert_eq!(verdict("$".repeat(4097)), (1, 0));
    assert_eq!(verdict("/".repeat(4097)), (1, 0));
}

#[test]
fn bytes_outside_the_rules() {
    for byte in 0..=255u8 {
        let allowed = b" \t\r\n;{}()[]=<>+-*&|^~!_".contains(&byte) || byte.is_ascii_alphanumeric();
        let code = verdict([b';', byte]).0;
        assert_eq!(code == 2, !allowed, "byte {byte}");
    }
    assert_eq!(verdict("; / ;"), (2, 2));
    assert_eq!(verdict(";/"), (2, 1));
    assert_eq!(verdict("int x = 1 /* 2 */;"), (2, 10));
    assert_eq!(verdict("int é;"), (2, 4));
}

#[test]
fn comments_run_to_lf_or_the_end() {
    assert_eq!(verdict(b"//\x00\xff\r$ / 010\n;"), (0, 0));
    assert_eq!(verdict("int//x\ny//;\n;"), (0, 0));
    assert_eq!(verdict("; //"), (0, 0));
    assert_eq!(verdict("; ///"), (0, 0));
    assert_eq!(verdict("int x //\r= $"), (3, 12));
}

#[test]
fn separators_are_space_tab_lf_cr() {
    assert_eq!(verdict("\tint\rx\n = 1 ;"), (0, 0));
    assert_eq!(verdict("int\x0bx;"), (2, 3));
    assert_eq!(verdict("int\x0cx;"), (2, 3));
}

#[test]
fn names_have_at_most_31_bytes() {
    let name = |n: usize| format!("int {};", "a".repeat(n));
    assert_eq!(verdict(name(31)), (0, 0));
    assert_eq!(verdict(name(32)), (2, 4));
    assert_eq!(verdict(name(4000)), (2, 4));
    assert_eq!(
        verdict("int _; int _0; int A9_z; int If; int ints;"),
        (0, 0)
    );
    assert_eq!(verdict("int current_mask;"), (3, 4));
    assert_eq!(verdict("int a1234567890123456789012345678901;"), (2, 4));
}

#[test]
fn numbers_stay_within_their_limits() {
    assert_eq!(verdict("int x = 0;"), (0, 0));
    assert_eq!(verdict("int x = 2147483647;"), (0, 0));
    for number in [
        "00",
        "01",
        "2147483648",
        "4294967296",
        "4294967297",
        "99999999999999999999",
    ] {
        assert_eq!(verdict(format!("int x = {number};")), (2, 8), "{number}");
    }
    assert_eq!(verdict("int block[04] x;"), (2, 10));
    // A digit run directly followed by a letter is two tokens.
    assert_eq!(verdict("int x = 1a;"), (3, 9));
    assert_eq!(verdict("int x = 0x;"), (3, 9));
    assert_eq!(verdict("int block[4]v;"), (0, 0));
}

#[test]
fn tokens_are_taken_longest_first() {
    assert_eq!(verdict("bool b = 1<=2;"), (0, 0));
    assert_eq!(verdict("bool b = 1< =2;"), (3, 12));
    assert_eq!(verdict("bool b == true;"), (3, 7));
    assert_eq!(verdict("bool b = !true!=!false;"), (0, 0));
    assert_eq!(verdict("bool b =!true;"), (0, 0));
    assert_eq!(verdict("bool b = 1===1;"), (3, 12));
    assert_eq!(verdict("int x = 1--1;"), (0, 0));
    assert_eq!(verdict("int x=-1;"), (0, 0));
    assert_eq!(verdict("int a; a=-1; intb=1;"), (5, 13));
}

#[test]
fn code_2_comes_before_every_other_over_the_whole_text() {
    assert_eq!(verdict(") ) ) $"), (2, 6));
    assert_eq!(verdict(format!("int x = {}1; $", "(".repeat(40))), (2, 51));
    assert_eq!(verdict("x = 1; 010"), (2, 7));
}

#[test]
fn tokens_not_allowed_in_declarations_and_expressions() {
    for (text, place) in [
        ("}", 0),
        ("{", 1),
        ("{ ; ", 4),
        ("int", 3),
        ("int ;", 4),
        ("int block x;", 10),
        ("int block[] x;", 10),
        ("int block[4 x;", 12),
        ("int block[x] x;", 10),
        ("block[4] int x;", 0),
        ("int x y;", 6),
        ("int x = ;", 8),
        ("int x = 1", 9),
        ("int x = 1 2;", 10),
        ("int x = (1;", 10),
        ("int x = 1);", 9),
        ("int x = ();", 9),
        ("int x = 1 + ;", 12),
        ("int x = + 1;", 8),
        ("int x = 1 ! 2;", 10),
        ("int x[4];", 5),
        ("bool x = 1 < 2 < ;", 17),
    ] {
        assert_eq!(verdict(text), (3, place), "{text}");
    }
}

#[test]
fn tokens_not_allowed_in_statements() {
    for (text, place) in [
        ("x;", 1),
        ("x + 1;", 2),
        ("1;", 0),
        ("1 = x;", 0),
        ("(x) = 1;", 0),
        ("if true ; else ;", 3),
        ("if () ; else ;", 4),
        ("if (true) ;", 11),
        ("if (true) ; ;", 12),
        ("if (true) else ;", 10),
        ("if (true) ; else", 16),
        ("else ;", 0),
        ("while ;", 6),
        ("while (true)", 12),
        ("while (true) }", 13),
        ("scalar", 6),
        ("scalar }", 7),
        ("{ scalar }", 9),
        ("true = 1;", 0),
    ] {
        assert_eq!(verdict(text), (3, place), "{text}");
    }
}

#[test]
fn order_3_and_4_before_5_to_11() {
    assert_eq!(verdict("x = 1; int block[3] v; ) "), (3, 23));
    assert_eq!(verdict("x = 1; int y = 1 + true"), (3, 23));
}

#[test]
fn unknown_names() {
    assert_eq!(verdict("int x = x;"), (5, 8));
    assert_eq!(verdict("int y = 1 + x;"), (5, 12));
    assert_eq!(verdict("{ int x; } x = 1;"), (5, 11));
    assert_eq!(verdict("if (true) int x; else x = 1;"), (5, 22));
    assert_eq!(verdict("while (true) int x; x = 1;"), (5, 20));
    assert_eq!(verdict("scalar int x; x = 1;"), (5, 14));
    assert_eq!(verdict("if (x) ; else ;"), (5, 4));
    assert_eq!(verdict("int ab; int a = abc;"), (5, 16));
}

#[test]
fn names_already_open() {
    assert_eq!(verdict("int x; { bool x; }"), (6, 14));
    assert_eq!(verdict("int x; if (true) int x; else ;"), (6, 21));
    assert_eq!(verdict("int x; scalar int x;"), (6, 18));
    assert_eq!(verdict("{ int x; } { int x; } int x;"), (0, 0));
    assert_eq!(verdict("if (true) int x; else int x;"), (0, 0));
    assert_eq!(verdict("int x; int x = y;"), (5, 15));
    assert_eq!(verdict("int x; int x = true;"), (8, 13));
}

#[test]
fn block_lengths() {
    for n in [1, 2, 4, 8, 16, 32, 64] {
        assert_eq!(verdict(format!("int block[{n}] v;")), (0, 0));
    }
    for n in (0..=300).chain([320, 512, 1024, 65536, 65600, 2147483647]) {
        let listed = [1, 2, 4, 8, 16, 32, 64].contains(&n);
        let expected = if listed { (0, 0) } else { (7, 10) };
        assert_eq!(verdict(format!("int block[{n}] v;")), expected, "{n}");
    }
    for n in [31, 33, 63, 65, 128] {
        assert_eq!(verdict(format!("bool block[{n}] v = true;")), (7, 11));
    }
    assert_eq!(verdict("int v; bool block[3] v = x;"), (7, 18));
    assert_eq!(verdict("int v; bool block[128] v = x;"), (7, 18));
    assert_eq!(verdict("int v; bool block[032] v = x;"), (2, 18));
}

#[test]
fn wrong_kinds() {
    for (text, place) in [
        ("int x = true;", 6),
        ("int x; x = true;", 9),
        ("int x = 1 + true;", 10),
        ("int x = true + 1;", 13),
        ("int x = true + false;", 13),
        ("int x = true * 1;", 13),
        ("bool b = true < false;", 14),
        ("bool b = 1 == true;", 11),
        ("bool b = 1 & true;", 11),
        ("bool b = !1;", 9),
        ("int x = -true;", 8),
        ("int x = ~true;", 8),
        ("bool b = 1 | 2;", 7),
        ("bool b = true | false == 1;", 22),
        ("bool b = 1 < 2 < 3;", 15),
        ("if (1) ; else ;", 0),
        (" while (1) ;", 1),
        ("if (-true) ; else ;", 4),
        ("int x = current_mask;", 6),
    ] {
        assert_eq!(verdict(text), (8, place), "{text}");
    }
    assert_eq!(verdict("bool b = 1 < 2 == true;"), (0, 0));
    assert_eq!(verdict("bool b = 1 == 1 & 2 != 3 ^ true | !false;"), (0, 0));
    assert_eq!(verdict("int x = 1 & 2 | 3 ^ ~4 + -5 * 6;"), (0, 0));
}

#[test]
fn operands_come_before_their_operator_left_to_right() {
    assert_eq!(verdict("int x = y + z;"), (5, 8));
    assert_eq!(verdict("int x = true + z;"), (5, 15));
    assert_eq!(verdict("int x = (true + 1) + (1 + z);"), (8, 14));
    assert_eq!(
        verdict("int block[2] a; int block[4] b; bool c = (a < b) + 1;"),
        (9, 44)
    );
    // Within one operator 8 comes before 9.
    assert_eq!(
        verdict("int block[2] a; bool block[4] b; int c = a + b;"),
        (8, 43)
    );
}

const TWO: &str = "bool block[2] m; int block[2] a; int block[4] b; int s; ";

/// Code and place, counted from there, of a text behind these declarations; with blocks of 64 and
/// 32 lanes for those of 2 and 4 they are the same.
fn behind_two(text: &str) -> (u32, i64) {
    let text = format!("{TWO}{text}");
    let (code, place) = verdict(&text);
    let longer = text.replace("block[2] ", "block[64]");
    let longer = longer.replace("block[4] ", "block[32]");
    assert_eq!(verdict(&longer), (code, place), "{longer}");
    (code, place as i64 - TWO.len() as i64)
}

#[test]
fn wrong_lengths() {
    let at = behind_two;
    assert_eq!(at("a = a + b;"), (9, 6));
    assert_eq!(at("a = b;"), (9, 2));
    assert_eq!(at("s = a;"), (9, 2));
    assert_eq!(at("a = s; b = s; a = 1;"), (0, -56));
    assert_eq!(at("int x = a; x = a;"), (0, -56));
    assert_eq!(at("int x = a; x = b;"), (9, 13));
    assert_eq!(at("int block[1] x = a;"), (9, 15));
    assert_eq!(at("int block[4] x = a;"), (9, 15));
    assert_eq!(at("if (m) b = 1; else ;"), (9, 7));
    assert_eq!(at("if (m) a = b; else ;"), (9, 11));
    assert_eq!(at("if (m) a = s; else ;"), (0, -56));
    assert_eq!(at("if (m) int block[4] x; else ;"), (9, 20));
    assert_eq!(at("if (m) int block[4] x = 1; else ;"), (9, 20));
    assert_eq!(at("if (m) int block[2] x = 1; else ;"), (0, -56));
    assert_eq!(at("if (m) int x; else bool block[1] y;"), (0, -56));
    assert_eq!(at("while (m) scalar { b = b; int block[8] c; }"), (0, -56));
    assert_eq!(at("if (m) if (b < 1) ; else ; else ;"), (9, 11));
    assert_eq!(at("if (m) if (true) b = 1; else ; else ;"), (9, 17));
    assert_eq!(
        at("if (m) if (s < 1) scalar b = 1; else a = 1; else ;"),
        (0, -56)
    );
    assert_eq!(at("if (m) m = current_mask; else ;"), (0, -56));
    assert_eq!(at("if (m) scalar m = current_mask; else ;"), (0, -56));
    assert_eq!(
        at("bool c = current_mask; if (m) c = true; else ;"),
        (10, 32)
    );
}

#[test]
fn scalar_targets_in_longer_contexts() {
    let at = behind_two;
    assert_eq!(at("if (m) s = 1; else ;"), (10, 9));
    assert_eq!(at("if (m) ; else s = 1;"), (10, 16));
    assert_eq!(at("while (m) s = s + 1;"), (10, 12));
    assert_eq!(at("while (m) { s = a; }"), (9, 14));
    assert_eq!(at("while (m) { s = true; }"), (8, 14));
    assert_eq!(at("if (m) int x = 1; else ;"), (10, 13));
    assert_eq!(at("if (m) int block[1] x = 1; else ;"), (10, 22));
    assert_eq!(at("if (m) int block[1] x = a; else ;"), (9, 22));
    assert_eq!(at("if (m) int s = 1; else ;"), (10, 13));
    assert_eq!(at("if (m) int x = a; else ;"), (0, -56));
    assert_eq!(at("if (m) while (s < 3) s = s + 1; else ;"), (10, 23));
    assert_eq!(at("if (m) scalar { int x = 1; s = x; } else ;"), (0, -56));
    // At the name, 9 comes before 6.
    assert_eq!(at("if (m) int block[4] s; else ;"), (9, 20));
    assert_eq!(at("if (m) int block[2] s; else ;"), (6, 20));
}

#[test]
fn the_65th_declaration_is_refused() {
    let text = |n: usize| (0..n).map(|i| format!("int v{i};")).collect::<String>();
    assert_eq!(verdict(text(64)), (0, 0));
    assert_eq!(verdict(text(65)), (11, text(64).len() as u32 + 4));
    // Closed scopes count, and 6 comes before 11.
    let closed = "{int v;}".repeat(64);
    assert_eq!(verdict(&closed), (0, 0));
    assert_eq!(verdict(format!("{closed}int v;")), (11, 516));
    assert_eq!(verdict(format!("{}int v0;", text(64))).0, 6);
    assert_eq!(verdict(format!("{}int x = true;", text(64))).0, 8);
}

#[test]
fn need_can_reach_16384() {
    for (length, need) in [(16, 4096), (32, 8192), (64, 16_384)] {
        let declared = (0..64).map(|i| format!("int block[{length}] v{i};"));
        let text: String = declared.collect();
        assert_eq!(numbers(judge(text.as_bytes())), [0, 0, need, 0]);
        let short = vec![7; need as usize - 1];
        let mut memory = short.clone();
        let answer = run(text.as_bytes(), &mut memory, 9);
        assert_eq!(numbers(answer), [12, 0, need, 0]);
        assert_eq!(memory, short);
    }
}

#[test]
fn short_memory_comes_before_the_budget() {
    let mut memory = [5; 3];
    assert_eq!(numbers(run(b"int x = 1;", &mut memory, 0)), [12, 0, 4, 0]);
    assert_eq!(memory, [5; 3]);
}
