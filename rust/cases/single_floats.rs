//! Document 02, R-2: single floats, checked by hand.

use crate::addresses;
use crate::common::{after, numbers, verdict, PLENTY};
use crate::side::{judge, run};

/// A text, its code and its place.
type Judged = (&'static str, u32, u32);

/// A text, the memory before, the four numbers, and the memory after, in hex.
type Ran = (&'static str, &'static str, [u32; 4], &'static str);

/// The bytes of this hex.
fn bytes(hex: &str) -> Vec<u8> {
    let digits: Vec<u8> = hex.bytes().filter(|digit| *digit != b' ').collect();
    let two = digits
        .chunks(2)
        .map(|two| std::str::from_utf8(two).unwrap());
    two.map(|two| u8::from_str_radix(two, 16).unwrap())
        .collect()
}

/// Checks what is judged.
fn check_judged(cases: &[Judged]) {
    for (text, code, place) in cases {
        assert_eq!(verdict(text), (*code, *place), "{text}");
    }
}

/// Checks what is run, with plenty of budget.
fn check_ran(cases: &[Ran]) {
    for (text, before, answer, left) in cases {
        assert_eq!(
            after(text, &bytes(before)),
            (*answer, bytes(left)),
            "{text}"
        );
    }
}

/// The pattern that a float expression leaves.
fn pattern(expression: &str) -> u32 {
    let (answer, memory) = after(&format!("float x = {expression};"), &[0xaa; 4]);
    assert_eq!(answer, [0, 0, 4, 1], "{expression}");
    u32::from_le_bytes(memory.try_into().unwrap())
}

/// Whether a bool expression over an `x` of this pattern is true.
fn holds(expression: &str, x: u32) -> bool {
    let mut memory = x.to_le_bytes().to_vec();
    memory.push(0xaa);
    let (answer, memory) = after(&format!("float x; bool b = {expression};"), &memory);
    assert_eq!(
        (answer, memory[4] < 2),
        ([0, 0, 5, 2], true),
        "{expression}"
    );
    memory[4] == 1
}

/// An infinity, and the one pattern of a not-a-number that is stored.
const INFINITY: u32 = 0x7f80_0000;
const NOT_A_NUMBER: u32 = 0x7fc0_0000;

#[test]
fn drafted_cases() {
    check_judged(&[
        ("float x = 1;", 8, 8),
        ("float x = 16777217.0;", 2, 10),
        ("float x = 1.00;", 2, 10),
        ("float x; int y = 1; x = x + y;", 8, 26),
    ]);
    check_ran(&[
        // 16777217 is a tie; the even neighbour is 16777216.
        (
            "float x = 16777216.0 + 1.0;",
            "00000000",
            [0, 0, 4, 1],
            "0000804b",
        ),
        (
            "float x = -0.0; bool b = x == 0.0;",
            "0000000000",
            [0, 0, 5, 2],
            "0000008001",
        ),
        // Infinity less infinity.
        (
            "float x; float y = x - x;",
            "0000807f 00000000",
            [0, 0, 8, 2],
            "0000807f 0000c07f",
        ),
        (
            "float x; bool a = x != x; bool b = x == x; bool c = x <= x;",
            "0000c07f aaaaaa",
            [0, 0, 7, 4],
            "0000c07f 010000",
        ),
        (
            "float block[2] v; if (v < 0.0) v = -v; else ;",
            "0000c0bf 0100c07f",
            [0, 0, 8, 4],
            "0000c03f 0100c07f",
        ),
        // A plain copy stores the one pattern too.
        (
            "float x; float y = x;",
            "0100807f 00000000",
            [0, 0, 8, 2],
            "0100807f 0000c07f",
        ),
    ]);
}

/// "2 for a larger or malformed constant": at its first digit, whatever is wrong behind it.
#[test]
fn constants_that_are_none() {
    check_judged(&[
        ("float x = 1.;", 2, 10),
        ("float x = 1.5;", 2, 10),
        ("float x = 0.5;", 2, 10),
        ("float x = 1.x;", 2, 10),
        ("float x = 1.0", 3, 13),
        ("float x = 1.", 2, 10),
        ("float x = 1. 0;", 2, 10),
        ("float x = 1.01;", 2, 10),
        ("float x = 1.10;", 2, 10),
        ("float x = 01.0;", 2, 10),
        ("float x = 00.0;", 2, 10),
        ("float x = 16777216.0;", 0, 0),
        ("float x = 16777216.5;", 2, 10),
        ("float x = 99999999.0;", 2, 10),
        ("float x = 99999999999.0;", 2, 10),
        ("float x = 4294967297.0;", 2, 10),
        ("float x = 18446744073709551617.0;", 2, 10),
        ("float x = 2147483648.", 2, 10),
        ("int x = 16777217.0;", 2, 8),
        ("// 1.5 16777217.0\nfloat x = 1.0;", 0, 0),
    ]);
}

/// Behind a constant another token may begin at once, and the dot is none by itself.
#[test]
fn what_stands_round_a_constant() {
    check_judged(&[
        ("float x = 1 .0;", 2, 12),
        ("float x = .0;", 2, 10),
        ("float x = .5;", 2, 10),
        ("float x = 1.0x;", 3, 13),
        ("float x = 1.0.0;", 2, 13),
        ("float x = 1.0 0;", 3, 14),
        ("float x = 1.0e1;", 3, 13),
        ("float x = 1.0f;", 3, 13),
        ("float x=1.0;float y=1.0-2.0*-3.0;", 0, 0),
        ("float x = 1..0;", 2, 10),
        ("float x = 0x1.0;", 2, 13),
        ("float x1.0;", 2, 8),
        ("int block[4.0] v;", 3, 10),
        ("float block[4.0] v;", 3, 12),
        ("float block[4] v = 4.0;", 0, 0),
        ("1.0 = 1.0;", 3, 0),
        ("float 1.0;", 3, 6),
    ]);
}

/// "`float` becomes reserved."
#[test]
fn float_is_a_word() {
    check_judged(&[
        ("int float;", 3, 4),
        ("float float;", 3, 6),
        ("float = 1.0;", 3, 6),
        ("int x = float;", 3, 8),
        ("if (true) float x; else float y;", 0, 0),
        ("while (false) float x;", 0, 0),
        ("scalar float x = 2.0;", 0, 0),
        (
            "int Float; int floats; int float_; int _float; int floa; int loat;",
            0,
            0,
        ),
    ]);
}

/// "8 for a float under `& | ^ ~` or mixed with int", and with bool alike.
#[test]
fn kinds_that_do_not_go_together() {
    check_judged(&[
        ("float x = 1.0 & 2.0;", 8, 14),
        ("float x = 1.0 | 2.0;", 8, 14),
        ("float x = 1.0 ^ 2.0;", 8, 14),
        ("float x = ~1.0;", 8, 10),
        ("float x = !1.0;", 8, 10),
        ("bool b = !1.0;", 8, 9),
        ("float x = 1.0 + 1;", 8, 14),
        ("float x = 1 + 1.0;", 8, 12),
        ("float x = 2 * 1.0;", 8, 12),
        ("bool b = 1.0 < 1;", 8, 13),
        ("bool b = 1 == 1.0;", 8, 11),
        ("bool b = 1.0 == true;", 8, 13),
        ("bool b = true != 1.0;", 8, 14),
        ("bool b = 1.0;", 8, 7),
        ("int x = 1.0;", 8, 6),
        ("float x = true;", 8, 8),
        ("float x = current_mask;", 8, 8),
        ("float x = 1.0 < 2.0;", 8, 8),
        ("int x; x = 1.0;", 8, 9),
        ("float x; x = 1;", 8, 11),
        ("float x; if (x) ; else ;", 8, 9),
        ("while (0.0) ;", 8, 0),
        ("float x = -true;", 8, 10),
        // The kind before the length.
        ("float block[2] a; int block[4] b; a = a + b;", 8, 40),
        ("float block[2] a; float block[4] b; a = a + b;", 9, 42),
        ("bool block[2] m; float s; if (m) s = 1.0; else ;", 10, 35),
        ("float block[3] v;", 7, 12),
    ]);
}

/// "`float`, 4 bytes": a float lies as an int does.
#[test]
fn floats_lie_as_ints_do() {
    let text =
        "bool a; float b; float block[4] c; bool d; float block[64] e; int f; bool t = c < b;";
    assert_eq!(numbers(judge(text.as_bytes())), [0, 0, 520, 0]);
    assert_eq!(addresses(text), [0, 4, 16, 32, 256, 512, 516]);
}

#[test]
fn constants_are_made_without_loss() {
    for (whole, expected) in [
        ("0.0", 0),
        ("1.0", 0x3f80_0000),
        ("2.0", 0x4000_0000),
        ("3.0", 0x4040_0000),
        ("10.0", 0x4120_0000),
        ("100.0", 0x42c8_0000),
        ("8388607.0", 0x4aff_fffe),
        ("8388608.0", 0x4b00_0000),
        ("8388609.0", 0x4b00_0001),
        ("16777215.0", 0x4b7f_ffff),
        ("16777216.0", 0x4b80_0000),
    ] {
        assert_eq!(pattern(whole), expected, "{whole}");
    }
    for whole in (0..=16_777_216).step_by(4_093) {
        let expected = (whole as f32).to_bits();
        assert_eq!(pattern(&format!("{whole}.0")), expected, "{whole}");
    }
}

#[test]
fn sums_are_rounded_to_nearest_and_ties_to_even() {
    assert_eq!(pattern("16777216.0 + 1.0"), 0x4b80_0000);
    assert_eq!(pattern("16777216.0 + 2.0"), 0x4b80_0001);
    assert_eq!(pattern("16777216.0 + 3.0"), 0x4b80_0002);
    assert_eq!(pattern("16777215.0 + 2.0"), 0x4b80_0000);
    // Each operation is rounded once, and by itself.
    assert_eq!(pattern("16777216.0 + 1.0 + 1.0"), 0x4b80_0000);
    assert_eq!(pattern("16777216.0 + (1.0 + 1.0)"), 0x4b80_0001);
    assert_eq!(pattern("4097.0 * 4097.0"), 0x4b80_1000);
    assert_eq!(pattern("4097.0 * 4097.0 - 16777216.0"), 0x4600_0000);
}

#[test]
fn zeros_have_signs() {
    assert_eq!(pattern("-0.0"), 0x8000_0000);
    assert_eq!(pattern("- -0.0"), 0);
    assert_eq!(pattern("0.0 - 0.0"), 0);
    assert_eq!(pattern("-0.0 + 0.0"), 0);
    assert_eq!(pattern("-0.0 - 0.0"), 0x8000_0000);
    assert_eq!(pattern("1.0 - 1.0"), 0);
    assert_eq!(pattern("-1.0 + 1.0"), 0);
    assert_eq!(pattern("0.0 * -1.0"), 0x8000_0000);
    assert_eq!(pattern("-0.0 * -1.0"), 0);
    // The smallest, halved: the sign stays where the value goes.
    let text = "float x; float y; float z = x * y;";
    let ran = after(text, &bytes("01000080 0000003f aaaaaaaa"));
    assert_eq!(ran.1, bytes("01000080 0000003f 00000080"));
}

#[test]
fn infinities_and_what_has_no_value() {
    let text = "float x; float y; float a = x + y; float b = x - y; float c = x * y;";
    let all = |x: &str, y: &str| {
        after(text, &bytes(&format!("{x}{y}{}", "aa".repeat(12)))).1[8..].to_vec()
    };
    assert_eq!(
        all("0000807f", "0000807f"),
        bytes("0000807f 0000c07f 0000807f")
    );
    assert_eq!(
        all("0000807f", "000080ff"),
        bytes("0000c07f 0000807f 000080ff")
    );
    assert_eq!(
        all("0000807f", "00000000"),
        bytes("0000807f 0000807f 0000c07f")
    );
    assert_eq!(
        all("00000080", "000080ff"),
        bytes("000080ff 0000807f 0000c07f")
    );
    // The largest, doubled and squared, and half of what it is apart from the next below.
    assert_eq!(
        all("ffff7f7f", "ffff7f7f"),
        bytes("0000807f 00000000 0000807f")
    );
    assert_eq!(
        all("ffff7f7f", "00000073"),
        bytes("0000807f feff7f7f 0000807f")
    );
    assert_eq!(
        all("ffff7f7f", "ffffff72"),
        bytes("ffff7f7f ffff7f7f 0000807f")
    );
}

/// No flush to zero: what is below the smallest normal counts, and products round to it.
#[test]
fn subnormals_are_kept() {
    let text = "float x; float y; float a = x + y; float b = x - y; float c = x * y;";
    let all = |x: &str, y: &str| {
        after(text, &bytes(&format!("{x}{y}{}", "aa".repeat(12)))).1[8..].to_vec()
    };
    assert_eq!(
        all("01000000", "01000000"),
        bytes("02000000 00000000 00000000")
    );
    assert_eq!(
        all("00008000", "01000000"),
        bytes("01008000 ffff7f00 00000000")
    );
    assert_eq!(
        all("ffff7f00", "01000000"),
        bytes("00008000 feff7f00 00000000")
    );
    // Three times the smallest, halved, is a tie between 1 and 2.
    assert_eq!(all("03000000", "0000003f")[8..], bytes("02000000"));
    assert_eq!(all("05000000", "0000003f")[8..], bytes("02000000"));
    assert_eq!(all("01000000", "0100003f")[8..], bytes("01000000"));
}

#[test]
fn comparisons_with_a_not_a_number_are_false_but_unequal() {
    for nan in [
        0x7fc0_0000,
        0xffc0_0000,
        0x7f80_0001,
        0xff80_0001,
        0x7fff_ffff,
        0xffff_ffff,
    ] {
        for comparison in ["<", ">", "<=", ">=", "=="] {
            for other in ["x", "0.0", "-x", "-1.0"] {
                assert!(!holds(&format!("x {comparison} {other}"), nan));
                assert!(!holds(&format!("{other} {comparison} x"), nan));
            }
        }
        assert!(holds("x != x", nan) && holds("x != 0.0", nan) && holds("1.0 != x", nan));
    }
}

#[test]
fn numbers_are_ordered_and_zero_equals_minus_zero() {
    for zero in [0, 0x8000_0000] {
        assert!(holds("x == 0.0", zero) && holds("x == -0.0", zero) && !holds("x != 0.0", zero));
        assert!(holds("x <= -0.0", zero) && holds("x >= 0.0", zero));
        assert!(!holds("x < 0.0", zero) && !holds("x > -0.0", zero));
    }
    assert!(holds("x < 0.0", 0x8000_0001) && holds("x > -1.0", 0x8000_0001));
    assert!(holds("x > 0.0", 1) && holds("x < 1.0", 1));
    assert!(holds("x > 16777216.0", INFINITY) && holds("x == x", INFINITY));
    assert!(holds("x < -16777216.0", INFINITY | 1 << 31) && holds("-x > x", INFINITY | 1 << 31));
}

/// "Every stored not-a-number is the pattern 7FC00000", also where it is only copied or its sign turned.
#[test]
fn every_stored_not_a_number_is_one_pattern() {
    for nan in [
        "0100807f", "010080ff", "0000c07f", "0000c0ff", "ffffff7f", "ffffffff", "efbeadff",
    ] {
        for value in ["x", "-x", "x + 1.0", "1.0 - x", "x * 0.0", "x - x", "(x)"] {
            let text = format!("float x; float y = {value};");
            let ran = after(&text, &bytes(&format!("{nan}00000000")));
            assert_eq!(ran.1, bytes(&format!("{nan}0000c07f")), "{text}");
        }
        let ran = after("float x; x = x;", &bytes(nan));
        assert_eq!(ran, ([0, 0, 4, 2], NOT_A_NUMBER.to_le_bytes().to_vec()));
    }
}

/// What no step stores keeps its bytes: under a declaration, in a lane that is off, and behind a spent budget.
#[test]
fn not_a_numbers_that_no_step_stored_stay() {
    check_ran(&[
        ("float x;", "efbeadff", [0, 0, 4, 1], "efbeadff"),
        (
            "bool block[2] m; float block[2] v; if (m) v = v; else ;",
            "0100aaaaaaaaaaaa efbeadff efbeadff",
            [0, 0, 16, 5],
            "0100aaaaaaaaaaaa 0000c07f efbeadff",
        ),
        (
            "bool block[2] m; float block[2] v; if (m) scalar v = v; else ;",
            "0100aaaaaaaaaaaa efbeadff efbeadff",
            [0, 0, 16, 5],
            "0100aaaaaaaaaaaa 0000c07f 0000c07f",
        ),
    ]);
    let mut memory = bytes("efbeadff");
    let answer = run(b"float x; x = x;", &mut memory, 1);
    assert_eq!(
        (numbers(answer), memory),
        ([13, 9, 4, 1], bytes("efbeadff"))
    );
    let answer = run(b"float x; x = 1.0;", &mut [0xaa; 3], PLENTY);
    assert_eq!(numbers(answer), [12, 0, 4, 0]);
}

/// Each of 64 lanes has arithmetic of its own, and a float of one lane stands for all.
#[test]
fn floats_in_64_lanes() {
    let text = "float block[64] v; float s; while (v < s) v = v + v + 1.0;";
    let mut memory: Vec<u8> = (0..64u32)
        .flat_map(|lane| (lane as f32).to_le_bytes())
        .collect();
    memory.extend(40.0f32.to_le_bytes());
    let mut expected = memory.clone();
    for lane in expected.chunks_exact_mut(4).take(64) {
        let mut value = f32::from_le_bytes(lane.try_into().unwrap());
        while value < 40.0 {
            value = value + value + 1.0;
        }
        lane.copy_from_slice(&value.to_le_bytes());
    }
    assert_eq!(after(text, &memory), ([0, 0, 260, 2 + 7 + 6], expected));
}

/// A not-a-number makes its lane leave every loop that goes on while something is below, and no `!=` lets it out.
#[test]
fn a_not_a_number_in_a_condition() {
    check_ran(&[
        (
            "float block[2] v; while (v < 2.0) v = v + 1.0;",
            "0000c07f 00000000",
            [0, 0, 8, 6],
            "0000c07f 00000040",
        ),
        (
            "float block[2] v; if (v == v) v = 1.0; else v = -1.0;",
            "0000c0ff 00000000",
            [0, 0, 8, 4],
            "000080bf 0000803f",
        ),
    ]);
    let mut memory = bytes("0000c07f");
    let answer = run(b"float x; while (x != 0.0) x = x - 1.0;", &mut memory, 100);
    assert_eq!(numbers(answer), [13, 26, 4, 100]);
}
