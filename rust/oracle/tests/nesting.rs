//! Document 01, "The text": nesting, by every way of opening a level.

use oracle as side;

#[path = "../../cases/common.rs"]
mod common;

use common::verdict;

/// A text with n levels of this opening, then the middle, then the closing n times.
fn nested(open: &str, middle: &str, close: &str, n: usize) -> String {
    format!("{}{middle}{}", open.repeat(n), close.repeat(n))
}

#[test]
fn braces() {
    assert_eq!(verdict(nested("{", "", "}", 32)), (0, 0));
    assert_eq!(verdict(nested("{", "", "}", 33)), (4, 32));
    assert_eq!(verdict(nested("{", ";int x = (1);", "}", 31)), (0, 0));
    assert_eq!(verdict(nested("{", "int x = (1);", "}", 32)), (4, 40));
}

#[test]
fn unary_operators() {
    for sign in ["-", "~", "- ", "~-"] {
        let n = if sign == "~-" { 16 } else { 32 };
        assert_eq!(verdict(format!("int x = {}1;", sign.repeat(n))), (0, 0));
        let place = 8 + (sign.len() * n) as u32;
        assert_eq!(
            verdict(format!("int x = {}1;", sign.repeat(n + 1))),
            (4, place)
        );
    }
    // An operand that is complete counts no more.
    let text = format!("int x = {}1{};", "-".repeat(32), " * -1".repeat(50));
    assert_eq!(verdict(text), (0, 0));
    let text = format!("bool b = {}(true);", "!".repeat(32));
    assert_eq!(verdict(text), (4, 41));
    let text = format!("bool b = {}(true) & (false);", "!".repeat(31));
    assert_eq!(verdict(text), (0, 0));
}

#[test]
fn scalar_bodies() {
    // The body's level opens at its first token, here the next `scalar` or the last `;`.
    assert_eq!(verdict(nested("scalar ", ";", "", 32)), (0, 0));
    assert_eq!(verdict(nested("scalar ", ";", "", 33)), (4, 33 * 7));
    // A brace as a body opens two levels.
    assert_eq!(verdict(nested("scalar {", "", "}", 16)), (0, 0));
    assert_eq!(verdict(nested("scalar {", ";", "}", 17)), (4, 16 * 8 + 7));
    assert_eq!(verdict(format!("{}{{}}", "scalar ".repeat(31))), (0, 0));
    assert_eq!(
        verdict(format!("{}{{}}", "scalar ".repeat(32))),
        (4, 32 * 7)
    );
}

#[test]
fn branches() {
    let first = |n| nested("if (true) ", ";", " else ;", n);
    assert_eq!(verdict(first(32)), (0, 0));
    assert_eq!(verdict(first(33)), (4, 32 * 10 + 3));
    let second = |n| nested("if (true) ; else ", ";", "", n);
    assert_eq!(verdict(second(32)), (0, 0));
    assert_eq!(verdict(second(33)), (4, 32 * 17 + 3));
    // A first branch that is complete counts no more.
    let text = format!("if (true) {{}} else {}{{}}", "scalar ".repeat(30));
    assert_eq!(verdict(text), (0, 0));
    let text = format!("if (true) {{}} else {}{{}}", "scalar ".repeat(31));
    assert_eq!(verdict(text), (4, 18 + 31 * 7));
}

#[test]
fn loops_and_conditions() {
    let text = |n| nested("while (true) ", ";", "", n);
    assert_eq!(verdict(text(32)), (0, 0));
    assert_eq!(verdict(text(33)), (4, 32 * 13 + 6));
    // The `(` of a condition counts as an open `(`, and is closed before the body opens.
    let text = |n| format!("while ({}true{}) ;", "(".repeat(n), ")".repeat(n));
    assert_eq!(verdict(text(31)), (0, 0));
    assert_eq!(verdict(text(32)), (4, 38));
    let text = |n: usize| format!("{}while (true) ;{}", "{".repeat(n), "}".repeat(n));
    assert_eq!(verdict(text(31)), (0, 0));
    assert_eq!(verdict(text(32)), (4, 38));
}

#[test]
fn a_token_not_allowed_gives_3_even_at_the_limit() {
    let scalars = "scalar ".repeat(33);
    assert_eq!(verdict(&scalars[..33 * 7]), (3, 33 * 7));
    assert_eq!(verdict(format!("{scalars}else")), (3, 33 * 7));
    assert_eq!(verdict(format!("{scalars}=")), (3, 33 * 7));
    assert_eq!(verdict(format!("{scalars}x")), (4, 33 * 7));
    assert_eq!(verdict(format!("{scalars}{{")), (4, 33 * 7));
    let braces = "{".repeat(32);
    assert_eq!(verdict(format!("{braces}(")), (3, 32));
    assert_eq!(verdict(format!("{braces}if {{")), (3, 35));
    assert_eq!(verdict(format!("{braces}if (")), (4, 35));
    assert_eq!(verdict(format!("{braces}scalar )")), (3, 39));
    assert_eq!(verdict(format!("{braces}scalar ;")), (4, 39));
    let parentheses = "(".repeat(32);
    assert_eq!(verdict(format!("int x = {parentheses}+")), (3, 40));
    assert_eq!(verdict(format!("int x = {parentheses}-")), (4, 40));
    assert_eq!(verdict(format!("int x = {parentheses}1(")), (3, 41));
}
