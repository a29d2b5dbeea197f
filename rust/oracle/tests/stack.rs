//! Long and deep texts on a thread with a stack of 256 KiB.

use oracle as side;

#[path = "../../cases/common.rs"]
mod common;

use common::{numbers, MOST_NEED};
use oracle::run;

/// The four numbers of a run on a small stack, with a memory that suffices.
fn on_a_small_stack(text: String) -> [u32; 4] {
    let work = move || numbers(run(text.as_bytes(), &mut [0; MOST_NEED], 20_000));
    let thread = std::thread::Builder::new().stack_size(256 * 1024);
    thread.spawn(work).unwrap().join().unwrap()
}

/// The text filled up to 4,096 bytes with as many of these as fit.
fn filled(start: &str, again: &str, end: &str) -> String {
    let room = 4096 - start.len() - end.len();
    format!("{start}{}{end}", again.repeat(room / again.len()))
}

#[test]
fn thousands_of_operators() {
    let text = filled("int a; a = a", "+a", ";");
    assert_eq!(on_a_small_stack(text), [0, 0, 4, 2]);
    let text = filled("int a; a = a", "*-a", ";");
    assert_eq!(on_a_small_stack(text), [0, 0, 4, 2]);
    let text = filled("bool a; a = a", "|a^a&a==1<2+3*4", ";");
    assert_eq!(on_a_small_stack(text), [0, 0, 1, 2]);
}

#[test]
fn thousands_of_statements() {
    assert_eq!(on_a_small_stack(";".repeat(4096)), [0, 0, 0, 4096]);
    assert_eq!(on_a_small_stack("{}".repeat(2048)), [0, 0, 0, 0]);
    let text = filled("bool a;", "while(a);", "");
    assert_eq!(on_a_small_stack(text)[0], 0);
    let text = filled("", "if(true);else;", "");
    assert_eq!(on_a_small_stack(text)[0], 0);
}

#[test]
fn every_level_and_every_operator_pending() {
    let open = "true|false^true&1<2==(".repeat(32);
    let text = format!("bool b = {open}true{};", ")".repeat(32));
    assert_eq!(on_a_small_stack(text), [0, 0, 1, 1]);
    let text = format!("int x = {}1{};", "1|2^3&4+5*(".repeat(32), ")".repeat(32));
    assert_eq!(on_a_small_stack(text), [0, 0, 4, 1]);
    let open = "a|a^a&a+a*(".repeat(32);
    let text = format!("int block[64] a; a = {open}a{};", ")".repeat(32));
    assert_eq!(on_a_small_stack(text), [0, 0, 256, 2]);
}

#[test]
fn thousands_of_opening_tokens() {
    for open in [
        "(",
        "{",
        "-",
        "scalar ",
        "if(true)",
        "if(true);else ",
        "while((",
    ] {
        let text = filled("", open, "");
        assert!([3, 4].contains(&on_a_small_stack(text)[0]), "{open}");
        let text = filled("int x = ", open, "");
        assert!([3, 4].contains(&on_a_small_stack(text)[0]), "{open}");
    }
    let text = format!("{};", "while(true)".repeat(32));
    assert_eq!(on_a_small_stack(text)[0], 13);
}
