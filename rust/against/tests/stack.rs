//! A call of the archive uses less than 256 KiB of stack, whatever the text.

#[allow(dead_code)] // Its rooms alone are used here.
mod pages;
mod painted;

use generate::mixed;
use ruihmento::services;
use std::io::Write;

/// The stack that a call may use.
const MOST: usize = 256 * 1024;

/// A little for a thread itself.
const THREAD: usize = 16 * 1024;

/// The most bytes of memory that a text can need.
const MOST_NEED: usize = 16_384;

/// A service, called on this text with slices that suffice; the long ones are not on the stack.
type Called = fn(&[u8]) -> usize;

/// Every service by its name.
const SERVICES: [(&str, Called); 4] = [
    ("judge", |text| services::judge(text, &mut [0; 16]) as usize),
    ("run", |text| {
        services::run(text, &mut vec![1; MOST_NEED], 5_000, &mut [0; 16]) as usize
    }),
    ("run_each", |text| {
        let mut images = vec![1; 2 * MOST_NEED + 800];
        services::run_each(text, &mut images, MOST_NEED, 5_000, &mut [0; 40])
    }),
    ("variables", |text| {
        services::variables(text, &mut vec![0; 1024], &mut [0; 16]) as usize
    }),
];

/// The text filled up to 4,096 bytes with as many of these as fit.
fn filled(start: &str, again: &str, end: &str) -> Vec<u8> {
    let room = 4096 - start.len() - end.len();
    format!("{start}{}{end}", again.repeat(room / again.len())).into_bytes()
}

/// As many values of so many lanes waiting for their operator as there can be.
fn pending(lanes: usize) -> Vec<u8> {
    let (open, close) = ("a|a^a&a+a*(".repeat(32), ")".repeat(32));
    format!("int block[{lanes}] a; a = {open}a{close};").into_bytes()
}

/// The same in floats.
fn pending_floats(lanes: usize) -> Vec<u8> {
    let (open, close) = ("a+a*(".repeat(32), ")".repeat(32));
    format!("float block[{lanes}] a; a = {open}a{close};").into_bytes()
}

/// Long and deep texts.
fn texts() -> Vec<Vec<u8>> {
    let mut texts = vec![
        filled("int a; a = a", "+a", ";"),
        filled("int a; a = a", "*-a", ";"),
        filled("bool a; a = a", "|a^a&a==1<2+3*4", ";"),
        filled("", ";", ""),
        filled("", "{}", ""),
        filled("bool a;", "while(a);", ""),
        filled("", "if(true);else;", ""),
        format!(
            "bool b = {}true{};",
            "true|false^true&1<2==(".repeat(32),
            ")".repeat(32)
        )
        .into(),
        format!("int x = {}1{};", "1|2^3&4+5*(".repeat(32), ")".repeat(32)).into(),
        format!("{};", "while(true)".repeat(32)).into(),
        format!("bool block[16] m; {};", "while(m)".repeat(32)).into(),
        format!("bool block[64] m; {};", "while(m)".repeat(32)).into(),
        format!(
            "bool block[64] m; {}m = !m;{}",
            "if(m)".repeat(31),
            "else;".repeat(31)
        )
        .into(),
        filled("int block[64] a; a = a", "+a", ";"),
        filled("bool block[64] a; a = a", "|a^a&a==1<2+3*4", ";"),
        filled(
            "int block[64] a; bool block[64] m;",
            "if(m)a=a-1;else a=a+1;",
            "",
        ),
        pending(64),
        pending(32),
        filled("float a; a = a", "+a", ";"),
        filled("float block[64] a; a = a", "*-a", ";"),
        filled(
            "float block[64] a; bool block[64] b; b = b",
            "|a<1.0+2.0*a",
            ";",
        ),
        pending_floats(64),
    ];
    // Every variable of the greatest size, and written.
    let declared = (0..64).map(|n| format!("int block[64] v{n}={n};"));
    texts.push(declared.collect::<String>().into_bytes());
    let opening = [
        "(",
        "{",
        "-",
        "scalar ",
        "if(true)",
        "if(true);else ",
        "while((",
    ];
    for open in opening {
        texts.push(filled("", open, ""));
        texts.push(filled("int x = ", open, ""));
    }
    texts
}

/// The texts above, and generated ones.
fn all_texts() -> Vec<Vec<u8>> {
    let generated = (0..3000).map(|index| mixed(5, index).1.text);
    texts().into_iter().chain(generated).collect()
}

#[test]
fn the_longest_blocks_are_accepted() {
    let texts = texts().into_iter();
    let accepted = texts.filter(|text| ruihmento::judge(text).is_accepted());
    let needs: Vec<usize> = accepted.map(|text| ruihmento::judge(&text).need).collect();
    assert_eq!(needs.iter().max(), Some(&MOST_NEED));
    assert!(needs.iter().filter(|need| **need >= 64).count() >= 8);
}

#[test]
fn calls_fit_a_small_stack() {
    let texts = all_texts();
    let work = move || {
        for (name, service) in SERVICES {
            texts
                .iter()
                .for_each(|text| assert!(service(text) > 0, "{name}"));
        }
    };
    let thread = std::thread::Builder::new().stack_size(MOST + THREAD);
    thread.spawn(work).unwrap().join().unwrap();
}

#[test]
fn painted_stacks_stay_painted_below() {
    let texts = all_texts();
    for (name, service) in SERVICES {
        let mut returned = 0;
        let used = painted::used(&mut || {
            returned = texts.iter().map(|text| service(text)).sum();
        });
        // Past the capture of tests, so that the figures are on record.
        let _ = writeln!(std::io::stderr(), "{name}: {used} bytes of stack");
        assert!(used < MOST, "{name}");
        assert!(returned >= texts.len(), "{name}");
    }
}
