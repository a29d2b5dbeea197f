//! Texts at the limits: nesting, declarations, length of the text, of names and of numbers.

use crate::layout::{comment, layout, Style};
use crate::random::Random;
use crate::singles::NEAR_CONSTANTS;
use crate::well_typed::{well_typed, Wishes};

/// The ways in which a statement opens a level: what stands before and after it.
const STATEMENT_WAYS: [(&str, &str); 6] = [
    ("{ ", " }"),
    ("scalar ", ""),
    ("if (true) ", " else ;"),
    ("if (false) ; else ", ""),
    ("while (false) ", ""),
    ("while (true) ", ""),
];

/// The ways in which a statement opens a level under a mask, where `m` is a block.
const MASKED_WAYS: [(&str, &str); 5] = [
    ("{ ", " }"),
    ("if (m) ", " else ;"),
    ("if (m) ; else ", ""),
    ("while (m) ", ""),
    ("if (true) ", " else ;"),
];

/// The ways in which an int expression opens a level.
const INT_WAYS: [(&str, &str); 4] = [("(", ")"), ("-", ""), ("~", ""), ("(1 + ", ")")];

/// The ways in which a float expression opens a level.
const FLOAT_WAYS: [(&str, &str); 4] = [("(", ")"), ("-", ""), ("(1.0 + ", ")"), ("(2.0 * ", ")")];

/// The ways in which a bool expression opens a level.
const BOOL_WAYS: [(&str, &str); 3] = [("(", ")"), ("!", ""), ("(true & ", ")")];

/// Wraps the middle in so many levels, all of one way or of any, and keeps a whole statement
/// where braces ask for none.
fn wrap(middle: String, ways: &[(&str, &str)], levels: usize, random: &mut Random) -> String {
    let only = random.once_in(2).then(|| *random.pick(ways));
    let mut text = middle;
    for _ in 0..levels {
        let (before, after) = only.unwrap_or_else(|| *random.pick(ways));
        text = format!("{before}{text}{after}");
    }
    text
}

/// Nesting of 30 to 34 levels, by every way of opening one.
pub fn nesting(random: &mut Random) -> Vec<u8> {
    match random.below(6) {
        0 => return last_level(random),
        1 | 2 => return masked_nesting(random),
        _ => {}
    }
    let levels = random.between(30, 34);
    let outer = match random.below(3) {
        0 => 0,
        1 => levels,
        _ => random.below(levels),
    };
    let inner = levels - outer;
    let leaf = match random.below(4) {
        0 => random.token(&[")", "else", "=", "1", "}", "block"]),
        _ => "",
    };
    let middle = match random.below(5) {
        _ if inner == 0 => format!("{leaf};"),
        4 => {
            let expression = wrap(format!("{leaf} 1.0"), &FLOAT_WAYS, inner, random);
            format!("float x = {expression};")
        }
        0 => {
            let expression = wrap(format!("{leaf} true"), &BOOL_WAYS, inner - 1, random);
            format!("if ({expression}) ; else ;")
        }
        1 => {
            let expression = wrap(format!("{leaf} false"), &BOOL_WAYS, inner, random);
            format!("bool b = {expression};")
        }
        _ => {
            let expression = wrap(format!("{leaf} 1"), &INT_WAYS, inner, random);
            format!("int x = {expression};")
        }
    };
    let mut text = wrap(middle, &STATEMENT_WAYS, outer, random);
    if random.once_in(8) {
        text.truncate(random.below(text.len()));
    }
    text.into_bytes()
}

/// The same under masks, mostly of many lanes: what stands innermost writes some of them.
fn masked_nesting(random: &mut Random) -> Vec<u8> {
    let levels = random.between(30, 34);
    let inner = random.below(levels);
    let length = *random.pick(&[4, 16, 32, 64, 64]);
    let middle = match random.below(4) {
        3 => {
            let value = wrap("2.0".into(), &FLOAT_WAYS, inner, random);
            format!("float block[{length}] x = {value};")
        }
        0 => format!(
            "m = {};",
            wrap("current_mask".into(), &BOOL_WAYS, inner, random)
        ),
        1 => format!("m = {};", wrap("false".into(), &BOOL_WAYS, inner, random)),
        _ => {
            let value = wrap("n".into(), &INT_WAYS, inner, random);
            format!("int block[{length}] x = {value};")
        }
    };
    let text = wrap(middle, &MASKED_WAYS, levels - inner, random);
    format!("bool block[{length}] m; int block[{length}] n; {text}").into_bytes()
}

/// A body whose first token opens the 32nd or 33rd level, perhaps two levels, or is not allowed.
fn last_level(random: &mut Random) -> Vec<u8> {
    let bodies = [
        ";",
        "{}",
        "int x;",
        "bool b = (true);",
        "if (true) ; else ;",
        "while (false) ;",
        "scalar ;",
        "x = 1;",
        "",
        "}",
        ")",
        "else ;",
        "1",
        "= 1;",
        "block",
    ];
    let middle = format!("scalar {}", random.token(&bodies));
    let levels = random.between(31, 32);
    wrap(middle, &STATEMENT_WAYS, levels, random).into_bytes()
}

/// 60 to 68 declarations, some in closed scopes, now and then one twice; at times all of the
/// longest, so that the 64th ends at the greatest need.
pub fn declarations(random: &mut Random) -> Vec<u8> {
    let count = *random.pick(&[60, 61, 62, 63, 64, 64, 64, 65, 66, 67, 68]);
    let twice = match random.below(6) {
        0 => Some(random.below(count)),
        1 => Some(64),
        _ => None,
    };
    let blocks = [" block[64]", " block[32]", " block[16]", " block[4]"];
    let one = random.once_in(2).then(|| random.token(&blocks));
    let ints = random.once_in(2);
    let mut text = String::new();
    for index in 0..count {
        let kind = match ints {
            true => "int",
            false => random.token(&["int", "bool", "float"]),
        };
        let block = one.unwrap_or_else(|| match random.below(8) {
            0 => " block[2]",
            1 => " block[4]",
            2 => " block[8]",
            3 => " block[16]",
            4 => " block[32]",
            5 => " block[64]",
            _ => "",
        });
        let value = match (random.below(4), kind) {
            (0, "int") => " = 3",
            (0, "float") => " = 3.0",
            (0, _) => " = true",
            _ => "",
        };
        let number = if twice == Some(index) { 0 } else { index };
        let declaration = format!("{kind}{block} v{number}{value};");
        match random.below(6) {
            0 => text.push_str(&format!("{{{declaration}}}\n")),
            1 => text.push_str(&format!("{declaration}\n")),
            _ => text.push_str(&declaration),
        }
    }
    text.into_bytes()
}

/// Texts of 4,090 to 4,100 bytes.
pub fn long_text(random: &mut Random) -> Vec<u8> {
    let length = random.between(4090, 4100);
    let mut wishes = Wishes::any(random);
    wishes.statements = wishes.statements.min(5);
    let tokens = well_typed(&wishes, random);
    let mut text = layout(&tokens, Style::Tight, random);
    text.truncate(4000);
    let (start, again, end): (&str, &str, &str) = *random.pick(&[
        ("", ";", ""),
        ("", " ", ""),
        ("", "\n", ";"),
        ("//", "\0", ""),
        ("//", "/", "\n;"),
        ("int zz=1", "+1", ";"),
        ("int zz=1", "*-3", ";"),
        ("int block[64] zz=1", "*-3", ";"),
        ("float zz=1.0", "+1.0", ";"),
        ("float block[64] zz=1.0", "*-3.0", ";"),
        ("float zz=", "9", ".0;"),
        ("bool zz=true", "^false", ";"),
        ("bool block[32] zz=true", "^false", ";"),
        ("", "{}", ""),
        ("", "a", ""),
        ("int ", "a", ";"),
        ("int zz=", "9", ";"),
        ("", "if(true);else;", ""),
    ]);
    text.extend(start.as_bytes());
    while text.len() + again.len() + end.len() <= length {
        text.extend(again.as_bytes());
    }
    text.extend(end.as_bytes());
    while text.len() < length {
        text.push(b' ');
    }
    text
}

/// A text with comments of any bytes between its tokens, at times with none before the end.
pub fn comments(random: &mut Random) -> Vec<u8> {
    let mut wishes = Wishes::any(random);
    wishes.statements = 2;
    let tokens = well_typed(&wishes, random);
    let mut text = layout(&tokens, Style::Comments, random);
    for _ in 0..random.below(3) {
        comment(&mut text, random);
    }
    match random.below(5) {
        0 => text.extend(b"//"),
        1 => text.extend(b"/"),
        2 => text.extend(b"// end"),
        3 if text.last() == Some(&b'\n') => {
            text.pop();
        }
        _ => {}
    }
    text
}

/// Names of 30 to 33 bytes, names that differ late or not at all, and nearly reserved ones.
pub fn names(random: &mut Random) -> Vec<u8> {
    let one = name(random);
    let mut other = match random.below(3) {
        0 => name(random),
        1 => one[..one.len() - 1].to_string(),
        _ => one.clone(),
    };
    if random.once_in(2) {
        other.pop();
        other.push(*random.pick(&['a', '0', '_']));
    }
    if other.is_empty() {
        other.push('o');
    }
    let block = random.token(&["", "", "", " block[64]", " block[32]", " block[4]"]);
    let text = match random.below(4) {
        0 => format!("int{block} {one}; {one} = {other};"),
        1 => format!("bool{block} {one} = true; {{ int {other}; }} {one} = !{one};"),
        2 => format!("int{block} {one}; int{block} {other}; {other} = {one} + {other};"),
        _ => format!(
            "{{int {one} = 5;}} int{block} {other} = 1; \
             while (0 < {other}) {other} = {other} - 1;"
        ),
    };
    text.into_bytes()
}

/// One name, mostly 30 to 33 bytes long.
fn name(random: &mut Random) -> String {
    if random.once_in(3) {
        let nearly = [
            "_",
            "Int",
            "ints",
            "in",
            "int_",
            "_int",
            "bool1",
            "current_mas",
            "current_mask_",
            "truefalse",
            "elseif",
            "blocks",
            "scala",
            "floa",
            "float_",
            "floats",
            "If",
            "while",
            "Z",
            "z9",
        ];
        return random.token(&nearly).into();
    }
    let letters: Vec<char> = ('a'..='z').chain('A'..='Z').chain(['_']).collect();
    let length = random.between(30, 33);
    let first = *random.pick(&letters);
    let rest = (1..length).map(|index| match index % 3 {
        0 => '7',
        1 => 'q',
        _ => '_',
    });
    std::iter::once(first).chain(rest).collect()
}

/// Constants of floats that are one good token.
const GOOD_CONSTANTS: [&str; 8] = [
    "0.0",
    "1.0",
    "2.0",
    "10.0",
    "8388609.0",
    "16777214.0",
    "16777215.0",
    "16777216.0",
];

/// Numbers that are one good token.
const GOOD_NUMBERS: [&str; 19] = [
    "0",
    "1",
    "2",
    "4",
    "8",
    "9",
    "10",
    "16",
    "17",
    "31",
    "32",
    "33",
    "63",
    "64",
    "65",
    "128",
    "2147483646",
    "2147483647",
    "2147483600",
];

/// Numbers that are too large, or start with a zero, or run into a letter.
const BAD_NUMBERS: [&str; 18] = [
    "00",
    "01",
    "016",
    "064",
    "2147483648",
    "2147483650",
    "2147483700",
    "3000000000",
    "4294967295",
    "4294967296",
    "4294967297",
    "6442450943",
    "9999999999",
    "21474836470",
    "18446744073709551617",
    "1a",
    "0x1",
    "1_",
];

/// Lengths of blocks, and numbers beside them.
const LENGTHS: [&str; 14] = [
    "1", "2", "4", "8", "16", "32", "64", "0", "3", "31", "33", "63", "65", "128",
];

/// Numbers round the limits, as values, lengths and parts of other tokens.
pub fn numbers(random: &mut Random) -> Vec<u8> {
    match random.below(3) {
        0 => constants(random),
        _ => ints(random),
    }
}

/// Constants of floats round the limits, and what is nearly one, also where no float may stand.
fn constants(random: &mut Random) -> Vec<u8> {
    let mut number = || match random.below(8) {
        0..=2 => random.token(&NEAR_CONSTANTS),
        3 => random.token(&GOOD_NUMBERS),
        _ => random.token(&GOOD_CONSTANTS),
    };
    let (one, other) = (number(), number());
    let text = match random.below(8) {
        0 => format!("float x = {one};"),
        1 => format!("float x = -{one} - {other};"),
        2 => format!("float block[{one}] v;"),
        3 => format!("float block[{}] v = {one};", random.token(&LENGTHS)),
        4 => format!("bool b = {one} < {other};"),
        5 => format!("float x={one}*{other}+{one};"),
        6 => format!("int x = {one};"),
        _ => format!("float x; x = {one}; x = x - {other};"),
    };
    text.into_bytes()
}

/// Numbers of ints round the limits.
fn ints(random: &mut Random) -> Vec<u8> {
    let mut number = || match random.below(4) {
        0 => random.token(&BAD_NUMBERS),
        _ => random.token(&GOOD_NUMBERS),
    };
    let (one, other) = (number(), number());
    let length = match random.below(2) {
        0 => random.token(&LENGTHS),
        _ => one,
    };
    let text = match random.below(7) {
        0 => format!("int x = {one};"),
        1 => format!("int x = -{one} - {other};"),
        2 => format!("int block[{length}] v;"),
        3 => format!("int block[{length}] v = {other};"),
        4 => format!("bool b = {one} < {other};"),
        5 => format!("int x = {one} * {other} + {one};"),
        _ => format!("int x; x = ~{one}; x = {other};"),
    };
    text.into_bytes()
}
