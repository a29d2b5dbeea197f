//! Shrinking keeps what fails and drops the rest.

use generate::{mixed, pieces, shrink, Case};
use oracle::run;

/// The answer's code.
fn code(case: &Case) -> u32 {
    run(&case.text, &mut case.memory.clone(), case.budget).code
}

#[test]
fn pieces_make_up_the_text() {
    for index in 0..300 {
        let text = mixed(1, index).1.text;
        let joined: Vec<u8> = pieces(&text)
            .iter()
            .flat_map(|piece| piece.bytes)
            .copied()
            .collect();
        assert_eq!(joined, text);
    }
}

#[test]
fn a_failing_case_becomes_small() {
    for (sought, longest) in [
        (2, 32),
        (3, 1),
        (5, 4),
        (6, 16),
        (7, 14),
        (8, 30),
        (9, 60),
        (10, 60),
        (12, 8),
        (13, 1),
    ] {
        let cases = (0..).map(|index| mixed(4, index).1);
        let found = cases.into_iter().find(|case| code(case) == sought).unwrap();
        let small = shrink(&found, |case| code(case) == sought);
        assert_eq!(code(&small), sought);
        let text = String::from_utf8_lossy(&small.text);
        assert!(small.text.len() <= longest, "{sought}: {text}");
    }
}

/// A case that fails without floats too is shown in ints.
#[test]
fn floats_that_are_not_needed_become_ints() {
    let case = Case {
        text: b"float block[2] a; float block[4] b; b = b * 2.0 + a;".to_vec(),
        memory: vec![0; 64],
        budget: 100,
    };
    let small = shrink(&case, |case| code(case) == 9);
    let text = String::from_utf8(small.text).unwrap();
    assert!(!text.contains("float") && !text.contains('.'), "{text}");
}
