//! The calls on texts: codes and their words, the listing of variables, values in memory.

use ruihmento::{judge, run, run_each, services, variables};
use ruihmento::{Answer, Kind, Lanes, Misfit, Refusal};

/// Texts that the judge refuses with codes 1 to 11, in this order.
fn refused_texts() -> [String; 11] {
    [
        ";".repeat(4097),
        "int x = 010;".into(),
        "int x".into(),
        "{".repeat(33),
        "x = 1;".into(),
        "int a; int a;".into(),
        "int block[3] v;".into(),
        "float x = 3;".into(),
        "int block[4] a; int block[2] b; a = a + b;".into(),
        "bool block[4] m; int s; if (m) s = 1; else ;".into(),
        (0..65).map(|number| format!("int v{number};")).collect(),
    ]
}

/// Whether these words begin and end as those of Rust's errors do.
fn in_rusts_manner(words: &str) -> bool {
    words.starts_with(|first: char| first.is_lowercase()) && !words.ends_with('.')
}

#[test]
fn every_code_has_its_refusal_and_words() {
    for (text, expected) in refused_texts().iter().zip(Refusal::ALL) {
        let answer = judge(text.as_bytes());
        assert_eq!(answer.refusal(), Some(expected), "{text}");
        assert_eq!(answer.code, expected.code());
        assert!(!answer.is_accepted() && !answer.is_ended() && expected.is_of_text());
        assert_eq!((answer.need, answer.steps), (0, 0));
    }
    for (code, refusal) in (1..).zip(Refusal::ALL) {
        assert_eq!(refusal.code(), code);
        assert_eq!(Refusal::from_code(code), Some(refusal));
        assert!(in_rusts_manner(&refusal.to_string()), "{refusal}");
    }
    assert_eq!(Refusal::from_code(0), None);
    assert_eq!(Refusal::from_code(14), Some(Refusal::Other(14)));
    assert_eq!(Refusal::Other(14).code(), 14);
}

#[test]
fn a_place_is_told_where_it_means_something() {
    for text in refused_texts() {
        let refused = variables(text.as_bytes()).unwrap_err();
        let start = match refused.refusal {
            Refusal::TextTooLong => "code 1: ".to_string(),
            other => format!("code {} at byte {}: ", other.code(), refused.place),
        };
        assert!(refused.to_string().starts_with(&start), "{refused}");
        let stopped = run(text.as_bytes(), &mut [], 9).into_result().unwrap_err();
        assert_eq!(stopped.to_string(), refused.to_string());
        assert_eq!(stopped, refused.into());
    }
}

#[test]
fn an_accepted_text_may_still_not_end() {
    let short = run(b"int x = 1;", &mut [7; 3], 10);
    assert_eq!(short.refusal(), Some(Refusal::MemoryTooShort));
    assert!(short.is_accepted() && !short.is_ended());
    let error = short.into_result().unwrap_err();
    assert_eq!((error.need, error.steps), (4, 0));
    assert!(error.to_string().starts_with("code 12: the memory"));
    assert!(error.to_string().ends_with("(need 4, steps 0)"));

    let spent = run(b"int x = 1; x = 2;", &mut [7; 4], 1);
    assert_eq!(spent.refusal(), Some(Refusal::BudgetSpent));
    assert!(spent.is_accepted() && !spent.is_ended());
    let error = spent.into_result().unwrap_err();
    assert_eq!((error.place, error.need, error.steps), (11, 4, 1));
    assert!(error.to_string().starts_with("code 13 at byte 11: "));
    assert!(error.to_string().ends_with("(need 4, steps 1)"));
}

#[test]
fn variables_are_listed_in_text_order() {
    let text = b"{ int v; } bool block[8] _m1; // v\n{ float block[2] v; }";
    let listed = variables(text).unwrap();
    let rows = listed.list.iter();
    let rows: Vec<_> = rows
        .map(|v| (v.name, v.kind, v.length, v.address, v.place))
        .collect();
    let expected = [
        ("v", Kind::Int, 1, 0, 6),
        ("_m1", Kind::Bool, 8, 8, 25),
        ("v", Kind::Float, 2, 16, 52),
    ];
    assert_eq!(rows, expected);
    assert_eq!(listed.need, 24);
    assert_eq!(listed.find("v").map(|v| v.address), Some(0));
    assert_eq!(listed.find("m1"), None);
    assert_eq!(variables(b"").unwrap().list, []);
}

#[test]
fn sixty_four_variables_are_all_listed() {
    let text: String = (0..64)
        .map(|number| format!("int block[64] v{number};"))
        .collect();
    let listed = variables(text.as_bytes()).unwrap();
    assert_eq!((listed.list.len(), listed.need), (64, 16_384));
    let last = listed.list[63];
    assert_eq!((last.name, last.length), ("v63", 64));
    assert_eq!(last.range(), 16_128..16_384);
}

#[test]
fn values_go_into_memory_and_come_back() {
    let listed = variables(b"bool block[2] b; int block[2] v;").unwrap();
    let (b, v) = (&listed.list[0], &listed.list[1]);
    let mut memory = [0xaa; 16];
    v.put(&mut memory, &Lanes::Int(vec![-1, 258])).unwrap();
    b.put(&mut memory, &Lanes::Bool(vec![false, true])).unwrap();
    assert_eq!(memory[..2], [0, 1]);
    assert_eq!(memory[2..8], [0xaa; 6]);
    assert_eq!(memory[8..], [255, 255, 255, 255, 2, 1, 0, 0]);
    assert_eq!(v.lanes(&memory), Some(Lanes::Int(vec![-1, 258])));
    assert_eq!(b.lanes(&[0, 200]), Some(Lanes::Bool(vec![false, true])));
    assert_eq!(v.lanes(&memory[..15]), None);
    assert_eq!(v.lanes(&memory).unwrap().to_string(), "-1 258");
}

/// The floats of these patterns.
fn singles<const N: usize>(patterns: [u32; N]) -> [f32; N] {
    patterns.map(f32::from_bits)
}

#[test]
fn floats_go_into_memory_with_their_patterns_and_come_back() {
    let listed = variables(b"bool b; float block[8] v;").unwrap();
    let v = &listed.list[1];
    assert_eq!((v.kind, v.range()), (Kind::Float, 32..64));
    let patterns = [
        0x3fc0_0000,
        0x8000_0000,
        1,
        0x7f7f_ffff,
        0xff80_0000,
        0x7f80_0001,
        0xffff_ffff,
        0x7fc0_0000,
    ];
    let mut memory = [0xaa; 64];
    let floats = Lanes::Float(singles(patterns).to_vec());
    v.put(&mut memory, &floats).unwrap();
    assert_eq!(memory[..32], [0xaa; 32]);
    let bytes: Vec<u8> = patterns
        .iter()
        .flat_map(|pattern| pattern.to_le_bytes())
        .collect();
    assert_eq!(memory[32..], bytes);
    assert!(v.floats(&memory).unwrap().map(f32::to_bits).eq(patterns));
    let lanes = v.lanes(&memory).unwrap();
    assert_eq!(lanes.kind(), Kind::Float);
    let shown = "1.5 -0.0 1e-45 3.4028235e38 -inf NaN NaN NaN";
    assert_eq!(lanes.to_string(), shown);
    assert_eq!(v.lanes(&memory[..63]), None);
}

#[test]
fn a_float_is_no_int() {
    let listed = variables(b"float x; int y;").unwrap();
    let (x, y) = (&listed.list[0], &listed.list[1]);
    let mut memory = [0xaa; 8];
    let words = |misfit: Result<(), Misfit>| misfit.unwrap_err().to_string();
    let misfit = words(x.set_ints(&mut memory, &[1]));
    assert_eq!(misfit, "`x` is float, and the values are int");
    let misfit = words(y.set_floats(&mut memory, &[1.0]));
    assert_eq!(misfit, "`y` is int, and the values are float");
    assert!(y.floats(&memory).is_err() && x.ints(&memory).is_err());
    let misfit = words(x.set_floats(&mut memory, &[1.0, 2.0]));
    assert_eq!(misfit, "`x` has length 1, and the values have length 2");
    assert_eq!(memory, [0xaa; 8]);
}

#[test]
fn a_run_stores_one_not_a_number_and_leaves_others() {
    let listed = variables(b"float x; float y; x = x;").unwrap();
    let mut memory = [0; 8];
    for float in &listed.list {
        float
            .set_floats(&mut memory, &singles([0xffff_ffff]))
            .unwrap();
    }
    assert!(run(b"float x; float y; x = x;", &mut memory, 9).is_ended());
    assert_eq!(memory, [0, 0, 0xc0, 0x7f, 0xff, 0xff, 0xff, 0xff]);
}

#[test]
fn what_does_not_fit_is_said_and_writes_nothing() {
    let listed = variables(b"bool block[2] b; int block[2] v;").unwrap();
    let v = &listed.list[1];
    let mut memory = [0xaa; 16];
    let name = || "v".to_string();
    let length = Misfit::WrongLength {
        name: name(),
        length: 2,
        given: 1,
    };
    assert_eq!(v.put(&mut memory, &Lanes::Int(vec![1])), Err(length));
    let kind = Misfit::WrongKind {
        name: name(),
        kind: Kind::Int,
        given: Kind::Bool,
    };
    assert_eq!(v.set_bools(&mut memory, &[true; 8]), Err(kind.clone()));
    assert_eq!(v.bools(&memory).err(), Some(kind));
    let short = Misfit::MemoryTooShort {
        name: name(),
        end: 16,
        given: 15,
    };
    assert_eq!(v.set_ints(&mut memory[..15], &[1, 2]), Err(short.clone()));
    assert_eq!(v.ints(&memory[..15]).err(), Some(short));
    assert_eq!(memory, [0xaa; 16]);
}

#[test]
fn a_short_answer_slice_leaves_everything() {
    let (mut memory, mut table, mut answer) = ([7; 4], [7; 16], [7; 15]);
    assert_eq!(services::judge(b"int x = 1;", &mut answer), 0);
    assert_eq!(services::run(b"int x = 1;", &mut memory, 9, &mut answer), 0);
    assert_eq!(services::variables(b"int x;", &mut table, &mut answer), 0);
    assert_eq!((memory, table, answer), ([7; 4], [7; 16], [7; 15]));
}

#[test]
fn a_refused_text_gives_each_image_its_refusal() {
    for text in refused_texts() {
        let alone = run(text.as_bytes(), &mut [], 9);
        let (mut images, mut answers) = ([7; 25], [7; 55]);
        assert_eq!(
            run_each(text.as_bytes(), &mut images, 8, 9, &mut answers),
            3
        );
        assert!(Answer::list(&answers).eq([alone; 3]), "{text}");
        assert_eq!((images, &answers[48..]), ([7; 25], &[7; 7][..]));
    }
}

#[test]
fn an_image_shorter_than_need_is_code_12() {
    for size in 1..4 {
        let (mut images, mut answers) = ([7; 12], [7; 200]);
        let count = run_each(b"int x = 1;", &mut images, size, 9, &mut answers);
        assert_eq!(count, 12 / size);
        let short = run(b"int x = 1;", &mut [0; 3], 9);
        assert!(Answer::list(&answers).take(count).all(|one| one == short));
        assert_eq!(images, [7; 12]);
    }
}

#[test]
fn sizes_and_slices_that_hold_no_image_leave_everything() {
    let text = b"int x = 1;";
    for size in [0, 13, 1 << 32, usize::MAX / 16, usize::MAX - 1, usize::MAX] {
        let (mut images, mut answers) = ([7; 12], [7; 64]);
        assert_eq!(run_each(text, &mut images, size, 9, &mut answers), 0);
        assert_eq!((images, answers), ([7; 12], [7; 64]));
    }
    assert_eq!(run_each(text, &mut [], 4, 9, &mut [7; 64]), 0);
    assert_eq!(run_each(text, &mut [7; 12], 4, 9, &mut []), 0);
    assert_eq!(run_each(text, &mut [], 0, 0, &mut []), 0);
}
