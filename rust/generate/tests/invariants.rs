//! What document 01 says of every answer, over many generated cases, on a small stack.

use generate::{mixed, Case};
use oracle::{judge, run, variables, Answer, Code, Program, Row};

/// The size of a variable in bytes.
fn size(row: &Row) -> u32 {
    row.length * row.lane_size() as u32
}

/// Runs the case and checks whatever must hold of any run.
fn check(case: &Case) {
    let Case {
        text,
        memory,
        budget,
    } = case;
    let mut after = memory.clone();
    let answer = run(text, &mut after, *budget);
    assert!(answer.place as usize <= text.len());
    check_numbers(answer, judge(text), memory.len(), *budget);
    if (1..=12).contains(&answer.code) {
        assert_eq!(&after, memory);
        return;
    }
    let listed = check_rows(text);
    let inside = |at: u32| {
        let mut rows = listed.iter();
        rows.any(|row| (row.address..row.address + size(row)).contains(&at))
    };
    for at in 0..memory.len() {
        assert!(after[at] == memory[at] || inside(at as u32));
    }
    let mut again = memory.clone();
    let program = Program::prepare(text).unwrap();
    assert_eq!(program.run(&mut again, *budget), answer);
    assert_eq!(again, after);
}

/// Codes: what each code says of place, need and steps.
fn check_numbers(answer: Answer, judged: Answer, memory: usize, budget: u32) {
    assert_eq!(answer.need, judged.need);
    assert_eq!(judged.steps, 0);
    let short = (memory as u32) < judged.need;
    match answer.code {
        0 => assert!(judged.code == 0 && !short && answer.place == 0 && answer.steps <= budget),
        12 => assert!(judged.code == 0 && short && answer.place == 0 && answer.steps == 0),
        13 => assert!(judged.code == 0 && !short && answer.steps == budget),
        code => assert!(answer == judged && code < 12 && answer.need == 0),
    }
}

/// Memory: each address is the next multiple of the whole size, and need is the last end.
fn check_rows(text: &[u8]) -> Vec<Row> {
    let listed = variables(text);
    let mut end: u32 = 0;
    let mut place = 0;
    for row in &listed.rows {
        assert!(row.address % size(row) == 0 && row.address >= end);
        assert!(row.address - end < size(row));
        assert!(place <= row.place && (row.place as usize) < text.len());
        (end, place) = (row.address + size(row), row.place + 1);
    }
    assert_eq!(listed.answer.code, Code::Ended as u32);
    assert_eq!(listed.answer.need, end);
    assert!(end <= 16_384 && listed.rows.len() <= 64);
    assert_eq!(listed.answer.steps as usize, listed.rows.len());
    listed.rows
}

#[test]
fn every_answer_is_in_order() {
    let work = || {
        for index in 0..12_000 {
            check(&mixed(2024, index).1);
        }
    };
    let thread = std::thread::Builder::new().stack_size(256 * 1024);
    thread.spawn(work).unwrap().join().unwrap();
}
