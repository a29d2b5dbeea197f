//! Every budget from 0 to past the end: code 13 on the way, and the memory of exactly those steps.

use generate::{memory_for, pieces, well_typed_text, Piece, Random, Wishes};
use oracle::{run, variables, Answer, Row};

/// A run's answer and the memory it leaves.
fn ran(text: &[u8], memory: &[u8], budget: u32) -> (Answer, Vec<u8>) {
    let mut memory = memory.to_vec();
    let answer = run(text, &mut memory, budget);
    (answer, memory)
}

/// The bytes of the token at this place, which must start one.
fn token_at<'t>(read: &[Piece<'t>], place: u32) -> &'t [u8] {
    let found = read.iter().find(|piece| piece.start == place as usize);
    found.expect("a place is a token's start").bytes
}

/// The variables that the statement at this place can write: none, the one it declares, or those
/// of the name it assigns.
fn targets<'r>(read: &[Piece<'_>], rows: &'r [Row], place: u32) -> Vec<&'r Row> {
    match token_at(read, place) {
        b";" | b"if" | b"while" => Vec::new(),
        b"int" | b"bool" | b"float" => rows
            .iter()
            .filter(|row| row.place > place)
            .take(1)
            .collect(),
        name => {
            let named = |row: &&Row| token_at(read, row.place) == name;
            rows.iter().filter(named).collect()
        }
    }
}

/// Checks one step: only bytes of a variable that its statement can write have changed.
fn check_step(before: &[u8], after: &[u8], targets: &[&Row]) {
    for at in 0..before.len() {
        let written = targets.iter().any(|row| {
            let size = row.length as usize * row.lane_size();
            let address = row.address as usize;
            (address..address + size).contains(&at)
        });
        assert!(before[at] == after[at] || written);
    }
}

/// Sweeps the budgets of a program that ends with enough of it; gives the steps it takes.
fn sweep(text: &[u8], memory: &[u8]) -> u32 {
    let (end, left) = ran(text, memory, 1_000_000);
    assert_eq!(
        (end.code, end.place),
        (0, 0),
        "{}",
        String::from_utf8_lossy(text)
    );
    let rows = variables(text).rows;
    let read = pieces(text);
    let mut before = memory.to_vec();
    let mut due: Option<u32> = None;
    for budget in 0..=end.steps + 2 {
        let (answer, after) = ran(text, memory, budget);
        let targets = due.map_or(Vec::new(), |place| targets(&read, &rows, place));
        check_step(&before, &after, &targets);
        if budget < end.steps {
            assert_eq!((answer.code, answer.steps), (13, budget));
            assert_eq!(answer.need, end.need);
            due = Some(answer.place);
        } else {
            assert_eq!((answer, &after), (end, &left));
            due = None;
        }
        before = after;
    }
    end.steps
}

#[test]
fn routine_of_document_01() {
    let text = b"bool block[4] ok; int block[4] s; int block[4] t = 10; \
        if (ok) { if (s < t) s = s + t; else s = s - t; } else ;";
    let mut memory = vec![0xaa; 48];
    memory[..4].copy_from_slice(&[1, 0, 1, 0]);
    for (lane, sample) in [4i32, 7, 25, 90].into_iter().enumerate() {
        memory[16 + 4 * lane..20 + 4 * lane].copy_from_slice(&sample.to_le_bytes());
    }
    assert_eq!(sweep(text, &memory), 8);
}

#[test]
fn generated_programs_that_end() {
    let mut steps = 0;
    let mut swept = 0;
    for index in 0..400 {
        let mut random = Random::new(99, index);
        let mut wishes = Wishes::any(&mut random);
        wishes.endless = false;
        let text = well_typed_text(&wishes, &mut random);
        let mut memory = memory_for(&text, &mut random);
        let answer = oracle::judge(&text);
        memory.resize(answer.need as usize + 3, 0x55);
        if answer.code == 0 && ran(&text, &memory, 400).0.code == 0 {
            steps += sweep(&text, &memory);
            swept += 1;
        }
    }
    assert!(
        swept > 300 && steps > 4000,
        "{swept} programs, {steps} steps"
    );
}
