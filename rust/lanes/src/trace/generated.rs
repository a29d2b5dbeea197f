//! On generated routines: what a step is said to do is what the engine does, and a lane by itself
//! goes beside the run of all lanes.

use super::alone::Alone;
use crate::routine::Routine;
use crate::source::Source;
use crate::steps::{Step, Steps, Subject};
use crate::syntax::tokens;
use crate::syntax::tree::{self, Shape, Statement};
use crate::syntax::types::Action;
use generate::{memory_for, well_typed_text, Random, Wishes, BLOCK_LENGTHS};
use std::ops::Range;
use std::path::Path;

/// The most steps of a run that are looked at.
const STEPS: u32 = 60;

/// A routine and a memory of the size it needs.
fn routine(index: u64) -> (Routine, Vec<u8>) {
    let mut random = Random::new(77, index);
    let length = *random.pick(&BLOCK_LENGTHS);
    let wishes = Wishes::one_length(length, &mut random);
    let text = match index % 2 {
        0 => well_typed_text(&wishes, &mut random),
        _ => generate::case(generate::Sort::WellTyped, &mut random).text,
    };
    let mut memory = memory_for(&text, &mut random);
    let routine = Routine::new(Source::new(Path::new("f"), text));
    memory.resize(routine.need(), 0x77);
    (routine, memory)
}

/// The branches of the `if` that stands at this place.
fn branches(statements: &[Statement], place: usize) -> Option<[Range<usize>; 2]> {
    statements
        .iter()
        .find_map(|statement| match &statement.shape {
            Shape::If(_, first, second) if statement.head.start == place => {
                Some([first.head.start..first.end, second.head.start..second.end])
            }
            Shape::If(_, first, second) => branches(std::slice::from_ref(first), place)
                .or_else(|| branches(std::slice::from_ref(second), place)),
            Shape::While(_, body) | Shape::Scalar(body) => {
                branches(std::slice::from_ref(body), place)
            }
            Shape::Braces(inner) => branches(inner, place),
            _ => None,
        })
}

/// Every byte that changed belongs to a lane that is said to be written.
fn check_writes(routine: &Routine, step: &Step) {
    for (index, variable) in routine.variables.iter().enumerate() {
        for lane in 0..variable.length {
            let bytes = variable.lane(lane);
            let changed = step.before[bytes.clone()] != step.after[bytes];
            assert!(!changed || step.writes(routine, index, lane));
        }
    }
}

/// The lanes of a condition lead to the step that follows.
fn check_test(steps: &Steps, step: &Step, lanes: &[bool], next: &Step) {
    let taken = |wanted: bool| {
        let active = |at: usize| step.active(lanes.len(), at);
        let taken = lanes.iter().enumerate();
        let taken = taken.filter(|(at, on)| active(*at) && **on == wanted);
        taken.map(|(at, _)| 1_u64 << at).sum::<u64>()
    };
    let at = next.head.start;
    let masked = |mask: u64| lanes.len() == 1 || next.mask.length == 1 || next.mask.mask == mask;
    if let Action::Repeats(_, body) = &steps.doings[step.doing].action {
        let inside = body.contains(&at) || at == step.head.start;
        assert_eq!(inside, taken(true) != 0);
        assert!(!inside || masked(taken(true)));
        return;
    }
    let text = &steps.routine.source.text;
    let tokens = tokens::tokens(text).unwrap();
    let branches = branches(&tree::statements(&tokens).unwrap(), step.head.start).unwrap();
    for (branch, wanted) in branches.iter().zip([true, false]) {
        let costs = steps
            .doings
            .iter()
            .any(|doing| branch.contains(&doing.head.start));
        if costs && taken(wanted) != 0 {
            assert!(branch.contains(&at) && masked(taken(wanted)));
            return;
        }
    }
    assert!(branches.iter().all(|branch| !branch.contains(&at)));
}

#[test]
fn steps_do_what_they_are_said_to_do() {
    let (mut writes, mut tests) = (0, 0);
    for index in 0..400 {
        let (routine, memory) = routine(index);
        let steps = Steps::new(&routine, &memory);
        let mut now = steps.after(0).unwrap();
        let mut last: Option<Step> = None;
        while let Some((step, next)) = steps.step(&now).unwrap() {
            check_writes(&routine, &step);
            writes += u32::from(matches!(step.subject, Subject::Written(_)));
            let tested = last.as_ref().map(|last| (last, &last.subject));
            if let Some((last, Subject::Tested(lanes))) = tested {
                check_test(&steps, last, lanes, &step);
                tests += 1;
            }
            last = Some(step);
            now = next;
            if now.answer.steps == STEPS {
                break;
            }
        }
    }
    assert!(writes > 1000 && tests > 500, "{writes} {tests}");
}

#[test]
fn a_lane_by_itself_goes_beside_the_run() {
    let mut checked = 0;
    for index in (0..200).step_by(2) {
        let (routine, memory) = routine(index);
        let steps = Steps::new(&routine, &memory);
        let left = steps.after(STEPS).unwrap();
        if !left.answer.is_ended() {
            continue;
        }
        for lane in 0..2 {
            let alone = Alone::new(&routine, &memory, lane).unwrap();
            let (_, beside) = alone.beside(STEPS).unwrap();
            let compared = alone.compared(&left).unwrap();
            let own = format!("takes {} step", beside.len());
            assert!(compared.contains(&own), "{compared}");
            assert!(compared.ends_with("has here"), "{compared}");
            checked += 1;
        }
    }
    assert!(checked > 40, "{checked}");
}
