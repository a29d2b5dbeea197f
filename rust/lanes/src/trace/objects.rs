//! A step as a JSON object.

use crate::json::{self, Object};
use crate::routine::Routine;
use crate::steps::{Step, Subject};
use crate::values;

/// A step as a JSON object.
pub fn step(routine: &Routine, step: &Step) -> String {
    let position = routine.source.position(step.head.start);
    let mask = (0..step.mask.length).map(|lane| step.mask.mask >> lane & 1 == 1);
    let object = Object::new()
        .with("step", step.number)
        .with("place", step.head.start)
        .with("end", step.head.end)
        .with("line", position.line)
        .with("column", position.column)
        .with("mask", json::list(mask));
    let object = match &step.subject {
        Subject::Tested(lanes) => object.with("test", json::list(lanes)),
        _ => object,
    };
    object
        .with("writes", json::list(writes(routine, step)))
        .json()
}

/// The lanes that a step writes, with their values before and after.
pub fn writes(routine: &Routine, step: &Step) -> Vec<String> {
    let target = match step.subject {
        Subject::Written(target) => target,
        _ => return Vec::new(),
    };
    let variable = &routine.variables[target];
    let lanes = (0..variable.length).filter(|lane| step.writes(routine, target, *lane));
    let value = |bytes: &[u8]| values::json(variable.kind, bytes);
    let objects = lanes.map(|lane| {
        let bytes = variable.lane(lane);
        let object = Object::new()
            .with_text("name", &variable.name)
            .with("lane", lane)
            .with("address", bytes.start)
            .with("before", value(&step.before[bytes.clone()]))
            .with("after", value(&step.after[bytes]));
        object.json()
    });
    objects.collect()
}
