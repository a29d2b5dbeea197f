//! A trace as one page that needs nothing else.

use crate::escape;
use crate::json::{self, Object};
use crate::routine::{Kind, Routine, Variable};
use crate::steps::{Step, Steps, Subject};
use crate::values;
use ruihmento::Answer;

/// The page, with the names of what is put in between braces and percent signs.
const PAGE: &str = include_str!("page.html");

/// How the page looks.
const STYLE: &str = include_str!("page.css");

/// What the page does.
const SCRIPT: &str = include_str!("page.js");

/// The page of these steps, which start from this memory.
pub fn page(steps: &Steps, memory: &[u8], shown: &[Step], answer: Answer) -> String {
    let routine = steps.routine;
    let data = Object::new()
        .with("variables", json::list(variables(routine, memory)))
        .with(
            "steps",
            json::list(shown.iter().map(|one| step(routine, one))),
        );
    let count = values::counted(u64::from(answer.steps), "step");
    let end = match answer.is_ended() {
        true => format!("ended after {count}"),
        false => format!("budget of {count} spent"),
    };
    // A `<` in the data would end the script; in JSON it can be written otherwise.
    let data = data.json().replace('<', "\\u003c");
    let parts = [
        ("{%file%}", markup(&routine.source.name)),
        ("{%end%}", end),
        ("{%count%}", shown.len().to_string()),
        ("{%routine%}", text(steps)),
        ("{%style%}", STYLE.into()),
        ("{%data%}", data),
        ("{%script%}", SCRIPT.into()),
    ];
    filled(PAGE, &parts)
}

/// The page with each part in its place; what is put in is not looked at again.
fn filled(page: &str, parts: &[(&str, String)]) -> String {
    let mut out = String::new();
    let mut rest = page;
    while let Some(at) = rest.find("{%") {
        out.push_str(&rest[..at]);
        rest = &rest[at..];
        match parts.iter().find(|(name, _)| rest.starts_with(name)) {
            Some((name, part)) => {
                out.push_str(part);
                rest = &rest[name.len()..];
            }
            None => {
                out.push_str("{%");
                rest = &rest[2..];
            }
        }
    }
    out + rest
}

/// A text in a page.
fn markup(text: &str) -> String {
    let text = text.replace('&', "&amp;").replace('<', "&lt;");
    text.replace('>', "&gt;").replace('"', "&quot;")
}

/// Bytes of the routine in a page, with their line breaks.
fn bytes(bytes: &[u8]) -> String {
    let lines = bytes.split(|byte| *byte == b'\n');
    let lines = lines.map(|line| {
        let line = line.strip_suffix(b"\r").unwrap_or(line);
        markup(&escape::text(line))
    });
    lines.collect::<Vec<String>>().join("\n")
}

/// The routine with each statement in an element of its own.
fn text(steps: &Steps) -> String {
    let text = &steps.routine.source.text;
    let mut heads: Vec<(usize, std::ops::Range<usize>)> = Vec::new();
    heads.extend(
        steps
            .doings
            .iter()
            .map(|doing| doing.head.clone())
            .enumerate(),
    );
    heads.sort_by_key(|(_, head)| head.start);
    let mut out = String::new();
    let mut at = 0;
    for (number, head) in heads {
        out.push_str(&bytes(&text[at..head.start]));
        let statement = bytes(&text[head.clone()]);
        out.push_str(&format!("<span id=\"s{number}\">{statement}</span>"));
        at = head.end;
    }
    out + &bytes(&text[at..])
}

/// A lane's value: a float as a text, so that the page shows it as it is shown here.
fn value(variable: &Variable, bytes: &[u8]) -> String {
    let shown = values::shown(variable.kind, bytes);
    match variable.kind {
        Kind::Float => json::string(&shown),
        _ => shown,
    }
}

/// The variables with their values at the start.
fn variables(routine: &Routine, memory: &[u8]) -> Vec<String> {
    let variables = routine.variables.iter().map(|variable| {
        let lanes = values::lanes(variable, memory).map(|bytes| value(variable, bytes));
        let object = Object::new()
            .with_text("name", &variable.name)
            .with_text("kind", &variable.kind.to_string())
            .with("values", json::list(lanes));
        object.json()
    });
    variables.collect()
}

/// A step: statement, place for readers, mask, the condition's lanes, and what it writes.
fn step(routine: &Routine, step: &Step) -> String {
    let at = routine.source.position(step.head.start).to_string();
    let mask = (0..step.mask.length).map(|lane| (step.mask.mask >> lane & 1).to_string());
    let object = Object::new()
        .with("n", step.number)
        .with("s", step.doing)
        .with_text("at", &at)
        .with("mask", json::list(mask));
    let object = match &step.subject {
        Subject::Tested(lanes) => object.with("test", json::list(lanes)),
        Subject::Kept(variable) => object.with("kept", variable),
        Subject::Written(variable) => {
            let lanes = 0..routine.variables[*variable].length;
            let written = lanes.filter(|lane| step.writes(routine, *variable, *lane));
            let values = written.map(|lane| {
                let variable = &routine.variables[*variable];
                let value = value(variable, &step.after[variable.lane(lane)]);
                format!("[{lane},{value}]")
            });
            object
                .with("target", variable)
                .with("writes", json::list(values))
        }
        Subject::Nothing => object,
    };
    object.json()
}
