//! On generated texts the reading here comes to the judge's code and place, and every refusal
//! can be shown.

use super::{known, tokens};
use crate::arguments::Format;
use crate::outcome::{Outcome, Streams};
use crate::routine::Routine;
use crate::source::Source;
use std::path::Path;

/// How many texts are tried.
const TEXTS: u64 = 2000;

/// The reading of this text and the judge's.
fn check(routine: &Routine) {
    let source = &routine.source;
    let answer = routine.answer;
    let text = String::from_utf8_lossy(&source.text);
    match answer.code {
        0 => assert!(known(source).is_none(), "{text}"),
        1 => {}
        2 => match tokens::tokens(&source.text) {
            Err(refused) => assert!(refused.is(answer), "{text}"),
            Ok(_) => panic!("the judge refuses a token of {text}"),
        },
        _ => match known(source) {
            Some(known) => assert!(known.refused.is(answer), "{answer:?} in {text}"),
            None => panic!("the judge refuses {text}"),
        },
    }
}

#[test]
fn the_reading_comes_to_the_judges_code_and_place() {
    for index in 0..TEXTS {
        let text = generate::mixed(5, index).1.text;
        let routine = Routine::new(Source::new(Path::new("f"), text));
        check(&routine);
        let (mut out, mut err) = (Vec::new(), Vec::new());
        let mut to = Streams {
            out: &mut out,
            err: &mut err,
        };
        let shown = Outcome::judged(&routine).show(Format::Text, &mut to);
        assert!(shown.is_ok());
        let shown = Outcome::judged(&routine).show(Format::Json, &mut to);
        assert!(shown.is_ok());
        assert_eq!(routine.answer.is_accepted(), err.is_empty());
    }
}
