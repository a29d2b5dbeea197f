//! A small collector: makes a routine of a text, puts samples where they belong, runs the routine
//! over one block and over several, and shows what it left.
//!
//! `cargo run --example collector` prints it.

use ruihmento::{Routine, Stopped};
use std::error::Error;
use std::fmt::Write;

/// Adds ten to a sample below ten, takes ten from any other, and leaves the lanes whose sample is
/// missing.
const TEXT: &str = "bool block[4] ok; int block[4] s; int block[4] t = 10; \
    if (ok) { if (s < t) s = s + t; else s = s - t; } else ;";

/// More steps than the routine takes.
const BUDGET: u32 = 1_000;

/// What a collector keeps: the routine, which owns its text, and the memory of one block.
struct Collector {
    routine: Routine,
    memory: Vec<u8>,
}

impl Collector {
    /// A collector with this routine.
    fn new(text: &str) -> Result<Self, Box<dyn Error>> {
        let routine = Routine::new(text)?;
        let memory = vec![0; routine.need()];
        Ok(Collector { routine, memory })
    }

    /// Runs the routine over one block of samples; none is one that did not arrive.
    fn block(&mut self, samples: [Option<i32>; 4]) -> Result<Vec<i32>, Box<dyn Error>> {
        let Collector { routine, memory } = self;
        routine.set_bools(memory, "ok", &samples.map(|sample| sample.is_some()))?;
        routine.set_ints(memory, "s", &samples.map(Option::unwrap_or_default))?;
        routine.run(memory, BUDGET)?;
        Ok(routine.ints(memory, "s")?.collect())
    }
}

/// What the example shows.
fn report() -> Result<String, Box<dyn Error>> {
    let mut shown = String::new();
    let mut collector = Collector::new(TEXT)?;
    let left = collector.block([Some(4), None, Some(25), None])?;
    writeln!(shown, "one block: {left:?}")?;

    // Blocks side by side, as a recording has them: what is left, three times. No sample is below
    // ten now, so one branch is skipped.
    let mut images = collector.memory.repeat(3);
    let need = collector.routine.need();
    let ends = collector.routine.run_each(&mut images, need, BUDGET);
    let steps: Result<Vec<u32>, Stopped> = ends.into_iter().map(|end| Ok(end?.steps)).collect();
    writeln!(shown, "three blocks: {:?} steps", steps?)?;

    // Errors say what does not fit, and where.
    let misfit = collector.routine.ints(&collector.memory, "oks").err();
    writeln!(shown, "{}", misfit.ok_or("there is no `oks`")?)?;
    let misfit = collector.routine.ints(&collector.memory, "ok").err();
    writeln!(shown, "{}", misfit.ok_or("`ok` is no int")?)?;
    let refused = Routine::new("int x").err();
    writeln!(shown, "{}", refused.ok_or("the text ends too soon")?)?;
    let stopped = collector.routine.run(&mut collector.memory, 6).err();
    writeln!(shown, "{}", stopped.ok_or("six steps are too few")?)?;
    Ok(shown)
}

fn main() -> Result<(), Box<dyn Error>> {
    print!("{}", report()?);
    Ok(())
}

#[cfg(test)]
mod tests {
    /// What the example prints.
    const PRINTED: &str = "\
one block: [14, 0, 15, 0]
three blocks: [7, 7, 7] steps
no variable is named `oks`; the nearest is `ok`
`ok` is bool, and the values are int
code 3 at byte 5: this token is not allowed here, or the text ends too soon
code 13 at byte 110: the budget is spent, and a step of this statement is due (need 48, steps 6)
";

    #[test]
    fn the_example_prints_this() {
        assert_eq!(super::report().unwrap(), PRINTED);
    }
}
