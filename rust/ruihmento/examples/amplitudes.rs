//! Amplitudes as they are measured, in floats: an offset is taken from each, and its size is kept
//! below a limit. One that is no number did not arrive.
//!
//! `cargo run --example amplitudes` prints what the run left.

use ruihmento::Routine;
use std::error::Error;
use std::fmt::Write;

/// Finds the amplitudes that did not arrive, and clips the size of the others.
const TEXT: &str = "float block[4] level; float offset; float block[4] top = 100.0; \
    bool missing = level != level; \
    if (missing) level = 0.0; else { \
      level = level - offset; \
      if (level < 0.0) level = -level; else ; \
      if (level > top) level = top; else ; \
    }";

/// More steps than the routine takes.
const BUDGET: u32 = 1_000;

/// What the example shows.
fn report() -> Result<String, Box<dyn Error>> {
    let routine = Routine::new(TEXT)?;
    let mut memory = vec![0; routine.need()];
    let levels = [-0.5, f32::NAN, 1e6, 0.75];
    routine.set_floats(&mut memory, "level", &levels)?;
    routine.set_floats(&mut memory, "offset", &[0.25])?;
    let steps = routine.run(&mut memory, BUDGET)?.steps;
    let left: Vec<f32> = routine.floats(&memory, "level")?.collect();
    let missing: Vec<bool> = routine.bools(&memory, "missing")?.collect();
    let mut shown = String::new();
    writeln!(shown, "{left:?} in {steps} steps")?;
    writeln!(shown, "missing: {missing:?}")?;

    // A constant of a float is a whole number followed by `.0`, and an int is no float.
    for text in ["float x = 0.5;", "float x = 1;"] {
        let refused = Routine::new(text).err().ok_or("it is refused")?;
        writeln!(shown, "`{text}`: code {}", refused.refusal.code())?;
    }
    Ok(shown)
}

fn main() -> Result<(), Box<dyn Error>> {
    print!("{}", report()?);
    Ok(())
}

#[cfg(test)]
mod tests {
    /// What the example prints.
    const PRINTED: &str = "\
[0.75, 0.0, 100.0, 0.5] in 13 steps
missing: [false, true, false, false]
`float x = 0.5;`: code 2
`float x = 1;`: code 8
";

    #[test]
    fn the_example_prints_this() {
        assert_eq!(super::report().unwrap(), PRINTED);
    }
}
