//! A recording: many blocks of samples side by side, run in one call that judges the text once.
//!
//! `cargo run --example recording` prints what the runs left.

use ruihmento::{Routine, ANSWER_BYTES};
use std::error::Error;
use std::fmt::Write;

/// Counts in each lane how often two can be taken from a sample, and leaves what then remains.
const TEXT: &str = "bool block[4] ok; int block[4] s; int block[4] count = 0; \
    if (ok) while (1 < s) { s = s - 2; count = count + 1; } else ;";

/// The most steps of one block: enough for samples up to 20.
const BUDGET: u32 = 40;

/// Four samples of each block; none is one that did not arrive.
const BLOCKS: [[Option<i32>; 4]; 4] = [
    [Some(4), None, Some(7), Some(1)],
    [Some(0), Some(20), None, None],
    [Some(3), Some(3), Some(1_000_000), Some(3)],
    [None, None, None, None],
];

/// The images of these blocks, each of the bytes that the routine needs, one behind the other.
fn images(routine: &Routine) -> Result<Vec<u8>, Box<dyn Error>> {
    let mut images = vec![0; BLOCKS.len() * routine.need()];
    for (image, samples) in images.chunks_exact_mut(routine.need()).zip(BLOCKS) {
        routine.set_bools(image, "ok", &samples.map(|sample| sample.is_some()))?;
        routine.set_ints(image, "s", &samples.map(Option::unwrap_or_default))?;
    }
    Ok(images)
}

/// What the example shows: for each block its counts and steps, or what stopped it.
fn report() -> Result<String, Box<dyn Error>> {
    let routine = Routine::new(TEXT)?;
    let mut images = images(&routine)?;
    // The room for the answers may be kept from one recording to the next.
    let mut answers = [0; BLOCKS.len() * ANSWER_BYTES];
    let ends = routine.run_each_into(&mut images, routine.need(), BUDGET, &mut answers);
    let mut shown = String::new();
    for (image, end) in images.chunks_exact(routine.need()).zip(ends) {
        let counts: Vec<i32> = routine.ints(image, "count")?.collect();
        match end {
            Ok(ended) => writeln!(shown, "{counts:?} in {} steps", ended.steps)?,
            Err(stopped) => writeln!(shown, "{counts:?}, {stopped}")?,
        }
    }
    Ok(shown)
}

fn main() -> Result<(), Box<dyn Error>> {
    print!("{}", report()?);
    Ok(())
}

#[cfg(test)]
mod tests {
    /// What the example prints.
    const PRINTED: &str = "\
[2, 0, 3, 0] in 15 steps
[0, 10, 0, 0] in 36 steps
[1, 1, 12, 1], code 13 at byte 66: the budget is spent, and a step of this statement is due \
(need 48, steps 40)
[0, 0, 0, 0] in 5 steps
";

    #[test]
    fn the_example_prints_this() {
        assert_eq!(super::report().unwrap(), PRINTED);
    }
}
