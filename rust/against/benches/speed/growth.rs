//! How times grow: by steps, by lanes, by the text's bytes, by images.

use crate::calls::{judging, running, Times};
use crate::images::{each, independent, Kernel};
use crate::texts::{countdown, declarations, filled, routine, routine_memory, TEST};
use crate::timing::best;

/// Prints a table of both sides' times for each size, each also as parts of its first row.
struct Table {
    first: Option<Times>,
}

impl Table {
    /// The head of a table of such sizes, with times in this unit.
    fn new(what: &str, unit: &str) -> Self {
        println!();
        println!(
            "| {what} | archive, {unit} | independent, {unit} | archive / its first row \
             | independent / its first row |"
        );
        println!("|---|---|---|---|---|");
        Table { first: None }
    }

    /// One row: the times, already in the table's unit.
    fn row(&mut self, size: usize, times: Times) {
        let first = self.first.get_or_insert(times);
        println!(
            "| {size} | {:.2} | {:.2} | {:.2} | {:.2} |",
            times.archive,
            times.independent,
            times.archive / first.archive,
            times.independent / first.independent
        );
    }
}

/// By steps: the time of one.
fn by_steps(lanes: usize) {
    let what = format!("steps of a `while`, {lanes} lanes");
    let mut table = Table::new(&what, "ns a step");
    for turns in [10, 100, 1_000, 10_000, 100_000] {
        let steps = 2 * turns + 2;
        let (run, _) = running(countdown(lanes, turns).as_bytes(), &routine_memory(lanes));
        table.row(steps, run.times(1e9 / steps as f64));
    }
}

/// By lanes, to so many: the time of a step on all of them.
fn by_lanes(most: usize) {
    let mut table = Table::new("lanes of a `while` of 10,000 turns", "ns a step");
    let lengths = [1, 2, 4, 8, 16, 32, 64];
    for lanes in lengths.into_iter().filter(|lanes| *lanes <= most) {
        let (run, _) = running(countdown(lanes, 10_000).as_bytes(), &routine_memory(lanes));
        table.row(lanes, run.times(1e9 / 20_002.0));
    }
}

/// By the text's bytes: the time of judging one.
fn by_bytes() {
    let mut table = Table::new("bytes of the routine's tests, judged", "ns a byte");
    for bytes in [128, 256, 512, 1_024, 2_048, 4_096] {
        let text = filled(bytes, &declarations(4), TEST, "");
        table.row(bytes, judging(&[text.as_bytes()]).times(1e9 / bytes as f64));
    }
}

/// By spaces: the time of a run of the same routine.
fn by_spaces() {
    let mut table = Table::new(
        "document 01's routine with spaces to so many bytes, a run",
        "us a call",
    );
    for bytes in [128, 129, 300, 512, 513] {
        let text = format!("{:bytes$}", routine(4));
        let (run, _) = running(text.as_bytes(), &routine_memory(4));
        table.row(bytes, run.times(1e6));
    }
}

/// By images: the time of one.
fn by_images(lanes: usize) {
    let what = format!("images of document 01's routine, {lanes} lanes, in one `run_each`");
    let mut table = Table::new(&what, "ns an image");
    let kernel = Kernel::routine(lanes);
    for images in [1, 10, 100, 1_000, 10_000] {
        let best = best(&mut [
            &mut each(&kernel, images),
            &mut independent(&kernel, images),
        ]);
        let times = Times {
            archive: best[0],
            independent: best[1],
        };
        table.row(images, times.times(1e9 / images as f64));
    }
}

/// Prints the tables.
pub fn print(lanes: &[usize]) {
    let long = || lanes.iter().copied().filter(|lanes| *lanes >= 16);
    by_spaces();
    long().for_each(by_steps);
    by_lanes(lanes.iter().copied().max().unwrap_or(1));
    by_bytes();
    long().for_each(by_images);
}
