//! What a step costs on one lane, by the lanes of the blocks: all lengths of a kernel are timed in
//! turn, so that one can be divided by another.

use crate::images::{compared, nanoseconds, Kernel, Timed};

/// Prints the rows of a kernel: one for each side that has all these lengths.
fn rows(kernel: fn(usize) -> Kernel, lanes: &[usize]) {
    let kernels: Vec<Kernel> = lanes.iter().map(|lanes| kernel(*lanes)).collect();
    let mut sides: Vec<Timed<'_>> = kernels.iter().flat_map(compared).collect();
    let times = nanoseconds(&mut sides);
    let each = sides.len() / kernels.len();
    for side in 0..each {
        let work = kernels.iter().map(Kernel::work);
        let costs: Vec<f64> = work
            .enumerate()
            .map(|(at, work)| {
                let (run, copy) = times[at * each + side];
                (run - copy) / work
            })
            .collect();
        print!("| {} | {} ", kernels[0].what(), sides[side].name);
        costs.iter().for_each(|cost| print!("| {cost:.3} "));
        let first = costs.iter().zip(&costs[1..]);
        first.for_each(|(shorter, longer)| print!("| {:.2} ", longer / shorter));
        println!("|");
    }
}

/// Prints the table.
pub fn print(lanes: &[usize]) {
    print!("| what | side ");
    lanes
        .iter()
        .for_each(|lanes| print!("| {lanes} lanes, ns a step and lane, less copying "));
    let neighbours = lanes.iter().zip(&lanes[1..]);
    neighbours.for_each(|(shorter, longer)| print!("| {longer} : {shorter} "));
    println!("|");
    println!("{}|", "|---".repeat(2 * lanes.len() + 1));
    rows(Kernel::routine, lanes);
    rows(Kernel::sum, lanes);
    rows(Kernel::countdown, lanes);
}
