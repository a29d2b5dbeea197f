//! Floats beside ints: the same kernels in both kinds, all timed in turn, so that one can be divided by the other.

use crate::images::{batch, independently, nanoseconds, Kernel, Timed};

/// Prints the rows of a kernel: one for each number of lanes.
fn rows(kernel: fn(usize) -> Kernel, lanes: &[usize]) {
    for lanes in lanes {
        let ints = kernel(*lanes);
        let floats = ints.in_floats();
        let kinds = [&ints, &floats];
        let mut sides: Vec<Timed<'_>> = kinds.map(batch).into_iter().collect();
        sides.extend(kinds.map(independently));
        let times = nanoseconds(&mut sides);
        let less_copying: Vec<f64> = times.iter().map(|(run, copy)| run - copy).collect();
        let what = ints.what();
        print!("| {what}, {lanes} lanes ");
        for sides in less_copying.chunks_exact(2) {
            print!(
                "| {:.1} | {:.1} | {:.2} ",
                sides[0],
                sides[1],
                sides[1] / sides[0]
            );
        }
        println!("|");
    }
}

/// Prints the table.
pub fn print(lanes: &[usize]) {
    print!("| what, an image of `run_each`, less copying ");
    for side in ["archive", "independent"] {
        print!("| {side}, ns in ints | {side}, ns in floats | floats : ints ");
    }
    println!("|");
    println!("{}|", "|---".repeat(7));
    rows(Kernel::routine, lanes);
    rows(Kernel::sum, lanes);
    rows(Kernel::products, lanes);
}
