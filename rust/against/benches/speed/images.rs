//! One image: what a run of two kernels costs in `run_each` and in `run`, beside the independent
//! implementation and the same kernels in C and Lua.

use crate::peer::{Peer, LUAS};
use crate::texts::{countdown, counters, in_floats, products, routine, routine_memory, sum};
use crate::timing::{best, Side};
use oracle::Program;
use ruihmento::{Kind, Routine, ANSWER_BYTES};

/// How many images stand in the greater batches, where a call of them does not last too long.
const BATCHES: [usize; 2] = [1_000, 10_000];

/// How many steps on a lane the greatest batch takes.
const MOST_WORK: f64 = 2e8;

/// A kernel: a text with one image, and the two blocks of ints that it writes.
pub struct Kernel {
    /// What it is called in the tables.
    what: &'static str,
    /// What it is called by its peers; none where it has none.
    name: Option<&'static str>,
    routine: Routine,
    image: Vec<u8>,
    written: [&'static str; 2],
    lanes: usize,
    /// How many steps a run takes.
    steps: u32,
    /// How many images stand in the batch that is compared with the other sides: so few that a call
    /// is short, and falls between the work of others, so many that judging does not show.
    compared: usize,
}

impl Kernel {
    /// Document 01's routine.
    pub fn routine(lanes: usize) -> Self {
        let routine = Routine::new(routine(lanes)).expect("it is accepted");
        let mut image = routine_memory(lanes);
        image.truncate(routine.need());
        Kernel {
            what: "document 01's routine",
            name: Some("routine"),
            steps: steps(&routine, &image),
            routine,
            image,
            written: ["s", "t"],
            lanes,
            compared: 1_000,
        }
    }

    /// A `while` that the lanes leave one by one.
    pub fn sum(lanes: usize) -> Self {
        let routine = Routine::new(sum(lanes)).expect("it is accepted");
        let image = counters(lanes);
        Kernel {
            what: "a `while` that lanes leave one by one",
            name: Some("while"),
            steps: steps(&routine, &image),
            image,
            routine,
            written: ["n", "a"],
            lanes,
            compared: if lanes > 16 { 10 } else { 100 },
        }
    }

    /// A `while` that all lanes leave at once.
    pub fn countdown(lanes: usize) -> Self {
        let routine = Routine::new(countdown(lanes, 1_000)).expect("it is accepted");
        let image = vec![0xaa; routine.need()];
        Kernel {
            what: "a `while` of 1,000 turns",
            name: None,
            steps: steps(&routine, &image),
            image,
            routine,
            written: ["n", "n"],
            lanes,
            compared: 10,
        }
    }

    /// Products and sums, a statement after another.
    pub fn products(lanes: usize) -> Self {
        let routine = Routine::new(products(lanes)).expect("it is accepted");
        let mut image = counters(lanes);
        image.truncate(routine.need());
        Kernel {
            what: "four products and four sums",
            name: None,
            steps: steps(&routine, &image),
            image,
            routine,
            written: ["n", "a"],
            lanes,
            compared: 1_000,
        }
    }

    /// The same in floats, which start from the same numbers.
    pub fn in_floats(&self) -> Self {
        let routine = Routine::new(in_floats(self.routine.text())).expect("it is accepted");
        let mut image = self.image.clone();
        let ints = self.routine.variables().zip(routine.variables());
        for (int, float) in ints.filter(|(int, _)| int.kind == Kind::Int) {
            let values = int.ints(&self.image).expect("it is there");
            let values: Vec<f32> = values.map(|value| value as f32).collect();
            let put = float.set_floats(&mut image, &values);
            put.expect("an int and a float are of one size");
        }
        Kernel {
            what: self.what,
            name: None,
            steps: steps(&routine, &image),
            image,
            routine,
            ..*self
        }
    }

    /// What it is called in the tables.
    pub fn what(&self) -> &'static str {
        self.what
    }

    /// How many steps a run takes, each on so many lanes.
    pub fn work(&self) -> f64 {
        f64::from(self.steps) * self.lanes as f64
    }

    /// What a run leaves in the lanes that it writes.
    fn left(&self) -> Vec<i32> {
        let mut image = self.image.clone();
        let ended = self.routine.run(&mut image, u32::MAX);
        ended.expect("the kernel comes to its end");
        let lanes = self.written.map(|name| {
            let lanes = self.routine.ints(&image, name).expect("it is there");
            lanes.collect::<Vec<_>>()
        });
        lanes.concat()
    }

    /// So many images side by side.
    fn batch(&self, count: usize) -> Vec<u8> {
        self.image.repeat(count)
    }
}

/// How many steps a run over this image takes.
fn steps(routine: &Routine, image: &[u8]) -> u32 {
    let ended = routine.run(&mut image.to_vec(), u32::MAX);
    ended.expect("the kernel comes to its end").steps
}

/// A side to be timed: one call is so many runs, each over an image that is copied anew; the
/// copying alone is timed beside it.
pub struct Timed<'a> {
    /// What it is called in the tables.
    pub name: String,
    runs: usize,
    run: Box<dyn Side + 'a>,
    copy: Box<dyn Side + 'a>,
}

impl<'a> Timed<'a> {
    /// A side of this process, over so many images in a call.
    fn here(name: &str, kernel: &'a Kernel, runs: usize, run: impl Side + 'a) -> Self {
        Timed {
            name: name.into(),
            runs,
            run: Box::new(run),
            copy: Box::new(copies(kernel, runs)),
        }
    }

    /// The same kernel elsewhere, if it is there; what it leaves is compared first.
    fn elsewhere(name: &str, kernel: &Kernel, start: impl Fn() -> Option<Peer>) -> Option<Self> {
        let (mut run, mut copy) = match (start(), start()) {
            (Some(run), Some(copy)) => (run, copy),
            _ => {
                eprintln!("{name}: there is none here, its rows are left out");
                return None;
            }
        };
        assert_eq!(run.left(), kernel.left(), "{name} leaves the same");
        copy.only_copies();
        Some(Timed {
            name: name.into(),
            runs: 1,
            run: Box::new(run),
            copy: Box::new(copy),
        })
    }
}

/// `run_each` over so many images, which each call finds anew.
pub fn each(kernel: &Kernel, count: usize) -> impl Side + '_ {
    let fresh = kernel.batch(count);
    let (mut images, mut answers) = (fresh.clone(), vec![0; count * ANSWER_BYTES]);
    move || {
        copy(&mut images, &fresh);
        let text = kernel.routine.text();
        let size = kernel.image.len();
        ruihmento::run_each(text, &mut images, size, u32::MAX, &mut answers)
    }
}

/// `run` over one image, which each call finds anew.
fn alone(kernel: &Kernel) -> impl Side + '_ {
    let mut image = kernel.image.clone();
    move || {
        copy(&mut image, &kernel.image);
        ruihmento::run(kernel.routine.text(), &mut image, u32::MAX).need
    }
}

/// The independent implementation over so many images: judged once, then run over each.
pub fn independent(kernel: &Kernel, count: usize) -> impl Side + '_ {
    let fresh = kernel.batch(count);
    let mut images = fresh.clone();
    move || {
        copy(&mut images, &fresh);
        let program = Program::prepare(kernel.routine.text()).expect("it is accepted");
        let images = images.chunks_exact_mut(kernel.image.len());
        let runs = images.map(|image| program.run(image, u32::MAX));
        runs.map(|answer| answer.need as usize).sum::<usize>()
    }
}

/// The copying alone of so many images.
fn copies(kernel: &Kernel, count: usize) -> impl Side {
    let fresh = kernel.batch(count);
    let mut images = fresh.clone();
    move || {
        copy(&mut images, &fresh);
        images.len()
    }
}

/// Copies one batch over another: a call of its own, so that none is left out.
#[inline(never)]
fn copy(images: &mut [u8], fresh: &[u8]) {
    images.copy_from_slice(fresh);
}

/// The same kernel in C and in each Lua.
fn peers(kernel: &Kernel) -> Vec<Timed<'static>> {
    let (name, lanes) = match kernel.name {
        Some(name) => (name, kernel.lanes),
        None => return Vec::new(),
    };
    let mut found = vec![Timed::elsewhere("C", kernel, || Peer::in_c(name, lanes))];
    for (lua, names) in LUAS {
        let of = |name: &str| Peer::in_lua(lua, names, name, lanes);
        found.push(Timed::elsewhere(lua, kernel, || of(name)));
        if name == "routine" {
            let kept = format!("{lua}, `t` kept from run to run");
            found.push(Timed::elsewhere(&kept, kernel, || of("kept")));
        }
    }
    found.into_iter().flatten().collect()
}

/// The batch of `run_each` with so many images.
fn batch_of(kernel: &Kernel, count: usize) -> Timed<'_> {
    let name = format!("`run_each`, {count} images");
    Timed::here(&name, kernel, count, each(kernel, count))
}

/// The batch of `run_each` that is compared with the other sides.
pub fn batch(kernel: &Kernel) -> Timed<'_> {
    batch_of(kernel, kernel.compared)
}

/// The independent implementation over as many images as are compared.
pub fn independently(kernel: &Kernel) -> Timed<'_> {
    let count = kernel.compared;
    let name = format!("independent Rust, {count} images, judged once");
    Timed::here(&name, kernel, count, independent(kernel, count))
}

/// The independent implementation, and the same kernel elsewhere.
fn others(kernel: &Kernel) -> Vec<Timed<'_>> {
    let mut others = vec![independently(kernel)];
    others.extend(peers(kernel));
    others
}

/// The batch that is compared with the other sides, and these, each by a name without numbers.
pub fn compared(kernel: &Kernel) -> Vec<Timed<'_>> {
    let mut sides = vec![batch(kernel)];
    sides.extend(others(kernel));
    sides[0].name = "`run_each`".into();
    sides[1].name = "independent Rust".into();
    sides
}

/// Every side, the two that the others are compared with first.
fn sides(kernel: &Kernel) -> Vec<Timed<'_>> {
    let count = kernel.compared;
    let mut sides = vec![
        batch(kernel),
        Timed::here("`run`", kernel, 1, alone(kernel)),
    ];
    let more = BATCHES.into_iter().filter(|more| {
        let steps = *more as f64 * kernel.work();
        *more != count && steps <= MOST_WORK
    });
    sides.extend(more.map(|more| batch_of(kernel, more)));
    sides.extend(others(kernel));
    sides
}

/// The nanoseconds of a run and of copying its image, on each of these sides, timed in turn.
pub fn nanoseconds(sides: &mut [Timed<'_>]) -> Vec<(f64, f64)> {
    let mut timed: Vec<&mut dyn Side> = Vec::new();
    for side in sides.iter_mut() {
        timed.push(side.run.as_mut());
        timed.push(side.copy.as_mut());
    }
    let best = best(&mut timed);
    let pairs = best.chunks_exact(2).zip(sides);
    let pairs = pairs.map(|(pair, side)| {
        let runs = side.runs as f64;
        (pair[0] * 1e9 / runs, pair[1] * 1e9 / runs)
    });
    pairs.collect()
}

/// Times the kernel on every side; prints a row for each.
fn rows(kernel: &Kernel) {
    let mut sides = sides(kernel);
    let nanoseconds = nanoseconds(&mut sides);
    let less_copy: Vec<f64> = nanoseconds.iter().map(|(run, copy)| run - copy).collect();
    for (at, side) in sides.iter().enumerate() {
        let (run, copy) = nanoseconds[at];
        println!(
            "| {}, {} lanes | {} | {run:.1} | {copy:.1} | {:.2} | {:.2} |",
            kernel.what,
            kernel.lanes,
            side.name,
            less_copy[0] / less_copy[at],
            less_copy[1] / less_copy[at]
        );
    }
}

/// Prints the table.
pub fn print(lanes: &[usize]) {
    println!(
        "| what | side | ns a run | of them copying | `run_each`'s time / its, less copying \
         | `run`'s time / its, less copying |"
    );
    println!("|---|---|---|---|---|---|");
    for lanes in lanes {
        rows(&Kernel::routine(*lanes));
    }
    for lanes in lanes {
        rows(&Kernel::sum(*lanes));
    }
}
