//! Many cases on all processors, with counts of what they met.

use crate::compare::{compare, smallest, Difference, Made};
use crate::plan::Plan;
use generate::{mixed, Case, Sort};
use ruihmento::{Kind, Variable};
use std::collections::BTreeMap;
use std::fmt;
use std::ops::Range;
use std::sync::atomic::{AtomicU64, Ordering};
use std::sync::Mutex;
use std::thread::{self, Builder};

/// The stack of each thread: a call uses less than 256 KiB of it.
const STACK: usize = 512 * 1024;

/// What a sweep met.
#[derive(Clone, Debug, Default)]
pub struct Tally {
    /// How many cases were compared.
    pub cases: u64,
    /// How many calls were made on each side.
    pub calls: u64,
    /// How many images the calls of `run_each` ran on each side.
    pub images: u64,
    /// How many cases each sort of text has.
    pub sorts: BTreeMap<&'static str, u64>,
    /// How many runs, each with its case's own memory and budget, gave each code.
    pub codes: BTreeMap<u32, u64>,
    /// How many texts were accepted.
    pub accepted: u64,
    /// How many of these have a block of more than 16 lanes.
    pub long: u64,
    /// How many of these have a float.
    pub floats: u64,
}

impl Tally {
    /// Counts one case.
    fn add(&mut self, sort: Sort, case: &Case, made: Made) {
        let name = Sort::ALL.iter().find(|(known, _)| *known == sort);
        let answer = ruihmento::run(&case.text, &mut case.memory.clone(), case.budget);
        self.cases += 1;
        self.calls += made.calls;
        self.images += made.images;
        *self.sorts.entry(name.map_or("", |(_, n)| n)).or_default() += 1;
        *self.codes.entry(answer.code).or_default() += 1;
        if let Ok(listed) = ruihmento::variables(&case.text) {
            let long = listed.list.iter().any(|variable| variable.length > 16);
            self.accepted += 1;
            self.long += u64::from(long);
            let float = |variable: &Variable| variable.kind == Kind::Float;
            self.floats += u64::from(listed.list.iter().any(float));
        }
    }

    /// Adds what another thread met.
    fn join(&mut self, other: Tally) {
        self.cases += other.cases;
        self.calls += other.calls;
        self.images += other.images;
        self.accepted += other.accepted;
        self.long += other.long;
        self.floats += other.floats;
        for (sort, count) in other.sorts {
            *self.sorts.entry(sort).or_default() += count;
        }
        for (code, count) in other.codes {
            *self.codes.entry(code).or_default() += count;
        }
    }
}

/// A case that differs.
#[derive(Clone, Debug)]
pub struct Found {
    /// The seed of the sweep.
    pub seed: u64,
    /// The index of the case.
    pub index: u64,
    /// The smallest case found that still differs.
    pub smallest: Difference,
}

impl fmt::Display for Found {
    fn fmt(&self, f: &mut fmt::Formatter<'_>) -> fmt::Result {
        let Found { seed, index, .. } = self;
        writeln!(f, "seed {seed}, case {index} differs; made smaller:")?;
        write!(f, "{}", self.smallest)
    }
}

/// What the threads of a sweep share.
struct Shared {
    seed: u64,
    end: u64,
    /// The next case to compare.
    next: AtomicU64,
    /// The lowest case that differs, or one that is never reached.
    differs: AtomicU64,
    tally: Mutex<Tally>,
}

/// Compares the cases of this seed with these indices, on every processor; gives what was met,
/// or the first case that differs. `progress` is told now and then how many are done.
pub fn sweep(
    seed: u64,
    indices: Range<u64>,
    mut progress: impl FnMut(u64),
) -> Result<Tally, Box<Found>> {
    let shared = Shared {
        seed,
        end: indices.end,
        next: AtomicU64::new(indices.start),
        differs: AtomicU64::new(u64::MAX),
        tally: Mutex::default(),
    };
    let processors = thread::available_parallelism().map_or(1, usize::from);
    thread::scope(|scope| {
        let start = || {
            let thread = Builder::new().stack_size(STACK);
            let thread = thread.spawn_scoped(scope, || work(&shared));
            thread.expect("a thread can be started")
        };
        let threads: Vec<_> = (0..processors).map(|_| start()).collect();
        while !threads.iter().all(|thread| thread.is_finished()) {
            thread::sleep(std::time::Duration::from_millis(20));
            let taken = shared.next.load(Ordering::Relaxed).min(shared.end);
            progress(taken - indices.start);
        }
    });
    match shared.differs.into_inner() {
        u64::MAX => Ok(shared.tally.into_inner().expect("no thread has panicked")),
        index => Err(Box::new(found(seed, index))),
    }
}

/// Compares one case after another until there is none, or one differs.
fn work(shared: &Shared) {
    let mut tally = Tally::default();
    loop {
        let index = shared.next.fetch_add(1, Ordering::Relaxed);
        let differs = shared.differs.load(Ordering::Relaxed);
        if index >= shared.end || index > differs {
            break;
        }
        let (sort, case) = mixed(shared.seed, index);
        match compare(&case, &Plan::new(shared.seed, index)) {
            Ok(made) => tally.add(sort, &case, made),
            Err(_) => {
                shared.differs.fetch_min(index, Ordering::Relaxed);
            }
        }
    }
    let mut sum = shared.tally.lock().expect("no thread has panicked");
    sum.join(tally);
}

/// The case of this index, which differs, made small.
fn found(seed: u64, index: u64) -> Found {
    let case = mixed(seed, index).1;
    let smallest = smallest(&case, &Plan::new(seed, index));
    Found {
        seed,
        index,
        smallest: smallest.expect("the case differs each time"),
    }
}
