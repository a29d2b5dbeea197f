//! Which calls are made for one case.

use crate::call::{Call, Service};
use generate::{Case, Random, Shape};
use oracle::Code;

/// The longest answer slice tried.
const LONGEST_ANSWER: usize = 40;

/// The bytes of one record of the table of variables.
const RECORD: usize = 16;

/// A run that takes more steps than these has not every budget tried.
const MOST_BUDGETS: u32 = 400;

/// How many budgets, from 0 on, are then tried.
const FIRST_BUDGETS: u32 = 64;

/// One case in so many is run over thousands of images.
const THOUSANDS: usize = 256;

/// The most steps of each of thousands of images.
const MOST_STEPS_OF_THOUSANDS: u32 = 60;

/// What is tried with a case beside the judge, a run and a listing; it stays the same while a
/// case shrinks. Every budget is tried with every case.
#[derive(Clone, Debug)]
pub struct Plan {
    /// The lengths of answer slices.
    answers: Vec<usize>,
    /// How many records each table has room for, and how many bytes more or less than that.
    tables: Vec<(usize, i32)>,
    /// How images are made for `run_each`, and the most steps of each.
    batches: Vec<(Shape, u32)>,
}

impl Plan {
    /// A plan for the case of this seed and index: a few lengths, and now and then all of them.
    pub fn new(seed: u64, index: u64) -> Self {
        let mut random = Random::new(!seed, index);
        let answers = match random.below(8) {
            0 => (0..=LONGEST_ANSWER).collect(),
            _ => vec![random.below(LONGEST_ANSWER + 1), random.between(16, 17)],
        };
        let tables = match random.below(16) {
            0 => (0..=66).flat_map(|k| [(k, -1), (k, 0), (k, 1)]).collect(),
            _ => (0..3).map(|_| Self::table(&mut random)).collect(),
        };
        let batches = Self::batches(&mut random);
        Plan {
            answers,
            tables,
            batches,
        }
    }

    /// A few images, slices that fit by chance, and now and then thousands of images.
    fn batches(random: &mut Random) -> Vec<(Shape, u32)> {
        let mut batches = vec![
            (Shape::few(random), u32::MAX),
            (Shape::few(random), random.below(20) as u32),
            (Shape::odd(random), u32::MAX),
        ];
        if random.once_in(THOUSANDS) {
            batches.push((Shape::thousands(random), MOST_STEPS_OF_THOUSANDS));
        }
        batches
    }

    /// Room for a few records, give or take a byte, or for them all.
    fn table(random: &mut Random) -> (usize, i32) {
        let records = match random.below(3) {
            0 => random.below(4),
            1 => random.below(12),
            _ => random.between(60, 66),
        };
        (records, *random.pick(&[-1, 0, 1, 7]))
    }

    /// The calls to make for this case.
    pub fn calls(&self, case: &Case) -> Vec<Call> {
        let run = || Service::Run(case.memory.clone(), case.budget);
        let mut calls = Vec::new();
        for answer in self.answers.iter().copied() {
            for service in [Service::Judge, run(), Service::Variables(3 * RECORD + 1)] {
                calls.push(Call { service, answer });
            }
        }
        let answer = RECORD + 8;
        for (records, more) in &self.tables {
            let length = (records * RECORD) as i32 + more;
            let service = Service::Variables(length.max(0) as usize);
            calls.push(Call { service, answer });
        }
        for (shape, most) in &self.batches {
            let budget = case.budget.min(*most);
            calls.push(Call::run_each(shape.clone(), &case.text, budget));
        }
        for budget in 0..budgets(case) {
            let service = Service::Run(case.memory.clone(), budget);
            calls.push(Call { service, answer });
        }
        calls
    }
}

/// How many budgets, from 0 on, are tried: to past the end of a run that has one.
fn budgets(case: &Case) -> u32 {
    let end = oracle::run(&case.text, &mut case.memory.clone(), MOST_BUDGETS);
    match end.code {
        code if code == Code::Ended as u32 => end.steps + 3,
        code if code == Code::BudgetSpent as u32 => FIRST_BUDGETS,
        _ => 2,
    }
}
