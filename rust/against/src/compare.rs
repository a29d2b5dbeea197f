//! One case on both sides, and a difference as small as it gets.

use crate::call::{Call, Left, Service};
use crate::plan::Plan;
use crate::services::{Archive, Oracle};
use crate::show;
use generate::{shrink, Case};
use std::fmt;

/// A call that the two answer differently.
#[derive(Clone, Debug)]
pub struct Difference {
    /// The text of the case.
    pub text: Vec<u8>,
    /// The call on it.
    pub call: Call,
    /// What the archive returned and left.
    pub archive: Left,
    /// What the oracle returned and left.
    pub oracle: Left,
}

/// How much was compared.
#[derive(Clone, Copy, Debug, Default, PartialEq, Eq)]
pub struct Made {
    /// How many calls were made on each side.
    pub calls: u64,
    /// How many images those of `run_each` ran.
    pub images: u64,
}

/// Makes every call of the plan on both; gives how many, or the first difference.
pub fn compare(case: &Case, plan: &Plan) -> Result<Made, Box<Difference>> {
    let mut made = Made::default();
    for call in plan.calls(case) {
        let (archive, oracle) = both(&case.text, &call);
        if archive != oracle {
            let text = case.text.clone();
            return Err(Box::new(Difference {
                text,
                call,
                archive,
                oracle,
            }));
        }
        made.calls += 1;
        if let Service::RunEach(_) = call.service {
            made.images += archive.returned as u64;
        }
    }
    Ok(made)
}

/// Makes one call on both.
fn both(text: &[u8], call: &Call) -> (Left, Left) {
    (call.perform(&Archive, text), call.perform(&Oracle, text))
}

/// Whether the two answer this call differently.
fn differ(text: &[u8], call: &Call) -> bool {
    let (archive, oracle) = both(text, call);
    archive != oracle
}

/// The difference of the smallest case found that still differs by the same call, if this case
/// differs.
pub fn smallest(case: &Case, plan: &Plan) -> Option<Difference> {
    let found = compare(case, plan).err()?.call;
    let mut start = case.clone();
    start.budget = found.budget().unwrap_or(start.budget);
    let found = with_fewer_images(found, &start);
    let small = shrink(&start, |smaller| differ(&smaller.text, &found.on(smaller)));
    let call = found.on(&small);
    let (archive, oracle) = both(&small.text, &call);
    Some(Difference {
        text: small.text,
        call,
        archive,
        oracle,
    })
}

/// The same call, which differs, with as few images as still differ: none, one, two, four ..
fn with_fewer_images(found: Call, case: &Case) -> Call {
    let shape = match &found.service {
        Service::RunEach(images) => images.shape.clone(),
        _ => return found,
    };
    let counts = std::iter::once(0).chain((0..12).map(|bits| 1 << bits));
    let mut fewer = counts.map(|images| {
        let shape = shape.with_at_most(images);
        Call::run_each(shape, &case.text, case.budget)
    });
    let differing = fewer.find(|call| differ(&case.text, call));
    differing.unwrap_or(found)
}

impl fmt::Display for Difference {
    fn fmt(&self, f: &mut fmt::Formatter<'_>) -> fmt::Result {
        writeln!(f, "{}", self.call)?;
        writeln!(f, "text, {} bytes:", self.text.len())?;
        writeln!(f, "  {}", show::escaped(&self.text))?;
        writeln!(f, "  {}", show::hex(&self.text))?;
        match &self.call.service {
            Service::Run(memory, _) => {
                writeln!(f, "memory before the run:\n  {}", show::hex(memory))?;
            }
            Service::RunEach(images) => {
                writeln!(f, "images before the runs:\n  {}", show::hex(&images.bytes))?;
            }
            Service::Judge | Service::Variables(_) => {}
        }
        writeln!(f, "archive:\n{}", self.archive)?;
        write!(f, "independent implementation:\n{}", self.oracle)
    }
}
