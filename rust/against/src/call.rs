//! One call of a service, and all that it returns and leaves.

use crate::services::Services;
use crate::show;
use generate::{Batch, Case, Shape};
use std::fmt;

/// One call, but for the text.
#[derive(Clone, Debug, PartialEq, Eq)]
pub struct Call {
    /// Which service is called, with what.
    pub service: Service,
    /// The length of the slice for the answer, or the answers.
    pub answer: usize,
}

/// A service and what it takes beside text and answer.
#[derive(Clone, Debug, PartialEq, Eq)]
pub enum Service {
    /// The judge.
    Judge,
    /// The runner, over this memory, with this budget.
    Run(Vec<u8>, u32),
    /// The runner over many images.
    RunEach(Images),
    /// The listing of variables, into a table of this length.
    Variables(usize),
}

/// Many images and a budget.
#[derive(Clone, Debug, PartialEq, Eq)]
pub struct Images {
    /// How the images are made for a text.
    pub shape: Shape,
    /// The images side by side.
    pub bytes: Vec<u8>,
    /// The bytes of one image.
    pub size: usize,
    /// The most steps of each.
    pub budget: u32,
}

/// What a call returned, and what it left in the slices that it was lent.
#[derive(Clone, Debug, PartialEq, Eq)]
pub struct Left {
    /// The number returned.
    pub returned: usize,
    /// The whole answer slice.
    pub answer: Vec<u8>,
    /// The whole memory or table, or all images.
    pub bytes: Vec<u8>,
    /// Whether every byte round the slices stayed.
    pub round_kept: bool,
}

impl Call {
    /// The call of `run_each` over the images of this shape, for this text and budget.
    pub fn run_each(shape: Shape, text: &[u8], budget: u32) -> Call {
        let Batch {
            images,
            size,
            answers,
        } = shape.batch(text);
        let images = Images {
            shape,
            bytes: images,
            size,
            budget,
        };
        Call {
            service: Service::RunEach(images),
            answer: answers,
        }
    }

    /// The same call for another case.
    pub fn on(&self, case: &Case) -> Call {
        let service = match &self.service {
            Service::Run(..) => Service::Run(case.memory.clone(), case.budget),
            Service::RunEach(images) => {
                return Call::run_each(images.shape.clone(), &case.text, case.budget);
            }
            other => other.clone(),
        };
        Call {
            service,
            answer: self.answer,
        }
    }

    /// The budget of a run, or of each of many.
    pub fn budget(&self) -> Option<u32> {
        match &self.service {
            Service::Run(_, budget) => Some(*budget),
            Service::RunEach(images) => Some(images.budget),
            Service::Judge | Service::Variables(_) => None,
        }
    }

    /// The answer slice before the call.
    pub fn answer_before(&self) -> Vec<u8> {
        pattern(self.answer)
    }

    /// The memory, the images or the table before the call; the judge has none.
    pub fn bytes_before(&self) -> Vec<u8> {
        match &self.service {
            Service::Judge => Vec::new(),
            Service::Run(memory, _) => memory.clone(),
            Service::RunEach(images) => images.bytes.clone(),
            Service::Variables(length) => pattern(*length),
        }
    }

    /// Makes the call on this text and these slices, and gives the number returned.
    pub fn make(
        &self,
        services: &impl Services,
        text: &[u8],
        bytes: &mut [u8],
        answer: &mut [u8],
    ) -> usize {
        let returned = match &self.service {
            Service::Judge => services.judge(text, answer),
            Service::Run(_, budget) => services.run(text, bytes, *budget, answer),
            Service::RunEach(images) => {
                return services.run_each(text, bytes, images.size, images.budget, answer);
            }
            Service::Variables(_) => services.variables(text, bytes, answer),
        };
        returned as usize
    }

    /// Makes the call on this text, over slices with other bytes round them.
    pub fn perform(&self, services: &impl Services, text: &[u8]) -> Left {
        let mut answer = Lent::new(&self.answer_before());
        let mut bytes = Lent::new(&self.bytes_before());
        let returned = self.make(services, text, bytes.slice(), answer.slice());
        Left {
            returned,
            round_kept: answer.round_kept() && bytes.round_kept(),
            answer: answer.slice().to_vec(),
            bytes: bytes.slice().to_vec(),
        }
    }
}

/// Bytes that no service is likely to write.
fn pattern(length: usize) -> Vec<u8> {
    (0..length).map(|at| 0x91 ^ (at * 29) as u8).collect()
}

/// Bytes to lend, with others on both sides that must stay.
struct Lent {
    bytes: Vec<u8>,
}

impl Lent {
    /// How many bytes stand on each side.
    const ROUND: usize = 64;
    /// What they are.
    const GUARD: u8 = 0xc3;

    /// These bytes, with others round them.
    fn new(inside: &[u8]) -> Self {
        let mut bytes = vec![Self::GUARD; inside.len() + 2 * Self::ROUND];
        bytes[Self::ROUND..][..inside.len()].copy_from_slice(inside);
        Lent { bytes }
    }

    /// The bytes to lend.
    fn slice(&mut self) -> &mut [u8] {
        let end = self.bytes.len() - Self::ROUND;
        &mut self.bytes[Self::ROUND..end]
    }

    /// Whether the bytes round them are as they were.
    fn round_kept(&self) -> bool {
        let end = self.bytes.len() - Self::ROUND;
        let mut round = self.bytes[..Self::ROUND].iter().chain(&self.bytes[end..]);
        round.all(|byte| *byte == Self::GUARD)
    }
}

impl fmt::Display for Call {
    fn fmt(&self, f: &mut fmt::Formatter<'_>) -> fmt::Result {
        match &self.service {
            Service::Judge => write!(f, "judge")?,
            Service::Run(memory, budget) => write!(
                f,
                "run over {} bytes of memory with budget {budget}",
                memory.len()
            )?,
            Service::RunEach(images) => write!(
                f,
                "run each over images of {} bytes in {} bytes with budget {}",
                images.size,
                images.bytes.len(),
                images.budget
            )?,
            Service::Variables(length) => write!(f, "variables into a table of {length} bytes")?,
        }
        write!(f, ", answer slice of {} bytes", self.answer)
    }
}

impl fmt::Display for Left {
    fn fmt(&self, f: &mut fmt::Formatter<'_>) -> fmt::Result {
        let numbers = self.answer.chunks_exact(4).take(4).map(|bytes| {
            let number = [bytes[0], bytes[1], bytes[2], bytes[3]];
            u32::from_le_bytes(number).to_string()
        });
        let numbers: Vec<String> = numbers.collect();
        writeln!(f, "  returned {}: {}", self.returned, numbers.join(" "))?;
        writeln!(f, "  answer slice {}", show::hex(&self.answer))?;
        write!(f, "  memory, images or table {}", show::hex(&self.bytes))?;
        match self.round_kept {
            true => Ok(()),
            false => write!(f, "\n  bytes outside the slices have changed"),
        }
    }
}
