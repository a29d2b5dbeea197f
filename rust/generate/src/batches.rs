//! Many images for one text, and room for their answers.

use crate::memories::memory_of;
use crate::random::Random;

/// The bytes of one answer.
const ANSWER: usize = 16;

/// What `run_each` takes beside a text and a budget.
#[derive(Clone, Debug, PartialEq, Eq)]
pub struct Batch {
    /// The images side by side, and perhaps a part of one more.
    pub images: Vec<u8>,
    /// The bytes of one image.
    pub size: usize,
    /// How many bytes there are for answers.
    pub answers: usize,
}

/// How a batch is made for any text: it stays the same while the text is made smaller.
#[derive(Clone, Debug, PartialEq, Eq)]
pub struct Shape {
    /// The bytes of one image.
    size: Size,
    /// How many whole images there are.
    images: usize,
    /// How much of one more image, in 256ths.
    part: usize,
    /// How many answers there is room for, and how many bytes more.
    answers: (usize, usize),
    /// What the images hold.
    seed: u64,
}

/// The bytes of one image, by what the text needs.
#[derive(Clone, Copy, Debug, PartialEq, Eq)]
enum Size {
    /// As many as needed, and so many more.
    More(usize),
    /// So many fewer than needed.
    Fewer(usize),
    /// So many, whatever is needed.
    Just(usize),
}

impl Shape {
    /// A few images, mostly of the size that the text needs, and mostly room for their answers.
    pub fn few(random: &mut Random) -> Self {
        let images = random.below(6);
        let size = match random.below(8) {
            0 => Size::More(random.between(1, 40)),
            1 => Size::Fewer(random.between(1, 8)),
            _ => Size::More(0),
        };
        Self::of(size, images, random)
    }

    /// Slices and sizes that fit each other only by chance: no size, an odd one, short slices.
    pub fn odd(random: &mut Random) -> Self {
        let size = match random.below(4) {
            0 => Size::Just(0),
            1 => Size::Just(random.between(1, 20)),
            2 => Size::Fewer(random.between(1, 70)),
            _ => Size::More(random.below(9)),
        };
        let mut shape = Self::of(size, random.below(12), random);
        shape.answers = (random.below(10), random.below(ANSWER));
        shape
    }

    /// Thousands of images.
    pub fn thousands(random: &mut Random) -> Self {
        let images = random.between(1_000, 3_000);
        let size = match random.below(8) {
            0 => Size::More(random.between(1, 7)),
            1 => Size::Fewer(1),
            _ => Size::More(0),
        };
        Self::of(size, images, random)
    }

    /// So many images of the size that the text needs, room for their answers, and nothing more.
    pub fn whole(images: usize, seed: u64) -> Self {
        Shape {
            size: Size::More(0),
            images,
            part: 0,
            answers: (images, 0),
            seed,
        }
    }

    /// So many images of this size.
    fn of(size: Size, images: usize, random: &mut Random) -> Self {
        let part = match random.below(2) {
            0 => 0,
            _ => random.below(256),
        };
        let answers = match random.below(8) {
            0 => random.below(images + 1),
            1 => images + random.below(3),
            _ => images,
        };
        let more = match random.below(3) {
            0 => random.below(ANSWER),
            _ => 0,
        };
        Shape {
            size,
            images,
            part,
            answers: (answers, more),
            seed: random.bits(),
        }
    }

    /// How many whole images there are where their size is above 0.
    pub fn images(&self) -> usize {
        self.images
    }

    /// The same with so many whole images at most, whose contents stay.
    pub fn with_at_most(&self, images: usize) -> Self {
        let mut shape = self.clone();
        shape.images = images.min(shape.images);
        shape
    }

    /// The batch of this shape for this text.
    pub fn batch(&self, text: &[u8]) -> Batch {
        let listed = oracle::variables(text);
        let need = listed.answer.need as usize;
        let size = match self.size {
            Size::More(more) => need + more,
            Size::Fewer(fewer) => need.saturating_sub(fewer),
            Size::Just(size) => size,
        };
        let mut images = Vec::new();
        for index in 0..=self.images {
            let mut random = Random::new(self.seed, index as u64);
            let length = match index {
                last if last == self.images => size * self.part / 256,
                // An image of no bytes is none: any bytes may then stand there.
                _ => size.max(1),
            };
            images.extend(memory_of(&listed.rows, length, &mut random));
        }
        let (answers, more) = self.answers;
        Batch {
            images,
            size,
            answers: answers * ANSWER + more,
        }
    }
}
