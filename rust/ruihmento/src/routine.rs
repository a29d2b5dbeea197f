//! A text that is accepted, with its variables.

use crate::answer::UNANSWERED;
use crate::nearest::nearest;
use crate::variables::{declared, Declared};
use crate::{Answer, Ended, Misfit, Refused, Stopped, Variable, ANSWER_BYTES};

/// An accepted text that owns what a collector keeps of it: the text, its need and its variables.
///
/// A name stands for the first declaration of that name; [`Routine::variables`] lists them all.
/// Reading and setting by name allocates nothing, unless there is an error to tell.
///
/// ```
/// use ruihmento::Routine;
///
/// struct Collector {
///     routine: Routine,
///     memory: Vec<u8>,
/// }
///
/// let routine = Routine::new("bool block[4] ok; int block[4] s; if (ok) s = s + 1; else ;")?;
/// let memory = vec![0; routine.need()];
/// let mut collector = Collector { routine, memory };
///
/// let Collector { routine, memory } = &mut collector;
/// routine.set_bools(memory, "ok", &[true, false, true, false])?;
/// routine.set_ints(memory, "s", &[4, 7, 25, 90])?;
/// // Two declarations, the test, the assignment and the empty statement.
/// assert_eq!(routine.run(memory, 1_000)?.steps, 5);
/// assert!(routine.ints(memory, "s")?.eq([5, 7, 26, 90]));
/// # Ok::<(), Box<dyn std::error::Error>>(())
/// ```
#[derive(Clone, Debug, PartialEq, Eq)]
pub struct Routine {
    text: Vec<u8>,
    need: usize,
    declared: Vec<Declared>,
}

impl Routine {
    /// The routine of this text, if the judge accepts it.
    ///
    /// ```
    /// use ruihmento::{Refusal, Routine};
    ///
    /// let refused = Routine::new("int s; t = s;").unwrap_err();
    /// assert_eq!((refused.refusal, refused.place), (Refusal::UnknownName, 7));
    /// ```
    pub fn new(text: impl AsRef<[u8]>) -> Result<Routine, Refused> {
        let text = text.as_ref();
        let (need, declared) = declared(text)?;
        Ok(Routine {
            text: text.to_vec(),
            need,
            declared,
        })
    }

    /// The text.
    #[must_use]
    pub fn text(&self) -> &[u8] {
        &self.text
    }

    /// How many bytes of memory a run needs.
    #[must_use]
    pub fn need(&self) -> usize {
        self.need
    }

    /// Every declaration, in text order.
    pub fn variables(&self) -> impl ExactSizeIterator<Item = Variable<'_>> + '_ {
        let declared = self.declared.iter();
        declared.map(move |declared| declared.variable(&self.text))
    }

    /// The first declaration of this name.
    pub fn variable(&self, name: &str) -> Result<Variable<'_>, Misfit> {
        let found = self.variables().find(|variable| variable.name == name);
        found.ok_or_else(|| self.unknown(name))
    }

    /// Puts these ints into the lanes of this variable.
    ///
    /// ```
    /// let routine = ruihmento::Routine::new("int block[4] sample;")?;
    /// let mut memory = [0; 16];
    /// let misfit = routine.set_ints(&mut memory, "sampel", &[1, 2, 3, 4]).unwrap_err();
    /// let words = "no variable is named `sampel`; the nearest is `sample`";
    /// assert_eq!(misfit.to_string(), words);
    /// let misfit = routine.set_ints(&mut memory[1..], "sample", &[1, 2, 3, 4]).unwrap_err();
    /// let words = "`sample` ends at byte 16, and the memory at byte 15";
    /// assert_eq!(misfit.to_string(), words);
    /// # Ok::<(), ruihmento::Refused>(())
    /// ```
    pub fn set_ints(&self, memory: &mut [u8], name: &str, values: &[i32]) -> Result<(), Misfit> {
        self.variable(name)?.set_ints(memory, values)
    }

    /// Puts these bools into the lanes of this variable, a true as 1.
    pub fn set_bools(&self, memory: &mut [u8], name: &str, values: &[bool]) -> Result<(), Misfit> {
        self.variable(name)?.set_bools(memory, values)
    }

    /// Puts these floats into the lanes of this variable, each with its pattern as it is.
    ///
    /// ```
    /// let text = "float block[2] level; if (level < 0.0) level = -level; else ;";
    /// let routine = ruihmento::Routine::new(text)?;
    /// let mut memory = vec![0; routine.need()];
    /// routine.set_floats(&mut memory, "level", &[-1.5, 0.25])?;
    /// routine.run(&mut memory, 1_000)?;
    /// assert!(routine.floats(&memory, "level")?.eq([1.5, 0.25]));
    /// # Ok::<(), Box<dyn std::error::Error>>(())
    /// ```
    pub fn set_floats(&self, memory: &mut [u8], name: &str, values: &[f32]) -> Result<(), Misfit> {
        self.variable(name)?.set_floats(memory, values)
    }

    /// The lanes of this variable, as ints.
    pub fn ints<'m>(
        &self,
        memory: &'m [u8],
        name: &str,
    ) -> Result<impl ExactSizeIterator<Item = i32> + 'm, Misfit> {
        self.variable(name)?.ints(memory)
    }

    /// The lanes of this variable, as bools: any byte other than 0 is true.
    pub fn bools<'m>(
        &self,
        memory: &'m [u8],
        name: &str,
    ) -> Result<impl ExactSizeIterator<Item = bool> + 'm, Misfit> {
        self.variable(name)?.bools(memory)
    }

    /// The lanes of this variable, as floats.
    pub fn floats<'m>(
        &self,
        memory: &'m [u8],
        name: &str,
    ) -> Result<impl ExactSizeIterator<Item = f32> + 'm, Misfit> {
        self.variable(name)?.floats(memory)
    }

    /// Runs the routine over this memory, for at most `budget` steps.
    ///
    /// Where the memory is shorter than [`Routine::need`], no byte changes; where the budget is
    /// spent, the memory is as after exactly that many steps. Bytes outside the variables never
    /// change.
    pub fn run(&self, memory: &mut [u8], budget: u32) -> Result<Ended, Stopped> {
        crate::run(&self.text, memory, budget).into_result()
    }

    /// Runs the routine over each image of `size` bytes, each for at most `budget` steps, and
    /// says of each how that went. The text is judged once for all of them.
    ///
    /// Image k is the bytes from k·size to (k+1)·size; bytes after the last whole image stay, and
    /// there is no image where `size` is 0. A run of one image is not affected by what another
    /// holds, or by how it ends. Where `size` is less than [`Routine::need`], each image is
    /// [`Refusal::MemoryTooShort`](crate::Refusal::MemoryTooShort), and no byte changes. A routine
    /// that needs no memory wants images of a byte at least: `routine.need().max(1)`.
    ///
    /// ```
    /// let routine = ruihmento::Routine::new("int n; while (0 < n) n = n - 1;")?;
    /// let mut images = [1, 0, 0, 0, 200, 0, 0, 0, 0, 0, 0, 0];
    /// let ends = routine.run_each(&mut images, routine.need(), 100);
    /// assert_eq!(images, [0, 0, 0, 0, 151, 0, 0, 0, 0, 0, 0, 0]);
    /// assert_eq!(ends[0].unwrap().steps, 4);
    /// assert_eq!(ends[1].unwrap_err().steps, 100);
    /// assert_eq!(ends[2].unwrap().steps, 2);
    /// # Ok::<(), ruihmento::Refused>(())
    /// ```
    #[must_use]
    pub fn run_each(
        &self,
        images: &mut [u8],
        size: usize,
        budget: u32,
    ) -> Vec<Result<Ended, Stopped>> {
        let count = images.len().checked_div(size).unwrap_or(0);
        let mut answers = vec![UNANSWERED; count * ANSWER_BYTES];
        let ends = self.run_each_into(images, size, budget, &mut answers);
        ends.collect()
    }

    /// The same without an allocation, for a collector that lends the room for the answers: 16
    /// bytes an image, [`ANSWER_BYTES`]. Where there is room for fewer, fewer images are run.
    ///
    /// It gives one end for each image that was run. They are run whether or not the ends are
    /// looked at, and the answers stay in the slice, where [`Answer::list`] reads them again.
    ///
    /// ```
    /// let routine = ruihmento::Routine::new("int n; n = n + 1;")?;
    /// let (mut images, mut answers) = ([0; 12], [0; 32]);
    /// let ends = routine.run_each_into(&mut images, routine.need(), 100, &mut answers);
    /// assert_eq!(ends.len(), 2);
    /// assert_eq!(images, [1, 0, 0, 0, 1, 0, 0, 0, 0, 0, 0, 0]);
    /// # Ok::<(), ruihmento::Refused>(())
    /// ```
    pub fn run_each_into<'a>(
        &self,
        images: &mut [u8],
        size: usize,
        budget: u32,
        answers: &'a mut [u8],
    ) -> impl ExactSizeIterator<Item = Result<Ended, Stopped>> + 'a {
        let count = crate::run_each(&self.text, images, size, budget, answers);
        Answer::list(answers).take(count).map(Answer::into_result)
    }

    /// There is no variable of this name.
    fn unknown(&self, name: &str) -> Misfit {
        let names = self.variables().map(|variable| variable.name);
        Misfit::UnknownName {
            name: name.into(),
            nearest: nearest(name, names).map(String::from),
        }
    }
}
