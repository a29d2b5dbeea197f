//! The four numbers of an answer, and what they say.

use crate::{Refusal, Stopped};

/// The bytes of one answer: four 32-bit little-endian numbers.
pub const ANSWER_BYTES: usize = 16;

/// Each byte of an answer slice before the call: as numbers these are no answer, least of all
/// code 0.
pub(crate) const UNANSWERED: u8 = 0xff;

/// The four numbers that a judgement or a run answers.
#[derive(Clone, Copy, Debug, PartialEq, Eq, Hash)]
#[must_use = "a text may be refused, and a run may not come to its end"]
pub struct Answer {
    /// 0, or the code of a [`Refusal`].
    pub code: u32,
    /// Where in the text the refusal stands, or the statement that is due: a byte offset.
    pub place: usize,
    /// How many bytes of memory an accepted text needs; 0 for a text that is not accepted.
    pub need: usize,
    /// How many steps a run took; a judgement takes none.
    pub steps: u32,
}

/// A run that came to its end.
#[derive(Clone, Copy, Debug, PartialEq, Eq, Hash)]
#[non_exhaustive]
pub struct Ended {
    /// How many bytes of memory the text needs.
    pub need: usize,
    /// How many steps the run took.
    pub steps: u32,
}

impl Answer {
    /// The answer that this call writes into the slice that it is lent.
    pub(crate) fn of(call: impl FnOnce(&mut [u8]) -> u32) -> Self {
        let mut bytes = [UNANSWERED; ANSWER_BYTES];
        let returned = call(&mut bytes);
        debug_assert_eq!(returned, 1, "16 bytes are room for an answer");
        Answer::read(&bytes)
    }

    /// The answer in the first 16 of these bytes.
    fn read(bytes: &[u8]) -> Self {
        let [code, place, need, steps] = four_numbers(bytes);
        Answer {
            code,
            place: place as usize,
            need: need as usize,
            steps,
        }
    }

    /// The answers in this slice, one for each [`ANSWER_BYTES`] bytes; bytes behind the last whole
    /// one are none. Only the first `count` that [`run_each`](crate::run_each) gave are answers:
    /// take no more, since bytes of 0 behind them read as code 0.
    ///
    /// ```
    /// use ruihmento::Answer;
    ///
    /// let mut answers = [0; 40];
    /// let count = ruihmento::run_each(b"int x = 7;", &mut [0; 12], 4, 9, &mut answers);
    /// let steps: u32 = Answer::list(&answers).take(count).map(|answer| answer.steps).sum();
    /// assert_eq!((count, steps), (2, 2));
    /// ```
    pub fn list(answers: &[u8]) -> impl ExactSizeIterator<Item = Answer> + '_ {
        answers.chunks_exact(ANSWER_BYTES).map(Answer::read)
    }

    /// Whether the text was accepted, or the run came to its end: code 0.
    #[must_use]
    pub fn is_ended(&self) -> bool {
        self.code == 0
    }

    /// Whether the judge accepts the text, however a run of it went: code 0, 12 or 13.
    #[must_use]
    pub fn is_accepted(&self) -> bool {
        match self.refusal() {
            None => true,
            Some(refusal) => !refusal.is_of_text(),
        }
    }

    /// Why the answer is not the wished one; none at code 0.
    ///
    /// ```
    /// use ruihmento::{judge, Refusal};
    ///
    /// assert_eq!(judge(b"int x;").refusal(), None);
    /// assert_eq!(judge(b"x = 1;").refusal(), Some(Refusal::UnknownName));
    /// ```
    #[must_use]
    pub fn refusal(&self) -> Option<Refusal> {
        Refusal::from_code(self.code)
    }

    /// Need and steps at code 0, or what stopped it as an error.
    ///
    /// ```
    /// fn steps(text: &[u8], memory: &mut [u8]) -> Result<u32, ruihmento::Stopped> {
    ///     Ok(ruihmento::run(text, memory, 1_000).into_result()?.steps)
    /// }
    ///
    /// assert_eq!(steps(b"int x = 5;", &mut [0; 4]).unwrap(), 1);
    /// let stopped = steps(b"int x = true;", &mut [0; 4]).unwrap_err();
    /// assert_eq!((stopped.refusal.code(), stopped.place), (8, 6));
    /// ```
    pub fn into_result(self) -> Result<Ended, Stopped> {
        let Answer {
            place, need, steps, ..
        } = self;
        match self.refusal() {
            None => Ok(Ended { need, steps }),
            Some(refusal) => Err(Stopped {
                refusal,
                place,
                need,
                steps,
            }),
        }
    }
}

/// Four 32-bit little-endian numbers, the first 16 of these bytes.
pub(crate) fn four_numbers(bytes: &[u8]) -> [u32; 4] {
    let number = |at: usize| {
        let bytes = [bytes[at], bytes[at + 1], bytes[at + 2], bytes[at + 3]];
        u32::from_le_bytes(bytes)
    };
    [number(0), number(4), number(8), number(12)]
}
