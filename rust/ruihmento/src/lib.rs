//! A safe interface to Ruihmento, the proved judge and runner for lane routines.
//!
//! A collector makes a [`Routine`] of a text once, then puts samples into a memory by name, runs
//! the routine over it and takes the results by name:
//!
//! ```
//! use ruihmento::Routine;
//!
//! let routine = Routine::new("bool block[4] ok; int block[4] s; if (ok) s = s + 1; else ;")?;
//! let mut memory = vec![0; routine.need()];
//! routine.set_bools(&mut memory, "ok", &[true, false, true, false])?;
//! routine.set_ints(&mut memory, "s", &[4, 7, 25, 90])?;
//! let ended = routine.run(&mut memory, 1_000)?;
//! assert_eq!(ended.steps, 5);
//! assert!(routine.ints(&memory, "s")?.eq([5, 7, 26, 90]));
//! # Ok::<(), Box<dyn std::error::Error>>(())
//! ```
//!
//! A text that is refused says why and where, and changes no byte:
//!
//! ```
//! use ruihmento::Routine;
//!
//! let refused = Routine::new("int block[4] a; int block[2] b; a = a + b;").unwrap_err();
//! assert_eq!((refused.refusal.code(), refused.place), (9, 38));
//! println!("{refused}");
//! ```
//!
//! Many memories side by side, as a recording has them, are run in one call, which judges the text
//! once: [`Routine::run_each`].
//!
//! Below it are the four calls on texts, [`judge`], [`run`], [`run_each`] and [`variables`], and
//! below these the same on byte slices as the archive exports them, in [`services`]. They call the
//! proved archive and do nothing else; none of them can fail otherwise than by a [`Refusal`],
//! whatever bytes they are given.
//!
//! # Stack and threads
//!
//! A call of the archive allocates nothing and uses less than 256 KiB of stack, whatever the
//! text: a thread with 512 KiB has room for it and its caller, and Rust's own threads have 2 MiB.
//!
//! Nothing is kept from one call to the next, and there is no lock: any number of threads may
//! call at once, each with a memory of its own. They may share one [`Routine`].
//!
//! # The archive
//!
//! The build script links `libruihmento.a`, which `./archive` at the repository's root leaves in
//! `target/staticlib` there. The environment variable `RUIHMENTO_ARCHIVE_DIR`
//! names another folder, as an absolute path. The archive is for x86-64.
#![deny(unsafe_code)]
#![warn(missing_docs)]

mod answer;
mod kind;
mod misfit;
mod nearest;
mod refusal;
mod routine;
pub mod services;
mod variables;

pub use answer::{Answer, Ended, ANSWER_BYTES};
pub use kind::{Kind, Lanes};
pub use misfit::Misfit;
pub use refusal::{Refusal, Refused, Stopped};
pub use routine::Routine;
pub use variables::{Variable, Variables};

/// Judges a text: code 0 and what memory it needs, or codes 1 to 11 and the place of the refusal.
///
/// ```
/// let answer = ruihmento::judge(b"int block[4] s; bool done;");
/// assert!(answer.is_accepted());
/// assert_eq!(answer.need, 17);
///
/// let answer = ruihmento::judge(b"int x");
/// assert_eq!((answer.code, answer.place), (3, 5));
/// ```
pub fn judge(text: &[u8]) -> Answer {
    Answer::of(|answer| services::judge(text, answer))
}

/// Judges a text and runs it over this memory, for at most `budget` steps.
///
/// A text that is refused, or that needs more memory, changes no byte. A run whose budget is
/// spent (code 13) leaves the memory as after exactly that many steps. Bytes outside the text's
/// variables never change.
///
/// ```
/// let mut memory = [0; 4];
/// let answer = ruihmento::run(b"int x = 2147483647 + 1;", &mut memory, 10);
/// assert!(answer.is_ended());
/// assert_eq!(i32::from_le_bytes(memory), i32::MIN);
///
/// let answer = ruihmento::run(b"int x; while (true) x = x + 1;", &mut memory, 100);
/// assert_eq!(answer.refusal(), Some(ruihmento::Refusal::BudgetSpent));
/// assert_eq!((answer.place, answer.steps), (20, 100));
/// ```
pub fn run(text: &[u8], memory: &mut [u8], budget: u32) -> Answer {
    Answer::of(|answer| services::run(text, memory, budget, answer))
}

/// Judges a text once and runs it over each of many images, as [`run`] would over each alone;
/// gives how many were run.
///
/// - `text` is the program's text, any bytes.
/// - `images` has the memories side by side: image k is its bytes from k·size to (k+1)·size.
/// - `size` is the length of one image in bytes. Where it is less than the text needs, each image
///   is answered code 12; where it is more, the bytes behind the variables stay.
/// - `budget` is the most steps that each image may take; none takes from another's.
/// - `answers` takes the answer of image k into its [`ANSWER_BYTES`] bytes from 16·k on;
///   [`Answer::list`] reads them.
///
/// As many images are run as stand whole in `images` and have room for their answer in `answers`;
/// none where `size` is 0. Where none is run the count is 0, of a refused text as of an accepted
/// one: [`judge`] tells them apart. Every other byte of both slices stays. A text that is refused gives
/// each image its refusal and changes no byte of them. How one image ends, and what it holds, is
/// nothing to another. Slices of any length and any size will do.
///
/// ```
/// use ruihmento::{run_each, Answer, ANSWER_BYTES};
///
/// let mut images = [1, 0, 0, 0, 200, 0, 0, 0, 0, 0, 0, 0, 9, 9];
/// let mut answers = [0; 3 * ANSWER_BYTES];
/// let count = run_each(b"int n; while (0 < n) n = n - 1;", &mut images, 4, 100, &mut answers);
/// assert_eq!(count, 3);
/// assert_eq!(images, [0, 0, 0, 0, 151, 0, 0, 0, 0, 0, 0, 0, 9, 9]);
/// let ends = Answer::list(&answers).take(count).map(|answer| (answer.code, answer.steps));
/// assert!(ends.eq([(0, 4), (13, 100), (0, 2)]));
///
/// let count = run_each(b"int n", &mut images, 4, 100, &mut answers[..20]);
/// assert_eq!(count, 1);
/// assert_eq!(Answer::list(&answers).next().map(|answer| answer.code), Some(3));
/// ```
#[must_use = "fewer images may have been run than were lent"]
pub fn run_each(
    text: &[u8],
    images: &mut [u8],
    size: usize,
    budget: u32,
    answers: &mut [u8],
) -> usize {
    services::run_each(text, images, size, budget, answers)
}

/// Lists where the variables of an accepted text lie, one for each declaration in text order.
///
/// ```
/// use ruihmento::{variables, Kind};
///
/// let listed = variables(b"bool ready; int block[4] s;")?;
/// assert_eq!(listed.need, 32);
/// let s = listed.find("s").unwrap();
/// assert_eq!((s.kind, s.length, s.address, s.place), (Kind::Int, 4, 16, 25));
/// assert_eq!(s.range(), 16..32);
///
/// assert_eq!(variables(b"int a; int a;").unwrap_err().place, 11);
/// # Ok::<(), ruihmento::Refused>(())
/// ```
pub fn variables(text: &[u8]) -> Result<Variables<'_>, Refused> {
    let (need, declared) = variables::declared(text)?;
    let list = declared.iter().map(|declared| declared.variable(text));
    let list = list.collect();
    Ok(Variables { need, list })
}
