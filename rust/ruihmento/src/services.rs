//! The archive's four services as they are, on byte slices.
//!
//! This is the only module with unsafe code. Each service takes slices of any length, so these
//! functions are safe: Rust's slices are valid, and a `&mut` slice overlaps no other.
//!
//! [`judge`], [`run`] and [`variables`] return 1, or 0 where the answer slice is shorter than 16
//! bytes; then nothing else happens. Otherwise the first 16 bytes of the answer take four 32-bit
//! little-endian numbers, and its later bytes stay. [`run_each`] writes such an answer for each
//! image that it runs, and returns how many these are.
#![allow(unsafe_code)]

extern "C" {
    fn ruihmento_judge(text: *const u8, text_len: usize, answer: *mut u8, answer_len: usize)
        -> u32;
    fn ruihmento_run(
        text: *const u8,
        text_len: usize,
        memory: *mut u8,
        memory_len: usize,
        budget: u32,
        answer: *mut u8,
        answer_len: usize,
    ) -> u32;
    fn ruihmento_run_each(
        text: *const u8,
        text_len: usize,
        images: *mut u8,
        images_len: usize,
        size: usize,
        budget: u32,
        answers: *mut u8,
        answers_len: usize,
    ) -> usize;
    fn ruihmento_variables(
        text: *const u8,
        text_len: usize,
        table: *mut u8,
        table_len: usize,
        answer: *mut u8,
        answer_len: usize,
    ) -> u32;
}

/// Judges the text: code, place, need and 0 go into the answer.
#[must_use = "the answer slice may be too short"]
pub fn judge(text: &[u8], answer: &mut [u8]) -> u32 {
    // SAFETY: the pointers and lengths are those of slices that live through the call.
    unsafe { ruihmento_judge(text.as_ptr(), text.len(), answer.as_mut_ptr(), answer.len()) }
}

/// Judges the text and runs it over the memory: code, place, need and steps go into the answer.
#[must_use = "the answer slice may be too short"]
pub fn run(text: &[u8], memory: &mut [u8], budget: u32, answer: &mut [u8]) -> u32 {
    // SAFETY: the pointers and lengths are those of slices that live through the call.
    unsafe {
        ruihmento_run(
            text.as_ptr(),
            text.len(),
            memory.as_mut_ptr(),
            memory.len(),
            budget,
            answer.as_mut_ptr(),
            answer.len(),
        )
    }
}

/// Judges the text once and runs it over each image: what [`crate::run_each`] says.
#[must_use = "fewer images may have been run than were lent"]
pub fn run_each(
    text: &[u8],
    images: &mut [u8],
    size: usize,
    budget: u32,
    answers: &mut [u8],
) -> usize {
    // SAFETY: the pointers and lengths are those of slices that live through the call.
    unsafe {
        ruihmento_run_each(
            text.as_ptr(),
            text.len(),
            images.as_mut_ptr(),
            images.len(),
            size,
            budget,
            answers.as_mut_ptr(),
            answers.len(),
        )
    }
}

/// Judges the text and lists its declarations: code, place, need and their number go into the
/// answer, and one record of 16 bytes for each, as many as fit whole, into the table.
///
/// A record is four 32-bit little-endian numbers: the place of the name, the kind (0 int, 1
/// bool, 2 float), the length and the address. Every other byte of the table stays, and all of it where
/// the text is refused.
#[must_use = "the answer slice may be too short"]
pub fn variables(text: &[u8], table: &mut [u8], answer: &mut [u8]) -> u32 {
    // SAFETY: the pointers and lengths are those of slices that live through the call.
    unsafe {
        ruihmento_variables(
            text.as_ptr(),
            text.len(),
            table.as_mut_ptr(),
            table.len(),
            answer.as_mut_ptr(),
            answer.len(),
        )
    }
}
