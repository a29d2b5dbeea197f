//! The four services on byte slices, as the archive gives them and as the oracle would.

use oracle::Answer;

/// The bytes of an answer, and of one record of the table of variables.
const RECORD: usize = 16;

/// Someone who judges, runs and lists on byte slices.
pub trait Services {
    /// Judges the text into the answer.
    fn judge(&self, text: &[u8], answer: &mut [u8]) -> u32;
    /// Runs the text over the memory.
    fn run(&self, text: &[u8], memory: &mut [u8], budget: u32, answer: &mut [u8]) -> u32;
    /// Runs the text over each image.
    fn run_each(
        &self,
        text: &[u8],
        images: &mut [u8],
        size: usize,
        budget: u32,
        answers: &mut [u8],
    ) -> usize;
    /// Lists the text's variables into the table.
    fn variables(&self, text: &[u8], table: &mut [u8], answer: &mut [u8]) -> u32;
}

/// The proved archive.
pub struct Archive;

impl Services for Archive {
    fn judge(&self, text: &[u8], answer: &mut [u8]) -> u32 {
        ruihmento::services::judge(text, answer)
    }

    fn run(&self, text: &[u8], memory: &mut [u8], budget: u32, answer: &mut [u8]) -> u32 {
        ruihmento::services::run(text, memory, budget, answer)
    }

    fn run_each(
        &self,
        text: &[u8],
        images: &mut [u8],
        size: usize,
        budget: u32,
        answers: &mut [u8],
    ) -> usize {
        ruihmento::services::run_each(text, images, size, budget, answers)
    }

    fn variables(&self, text: &[u8], table: &mut [u8], answer: &mut [u8]) -> u32 {
        ruihmento::services::variables(text, table, answer)
    }
}

/// The independent implementation, behind the same doors.
pub struct Oracle;

impl Services for Oracle {
    fn judge(&self, text: &[u8], answer: &mut [u8]) -> u32 {
        if answer.len() < RECORD {
            return 0;
        }
        write_answer(answer, oracle::judge(text))
    }

    fn run(&self, text: &[u8], memory: &mut [u8], budget: u32, answer: &mut [u8]) -> u32 {
        if answer.len() < RECORD {
            return 0;
        }
        write_answer(answer, oracle::run(text, memory, budget))
    }

    fn run_each(
        &self,
        text: &[u8],
        images: &mut [u8],
        size: usize,
        budget: u32,
        answers: &mut [u8],
    ) -> usize {
        oracle::run_each(text, images, size, budget, answers)
    }

    fn variables(&self, text: &[u8], table: &mut [u8], answer: &mut [u8]) -> u32 {
        if answer.len() < RECORD {
            return 0;
        }
        let listed = oracle::variables(text);
        for (record, row) in table.chunks_exact_mut(RECORD).zip(&listed.rows) {
            write_numbers(record, [row.place, row.kind, row.length, row.address]);
        }
        write_answer(answer, listed.answer)
    }
}

/// Writes the four numbers of an answer; gives the 1 that a service then returns.
fn write_answer(answer: &mut [u8], numbers: Answer) -> u32 {
    answer[..RECORD].copy_from_slice(&numbers.to_bytes());
    1
}

/// Writes four 32-bit little-endian numbers.
fn write_numbers(bytes: &mut [u8], numbers: [u32; 4]) {
    for (bytes, number) in bytes.chunks_exact_mut(4).zip(numbers) {
        bytes.copy_from_slice(&number.to_le_bytes());
    }
}
