//! Judging and running, a call at a time, against the independent implementation.

use crate::texts::{countdown, declarations, filled, ranges, ranges_memory, routine};
use crate::texts::{routine_memory, SMALL, TEST};
use crate::timing::best;

/// The seconds of one call on each side.
#[derive(Clone, Copy)]
pub struct Times {
    pub archive: f64,
    pub independent: f64,
}

impl Times {
    /// So many times as much, to have another unit.
    pub fn times(self, factor: f64) -> Self {
        Times {
            archive: self.archive * factor,
            independent: self.independent * factor,
        }
    }
}

/// Times judging these texts, one call for each.
pub fn judging(texts: &[&[u8]]) -> Times {
    let best = best(&mut [
        &mut || texts.iter().map(|text| ruihmento::judge(text).need).sum(),
        &mut || {
            texts
                .iter()
                .map(|text| oracle::judge(text).need as usize)
                .sum()
        },
    ]);
    let calls = texts.len() as f64;
    Times {
        archive: best[0] / calls,
        independent: best[1] / calls,
    }
}

/// Times running this text over this memory, which each call finds anew; then judging it.
pub fn running(text: &[u8], memory: &[u8]) -> (Times, Times) {
    let (mut first, mut second) = (memory.to_vec(), memory.to_vec());
    let best = best(&mut [
        &mut || archive_runs(text, memory, &mut first),
        &mut || oracle_runs(text, memory, &mut second),
        &mut || ruihmento::judge(text).need,
        &mut || oracle::judge(text).need as usize,
    ]);
    let times = |at: usize| Times {
        archive: best[at],
        independent: best[at + 1],
    };
    (times(0), times(2))
}

/// Runs the text on the archive, over a copy of the memory.
fn archive_runs(text: &[u8], memory: &[u8], copy: &mut [u8]) -> usize {
    copy.copy_from_slice(memory);
    ruihmento::run(text, copy, u32::MAX).need
}

/// Runs the text on the independent implementation, over a copy of the memory.
fn oracle_runs(text: &[u8], memory: &[u8], copy: &mut [u8]) -> usize {
    copy.copy_from_slice(memory);
    oracle::run(text, copy, u32::MAX).need as usize
}

/// Prints one row of the table: two figures, microseconds a call, the quotient of the times.
fn row(what: &str, unit: &str, times: Times, figure: impl Fn(f64) -> f64) {
    let (archive, independent) = (figure(times.archive), figure(times.independent));
    let microseconds = times.archive * 1e6;
    let ratio = times.archive / times.independent;
    println!(
        "| {what} | {unit} | {archive:.2} | {independent:.2} | {microseconds:.2} | {ratio:.2} |"
    );
}

/// Judges texts that are all accepted, in bytes a second.
fn judge(what: &str, texts: &[&str]) {
    let texts: Vec<&[u8]> = texts.iter().map(|text| text.as_bytes()).collect();
    for text in &texts {
        assert!(ruihmento::judge(text).is_ended(), "{what}");
    }
    let bytes: usize = texts.iter().map(|text| text.len()).sum();
    let bytes = bytes as f64 / texts.len() as f64;
    let what = format!("judge: {what}");
    row(&what, "MB/s", judging(&texts), |seconds| {
        bytes / seconds / 1e6
    });
}

/// Runs a text with blocks of this length to its end, in nanoseconds a step and lane.
fn run(what: &str, text: &str, memory: &[u8], length: usize) {
    let answer = ruihmento::run(text.as_bytes(), &mut memory.to_vec(), u32::MAX);
    assert!(answer.is_ended(), "{what}");
    let work = f64::from(answer.steps) * length as f64;
    let nanoseconds = |seconds: f64| seconds * 1e9 / work;
    let (run, judge) = running(text.as_bytes(), memory);
    let what = format!("run: {what}, {length} lanes");
    row(&what, "ns/step/lane", run, nanoseconds);
    // In a long run the judging is too small a part to be told apart.
    if answer.steps < 100 {
        let what = format!("{what}, less its judging");
        let less_judging = Times {
            archive: run.archive - judge.archive,
            independent: run.independent - judge.independent,
        };
        row(&what, "ns/step/lane", less_judging, nanoseconds);
    }
}

/// What judging takes.
fn judge_rows() {
    judge("four small texts of document 01", &SMALL);
    judge("document 01's routine", &[&routine(4)]);
    let text = ranges(4);
    judge(&format!("a routine of {} bytes", text.len()), &[&text]);
    let tests = filled(4_096, &declarations(4), TEST, "");
    judge("4,096 bytes of the routine's tests", &[&tests]);
    let sum = filled(4_096, "int block[16] a; a = a", " + a * 3", ";");
    judge("4,096 bytes of one expression", &[&sum]);
}

/// What running takes.
fn run_rows(lanes: &[usize]) {
    for length in lanes.iter().copied() {
        let memory = routine_memory(length);
        run("document 01's routine", &routine(length), &memory, length);
    }
    for length in lanes.iter().copied() {
        let text = ranges(length);
        let what = format!("a routine of {} bytes", text.len());
        run(&what, &text, &ranges_memory(length), length);
    }
    for length in lanes.iter().copied() {
        let start = declarations(length);
        let text = format!("{start} int n = 1000; while (0 < n) {{ {TEST} n = n - 1; }}");
        let what = "the routine's test in a loop of 1,000";
        run(what, &text, &routine_memory(length), length);
    }
    for length in lanes.iter().copied() {
        let text = countdown(length, 10_000);
        run(
            "a `while` of 10,000 turns",
            &text,
            &routine_memory(length),
            length,
        );
    }
}

/// Prints the table.
pub fn print(lanes: &[usize]) {
    println!(
        "| what | unit | archive | independent | archive, us a call | archive's time / independent's |"
    );
    println!("|---|---|---|---|---|---|");
    judge_rows();
    run_rows(lanes);
}
