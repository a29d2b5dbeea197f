//! The command `compare`: recorded blocks, run here and compared with what the collector left.

use crate::arguments::{Comparison, Format};
use crate::blocks::Recorded;
use crate::escape;
use crate::json::Object;
use crate::listing;
use crate::outcome::{Outcome, Streams};
use crate::routine::{Kind, Routine, Variable};
use crate::status::{Failure, Status};
use crate::steps::Steps;
use crate::terminal;
use crate::values::{self, counted};
use std::time::{Duration, Instant};

/// How often the line of progress is written anew.
const OFTEN: Duration = Duration::from_millis(200);

/// How many steps back the last write of a lane is looked for; each is a run from the start.
const FAR: u32 = 20_000;

/// What was counted so far.
#[derive(Debug, Default)]
struct Counts {
    blocks: u64,
    differ: u64,
    lanes: u64,
    spent: u64,
}

/// Compares recorded blocks.
pub fn compare(asked: &Comparison, to: &mut Streams) -> Result<Status, Failure> {
    let routine = Routine::read(&asked.start.file)?;
    if !routine.answer.is_accepted() {
        return Outcome::judged(&routine).show(asked.format, to);
    }
    let before = asked.start.blocks.clone().unwrap_or_default();
    let mut before = Recorded::open(&routine, &before, asked.start.stride)?;
    let mut after = Recorded::open(&routine, &asked.after, asked.start.stride)?;
    let mut comparing = Comparing {
        routine: &routine,
        asked,
        counts: Counts::default(),
        progress: Progress::new(before.expected()),
    };
    let ended = comparing.all(&mut before, &mut after, to);
    comparing.progress.clear(to)?;
    comparing.summary(to)?;
    if let Err(failure) = ended {
        if comparing.counts.differ == 0 {
            return Err(failure);
        }
        to.out.flush()?;
        writeln!(to.err, "{}", failure.told().unwrap_or_default())?;
    }
    Ok(match &comparing.counts {
        counts if counts.differ > 0 => Status::Refused,
        counts if counts.spent > 0 => Status::BudgetSpent,
        _ => Status::Ended,
    })
}

/// A comparison that goes on.
struct Comparing<'a> {
    routine: &'a Routine,
    asked: &'a Comparison,
    counts: Counts,
    progress: Progress,
}

impl Comparing<'_> {
    /// Compares block after block.
    fn all(
        &mut self,
        before: &mut Recorded,
        after: &mut Recorded,
        to: &mut Streams,
    ) -> Result<(), Failure> {
        loop {
            match (before.next()?, after.next()?) {
                (Some(start), Some(recorded)) => self.block(&start, &recorded, to)?,
                (None, None) => return Ok(()),
                (Some(_), None) => return self.ends(&self.asked.after),
                (None, Some(_)) => {
                    let path = self.asked.start.blocks.clone().unwrap_or_default();
                    return self.ends(&path);
                }
            }
            self.progress.show(&self.counts, to)?;
        }
    }

    /// One of the files has fewer blocks than the other.
    fn ends(&self, path: &std::path::Path) -> Result<(), Failure> {
        let path = escape::path(path);
        let blocks = counted(self.counts.blocks, "block");
        let why = format!("{path} ends after {blocks}, and the other file goes on");
        Err(Failure::Samples(why))
    }

    /// Runs one block and compares its lanes.
    fn block(&mut self, start: &[u8], recorded: &[u8], to: &mut Streams) -> Result<(), Failure> {
        let mut memory = start.to_vec();
        let answer = ruihmento::run(
            &self.routine.source.text,
            &mut memory,
            self.asked.start.budget,
        );
        let number = self.counts.blocks;
        self.counts.blocks += 1;
        self.counts.spent += u64::from(!answer.is_ended());
        if memory == recorded {
            return Ok(());
        }
        self.counts.differ += 1;
        let found = differences(self.routine, &memory, recorded);
        let room = u64::from(self.asked.shown).saturating_sub(self.counts.lanes);
        self.counts.lanes += found.len() as u64;
        if room == 0 {
            return Ok(());
        }
        let steps = Steps::new(self.routine, start);
        self.progress.clear(to)?;
        for difference in found.iter().take(room as usize) {
            let written = match difference.variable {
                Some(variable) => last_write(&steps, variable, difference.lane, answer.steps)?,
                None => Written::Never,
            };
            let line = self.line(number, difference, &written, [&memory, recorded]);
            writeln!(to.out, "{line}")?;
        }
        Ok(to.out.flush()?)
    }

    /// A difference in words or as JSON.
    fn line(
        &self,
        block: u64,
        difference: &Difference,
        written: &Written,
        [here, collector]: [&[u8]; 2],
    ) -> String {
        let bytes = difference.bytes.clone();
        let variable = difference
            .variable
            .map(|index| &self.routine.variables[index]);
        if self.asked.format == Format::Json {
            return self.json(
                block,
                difference,
                written,
                [&here[bytes.clone()], &collector[bytes]],
            );
        }
        let (place, here, collector) = match variable {
            Some(variable) => (
                lane_name(variable, difference.lane),
                shown(
                    variable.kind,
                    &here[bytes.clone()],
                    &collector[bytes.clone()],
                ),
                shown(variable.kind, &collector[bytes.clone()], &here[bytes]),
            ),
            None => (
                format!("byte {}, which belongs to no variable", bytes.start),
                format!("{:02x}", here[bytes.start]),
                format!("{:02x}", collector[bytes.start]),
            ),
        };
        let written = match written {
            Written::At(step, at) => format!("last written by step {step} at {at}"),
            Written::Never => "no step writes it, so it keeps its bytes".into(),
            Written::Unknown => format!("not written in the last {FAR} steps"),
        };
        format!("block {block}, {place}: here {here}, collector {collector}; {written}")
    }

    /// A difference as a JSON object.
    fn json(
        &self,
        block: u64,
        difference: &Difference,
        written: &Written,
        [here, collector]: [&[u8]; 2],
    ) -> String {
        let object = Object::new().with("block", block);
        let object = match difference.variable {
            Some(index) => {
                let variable = &self.routine.variables[index];
                let object = object
                    .with_text("name", &variable.name)
                    .with("lane", difference.lane);
                with_values(object, variable.kind, [here, collector])
            }
            None => object.with("here", here[0]).with("collector", collector[0]),
        };
        let object = object.with("address", difference.bytes.start);
        match written {
            Written::At(step, at) => object.with("step", step).with_text("at", at),
            Written::Never => object.with("step", 0),
            Written::Unknown => object,
        }
        .json()
    }

    /// Says how many blocks agree.
    fn summary(&self, to: &mut Streams) -> Result<(), Failure> {
        let Counts {
            blocks,
            differ,
            lanes,
            spent,
        } = self.counts;
        if self.asked.format == Format::Json {
            let object = Object::new()
                .with("blocks", blocks)
                .with("agree", blocks - differ)
                .with("differ", differ)
                .with("lanes", lanes)
                .with("spent", spent);
            return Ok(writeln!(to.out, "{}", object.json())?);
        }
        let shown = u64::from(self.asked.shown);
        if lanes > shown {
            writeln!(
                to.out,
                "{} more; --show N shows more",
                counted(lanes - shown, "lane")
            )?;
        }
        let agree = blocks - differ;
        let blocks = counted(blocks, "block");
        write!(to.out, "{blocks}: {agree} agree, {differ} differ")?;
        if differ > 0 {
            write!(to.out, " in {}", counted(lanes, "lane"))?;
        }
        if spent > 0 {
            write!(to.out, "; {spent} spent their budget here")?;
        }
        Ok(writeln!(to.out)?)
    }
}

/// Bytes that differ: a lane, or a byte that belongs to no variable.
struct Difference {
    variable: Option<usize>,
    lane: usize,
    bytes: std::ops::Range<usize>,
}

/// The lanes in which two memories differ, then the other bytes.
fn differences(routine: &Routine, here: &[u8], collector: &[u8]) -> Vec<Difference> {
    let mut found = Vec::new();
    let mut rest: Vec<bool> = vec![true; here.len()];
    for (index, variable) in routine.variables.iter().enumerate() {
        rest[variable.range()].fill(false);
        for lane in 0..variable.length {
            found.push(Difference {
                variable: Some(index),
                lane,
                bytes: variable.lane(lane),
            });
        }
    }
    let outside = (0..here.len()).filter(|byte| rest[*byte]);
    found.extend(outside.map(|byte| Difference {
        variable: None,
        lane: 0,
        bytes: byte..byte + 1,
    }));
    found
        .retain(|difference| here[difference.bytes.clone()] != collector[difference.bytes.clone()]);
    found
}

/// A lane's name.
fn lane_name(variable: &Variable, lane: usize) -> String {
    match variable.length {
        1 => format!("`{}`", variable.name),
        _ => format!("`{}` lane {lane}", variable.name),
    }
}

/// An object with both values, and their bytes where they read alike.
fn with_values(object: Object, kind: Kind, [here, collector]: [&[u8]; 2]) -> Object {
    let values = [here, collector].map(|bytes| values::json(kind, bytes));
    let object = object.with("here", &values[0]);
    let object = object.with("collector", &values[1]);
    if values[0] != values[1] {
        return object;
    }
    object
        .with_text("here_bytes", &listing::hex(here))
        .with_text("collector_bytes", &listing::hex(collector))
}

/// A value, with its bytes where both values read alike.
fn shown(kind: Kind, bytes: &[u8], other: &[u8]) -> String {
    let value = values::shown(kind, bytes);
    if value != values::shown(kind, other) {
        return value;
    }
    match bytes {
        [byte] => format!("{value} (byte {byte:02x})"),
        bytes => format!("{value} (bytes {})", listing::hex(bytes)),
    }
}

/// The step that wrote a lane last.
enum Written {
    At(u32, String),
    Never,
    Unknown,
}

/// Looks for the last step that wrote this lane, from the end backwards.
fn last_write(steps: &Steps, variable: usize, lane: usize, taken: u32) -> Result<Written, Failure> {
    let routine = steps.routine;
    for number in (taken.saturating_sub(FAR)..taken).rev() {
        let now = steps.after(number)?;
        if let Some((step, _)) = steps.step(&now)? {
            if step.writes(routine, variable, lane) {
                let at = routine.source.position(step.head.start).to_string();
                return Ok(Written::At(step.number, at));
            }
        }
    }
    Ok(match taken > FAR {
        true => Written::Unknown,
        false => Written::Never,
    })
}

/// A line on a terminal that says how far the comparison is.
struct Progress {
    expected: Option<u64>,
    terminal: bool,
    last: Instant,
    shown: bool,
}

impl Progress {
    /// Nothing is shown yet.
    fn new(expected: Option<u64>) -> Progress {
        Progress {
            expected,
            terminal: terminal::is_terminal(2),
            last: Instant::now(),
            shown: false,
        }
    }

    /// Writes the line anew, if it is time.
    fn show(&mut self, counts: &Counts, to: &mut Streams) -> Result<(), Failure> {
        if !self.terminal || self.last.elapsed() < OFTEN {
            return Ok(());
        }
        self.last = Instant::now();
        self.shown = true;
        let of = self
            .expected
            .map_or(String::new(), |all| format!(" of {all}"));
        let (blocks, differ) = (counts.blocks, counts.differ);
        write!(
            to.err,
            "\r\x1b[Klanes: {blocks}{of} blocks, {differ} differ"
        )?;
        Ok(to.err.flush()?)
    }

    /// Takes the line away.
    fn clear(&mut self, to: &mut Streams) -> Result<(), Failure> {
        if std::mem::take(&mut self.shown) {
            write!(to.err, "\r\x1b[K")?;
            to.err.flush()?;
        }
        Ok(())
    }
}

#[cfg(test)]
mod tests {
    use super::*;

    #[test]
    fn progress_is_one_line_that_goes_away() {
        let (mut out, mut err) = (Vec::new(), Vec::new());
        let mut to = Streams {
            out: &mut out,
            err: &mut err,
        };
        let mut progress = Progress {
            expected: Some(9),
            terminal: true,
            last: Instant::now() - OFTEN,
            shown: false,
        };
        let counts = Counts {
            blocks: 5,
            differ: 1,
            ..Counts::default()
        };
        progress.show(&counts, &mut to).unwrap();
        progress.show(&counts, &mut to).unwrap();
        progress.clear(&mut to).unwrap();
        progress.clear(&mut to).unwrap();
        let shown = String::from_utf8(err).unwrap();
        assert_eq!(shown, "\r\x1b[Klanes: 5 of 9 blocks, 1 differ\r\x1b[K");
        assert!(out.is_empty());
    }
}
