//! Memories to run over: one, or many from a file of recorded blocks.

use crate::arguments::Start;
use crate::escape;
use crate::files;
use crate::routine::Routine;
use crate::samples::{self, Table};
use crate::status::Failure;
use std::io::{BufRead, Read};
use std::path::{Path, PathBuf};

/// A file of blocks, one memory after the other.
pub struct Recorded {
    path: PathBuf,
    file: Box<dyn BufRead>,
    need: usize,
    stride: usize,
    /// How many blocks were read.
    pub read: u64,
}

impl Recorded {
    /// Opens a file of blocks for this routine.
    pub fn open(routine: &Routine, path: &Path, stride: Option<u32>) -> Result<Self, Failure> {
        let need = routine.need();
        let stride = stride.map_or(need, |stride| stride as usize);
        if need == 0 {
            let why = "the routine needs no memory, so a file of blocks says nothing";
            return Err(Failure::Samples(why.into()));
        }
        if stride < need {
            let why = format!("--stride {stride} is less than the {need} bytes that a block has");
            return Err(Failure::Samples(why));
        }
        Ok(Recorded {
            path: path.into(),
            file: files::open(path)?,
            need,
            stride,
            read: 0,
        })
    }

    /// How many blocks the file holds, as far as its size is known.
    pub fn expected(&self) -> Option<u64> {
        let file = std::fs::metadata(&self.path).ok()?;
        let rest = (self.stride - self.need) as u64;
        let whole = file.is_file().then(|| file.len() + rest)?;
        Some(whole / self.stride as u64)
    }

    /// The next block; none at the end. A part of a block is an error.
    pub fn next(&mut self) -> Result<Option<Vec<u8>>, Failure> {
        let mut block = Vec::with_capacity(self.need);
        let failure = Failure::reading(&self.path);
        let mut part = (&mut self.file).take(self.need as u64);
        if let Err(error) = part.read_to_end(&mut block) {
            return Err(failure(error));
        }
        if block.is_empty() {
            return Ok(None);
        }
        if block.len() < self.need {
            let (path, number) = (escape::path(&self.path), self.read);
            let (read, need) = (block.len(), self.need);
            let why = format!("{path} ends inside block {number}: {read} of {need} bytes");
            return Err(Failure::Samples(why));
        }
        let rest = (self.stride - self.need) as u64;
        let mut rest = (&mut self.file).take(rest);
        std::io::copy(&mut rest, &mut std::io::sink()).map_err(Failure::reading(&self.path))?;
        self.read += 1;
        Ok(Some(block))
    }
}

/// Many blocks.
enum Many<'r> {
    /// Recorded as bytes.
    Recorded(Recorded),
    /// A row of samples each.
    Table(Table<'r>),
}

/// The memories of a run over many blocks.
pub struct Blocks<'r> {
    routine: &'r Routine,
    sets: &'r [String],
    many: Many<'r>,
}

impl<'r> Blocks<'r> {
    /// Opens the file of blocks; one whose name ends in `.csv` has a row a block.
    pub fn open(routine: &'r Routine, path: &Path, start: &'r Start) -> Result<Self, Failure> {
        let csv = path.extension().map(|end| end.to_ascii_lowercase());
        let many = match csv.filter(|end| end == "csv") {
            Some(_) => Many::Table(Table::open(routine, path)?),
            None => Many::Recorded(Recorded::open(routine, path, start.stride)?),
        };
        Ok(Blocks {
            routine,
            sets: &start.sets,
            many,
        })
    }

    /// The next memory; none at the end.
    pub fn next(&mut self) -> Result<Option<Vec<u8>>, Failure> {
        let mut memory = match &mut self.many {
            Many::Recorded(recorded) => match recorded.next()? {
                Some(memory) => memory,
                None => return Ok(None),
            },
            Many::Table(table) => {
                let mut memory = vec![0; self.routine.need()];
                if !table.put_block(&mut memory)? {
                    return Ok(None);
                }
                memory
            }
        };
        for set in self.sets {
            samples::set(self.routine, set, &mut memory)?;
        }
        Ok(Some(memory))
    }
}

/// The one memory that is asked for: a file or zeros, then the samples by name.
pub fn one(routine: &Routine, start: &Start) -> Result<Vec<u8>, Failure> {
    if let Some(path) = &start.blocks {
        return chosen(routine, path, start);
    }
    let need = routine.need();
    let mut memory = match &start.memory {
        Some(path) => files::read(path, need)?,
        None => vec![0; need],
    };
    if memory.len() < need {
        return Ok(memory);
    }
    if let Some(path) = &start.csv {
        Table::open(routine, path)?.put_all(&mut memory)?;
    }
    for set in &start.sets {
        samples::set(routine, set, &mut memory)?;
    }
    Ok(memory)
}

/// The block of this number.
fn chosen(routine: &Routine, path: &Path, start: &Start) -> Result<Vec<u8>, Failure> {
    let mut blocks = Blocks::open(routine, path, start)?;
    let number = start.block.unwrap_or(0);
    for read in 0.. {
        match blocks.next()? {
            Some(memory) if read == number => return Ok(memory),
            Some(_) => {}
            None => {
                let path = escape::path(path);
                let read = crate::values::counted(u64::from(read), "block");
                let why = format!("{path} has {read}, so there is no block {number}");
                return Err(Failure::Samples(why));
            }
        }
    }
    Ok(Vec::new())
}
