//! Samples by name: `NAME=V,V` and files of comma separated values.

use crate::csv::Reader;
use crate::routine::{Routine, Variable};
use crate::status::Failure;
use crate::values;
use std::path::Path;

/// Puts samples given as `NAME=V,V` into the memory; a single value fills all lanes.
pub fn set(routine: &Routine, set: &str, memory: &mut [u8]) -> Result<(), Failure> {
    put_set(routine, set, memory).map_err(|why| Failure::Samples(format!("--set {set}: {why}")))
}

/// As [`set`], or why it cannot be done.
fn put_set(routine: &Routine, set: &str, memory: &mut [u8]) -> Result<(), String> {
    let (name, given) = match set.split_once('=') {
        Some((name, given)) => (name.trim(), given),
        None => return Err("it has the form NAME=VALUE,VALUE".into()),
    };
    let variable = routine.find(name)?;
    let words: Vec<&str> = given.split(',').map(str::trim).collect();
    let length = variable.length;
    if words.len() != length && words.len() != 1 {
        let what = variable.described();
        let given = words.len();
        return Err(format!("`{name}` is {what}, and {given} values are given"));
    }
    for lane in 0..length {
        let word = words[lane.min(words.len() - 1)];
        values::put(word, variable, lane, memory)?;
    }
    Ok(())
}

/// What a column of a file holds.
#[derive(Clone, Copy, Debug, PartialEq, Eq)]
enum Column {
    /// Nothing for the routine.
    Other,
    /// A variable: all lanes, or one lane after the other.
    Whole(usize),
    /// One lane of a variable.
    Lane(usize, usize),
}

/// A file of samples: its columns, and the rows that follow.
pub struct Table<'r> {
    routine: &'r Routine,
    columns: Vec<Column>,
    reader: Reader,
}

impl<'r> Table<'r> {
    /// Opens a file and reads its head.
    pub fn open(routine: &'r Routine, path: &Path) -> Result<Self, Failure> {
        let mut reader = Reader::open(path)?;
        let head = match reader.row()? {
            Some(head) => head,
            None => return reader.wrong("there is no head with the names of variables"),
        };
        let mut columns: Vec<Column> = Vec::new();
        for name in &head {
            match column(routine, name) {
                Ok(column) if column != Column::Other && columns.contains(&column) => {
                    return reader.wrong(&format!("the column `{name}` is there twice"));
                }
                Ok(column) => columns.push(column),
                Err(why) => return reader.wrong(&why),
            }
        }
        Ok(Table {
            routine,
            columns,
            reader,
        })
    }

    /// The next row's cells, one for each column.
    fn row(&mut self) -> Result<Option<Vec<String>>, Failure> {
        let row = self.reader.row()?;
        let expected = self.columns.len();
        match row {
            Some(row) if row.len() != expected => {
                let cells = row.len();
                self.reader
                    .wrong(&format!("{cells} cells stand under {expected} columns"))
            }
            row => Ok(row),
        }
    }

    /// Puts the samples of the next row, which is a block, into the memory; gives whether there
    /// was a row.
    pub fn put_block(&mut self, memory: &mut [u8]) -> Result<bool, Failure> {
        let row = match self.row()? {
            Some(row) => row,
            None => return Ok(false),
        };
        for (column, cell) in self.columns.iter().zip(&row) {
            let (variable, lanes) = match *column {
                Column::Whole(variable) => {
                    let variable = &self.routine.variables[variable];
                    (variable, 0..variable.length)
                }
                Column::Lane(variable, lane) => (&self.routine.variables[variable], lane..lane + 1),
                Column::Other => continue,
            };
            for lane in lanes.filter(|_| !cell.is_empty()) {
                if let Err(why) = values::put(cell, variable, lane, memory) {
                    return self.reader.wrong(&why);
                }
            }
        }
        Ok(true)
    }

    /// Puts the samples of the next row, which is this lane of each variable, into the memory;
    /// gives whether there was a row.
    fn put_lane(&mut self, lane: usize, memory: &mut [u8]) -> Result<bool, Failure> {
        let row = match self.row()? {
            Some(row) => row,
            None => return Ok(false),
        };
        for (column, cell) in self.columns.iter().zip(&row) {
            let variable: &Variable = match *column {
                Column::Whole(variable) if !cell.is_empty() => &self.routine.variables[variable],
                _ => continue,
            };
            let put = match lane < variable.length {
                true => values::put(cell, variable, lane, memory),
                false => Err(format!(
                    "`{}` is {}, and this is row {lane}, counted from 0",
                    variable.name,
                    variable.described()
                )),
            };
            if let Err(why) = put {
                return self.reader.wrong(&why);
            }
        }
        Ok(true)
    }

    /// Puts one block into the memory: from one row where a column names a lane, otherwise from
    /// a row a lane.
    pub fn put_all(mut self, memory: &mut [u8]) -> Result<(), Failure> {
        let by_lane = |column: &Column| matches!(column, Column::Lane(..));
        if self.columns.iter().any(by_lane) {
            self.put_block(memory)?;
            return match self.reader.row()? {
                Some(_) => self
                    .reader
                    .wrong("a second row is a second block: give the file with --blocks"),
                None => Ok(()),
            };
        }
        let mut lane = 0;
        while self.put_lane(lane, memory)? {
            lane += 1;
        }
        Ok(())
    }
}

/// The column of this name: `s`, `s[0]`, or `#` and anything for what is not for the routine.
fn column(routine: &Routine, name: &str) -> Result<Column, String> {
    if name.starts_with('#') {
        return Ok(Column::Other);
    }
    let (name, lane) = match name.split_once('[') {
        Some((name, rest)) => (name, Some(rest.strip_suffix(']').unwrap_or(""))),
        None => (name, None),
    };
    let variable = routine.find(name)?;
    let found = routine.variables.iter().position(|other| other == variable);
    let index = found.unwrap_or(0);
    let lane = match lane {
        Some(lane) => lane,
        None => return Ok(Column::Whole(index)),
    };
    match lane.parse() {
        Ok(lane) if lane < variable.length => Ok(Column::Lane(index, lane)),
        _ => Err(format!(
            "`{name}` is {}, and has no lane `{lane}`",
            variable.described()
        )),
    }
}
