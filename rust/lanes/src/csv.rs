//! Files of comma separated values: a line a row, cells perhaps in quotes.

use crate::escape;
use crate::files;
use crate::routine::{Routine, Variable};
use crate::status::Failure;
use crate::values;
use std::io::{BufRead, Read};
use std::path::{Path, PathBuf};

/// The most bytes of a line; a longer one is no line of a table.
const LONGEST_LINE: u64 = 1 << 20;

/// A file that is read row by row.
pub struct Reader {
    path: PathBuf,
    file: Box<dyn BufRead>,
    line: usize,
}

impl Reader {
    /// Opens a file.
    pub fn open(path: &Path) -> Result<Reader, Failure> {
        Ok(Reader {
            path: path.into(),
            file: files::open(path)?,
            line: 0,
        })
    }

    /// The cells of the next line that is not empty.
    pub fn row(&mut self) -> Result<Option<Vec<String>>, Failure> {
        loop {
            let mut bytes = Vec::new();
            let mut part = (&mut self.file).take(LONGEST_LINE);
            let read = part.read_until(b'\n', &mut bytes);
            if read.map_err(Failure::reading(&self.path))? == 0 {
                return Ok(None);
            }
            self.line += 1;
            let text = match std::str::from_utf8(&bytes) {
                Ok(text) => text.trim_start_matches('\u{feff}').trim(),
                Err(_) => return self.wrong("the line is no UTF-8"),
            };
            if bytes.len() as u64 == LONGEST_LINE {
                return self.wrong("the line is longer than any line of samples");
            }
            if !text.is_empty() {
                return match cells(text) {
                    Some(cells) => Ok(Some(cells)),
                    None => self.wrong("a quoted cell does not end on its line"),
                };
            }
        }
    }

    /// The line that was read last is not as it should be.
    pub fn wrong<T>(&self, why: &str) -> Result<T, Failure> {
        let (path, line) = (escape::path(&self.path), self.line.max(1));
        let why = escape::text(why.as_bytes());
        Err(Failure::Samples(format!("{path}, line {line}: {why}")))
    }
}

/// The cells of a line; none where a quote is not closed.
fn cells(line: &str) -> Option<Vec<String>> {
    let mut cells = Vec::new();
    let mut cell = String::new();
    let mut quoted = false;
    let mut characters = line.chars().peekable();
    while let Some(character) = characters.next() {
        match character {
            '"' if quoted && characters.peek() == Some(&'"') => {
                characters.next();
                cell.push('"');
            }
            '"' => quoted = !quoted,
            ',' if !quoted => cells.push(std::mem::take(&mut cell).trim().to_string()),
            other => cell.push(other),
        }
    }
    cells.push(cell.trim().to_string());
    (!quoted).then_some(cells)
}

/// The columns of a variable, a column a lane.
fn columns(variable: &Variable) -> Vec<String> {
    let name = &variable.name;
    match variable.length {
        1 => vec![name.clone()],
        length => (0..length).map(|lane| format!("{name}[{lane}]")).collect(),
    }
}

/// A line that names every lane of these variables.
pub fn head(variables: &[Variable]) -> String {
    let columns: Vec<String> = variables.iter().flat_map(columns).collect();
    columns.join(",")
}

/// A line with every lane's value in this memory.
pub fn row(variables: &[Variable], memory: &[u8]) -> String {
    let values = variables
        .iter()
        .map(|variable| values::joined(variable, memory, ","));
    values.collect::<Vec<String>>().join(",")
}

/// The head of the results of many blocks; columns with `#` are not read as samples.
pub fn results_head(routine: &Routine) -> String {
    joined(&["#block", "#code", "#steps"], &head(&routine.variables))
}

/// One block's results.
pub fn results_row(routine: &Routine, block: u64, code: u32, steps: u32, memory: &[u8]) -> String {
    let first = [block.to_string(), code.to_string(), steps.to_string()];
    let first: Vec<&str> = first.iter().map(String::as_str).collect();
    joined(&first, &row(&routine.variables, memory))
}

/// Cells before a line, which may be empty.
fn joined(first: &[&str], rest: &str) -> String {
    let rest = Some(rest).filter(|rest| !rest.is_empty());
    let cells: Vec<&str> = first.iter().copied().chain(rest).collect();
    cells.join(",")
}

#[cfg(test)]
mod tests {
    use super::*;

    #[test]
    fn cells_are_cut_at_commas() {
        let found = cells("a, \"b,\"\"c\" ,,d").unwrap();
        assert_eq!(found, ["a", "b,\"c", "", "d"]);
        assert_eq!(cells("a,\"b"), None);
    }
}
