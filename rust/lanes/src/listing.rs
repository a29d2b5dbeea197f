//! Variables and memory for readers.

use crate::routine::{Routine, Variable};
use crate::values;
use std::io::{self, Write};

/// Writes a table of variables, with their values where there is a memory; more lanes than a
/// reader counts stand on lines within this width.
pub fn write_variables(
    routine: &Routine,
    memory: Option<&[u8]>,
    width: usize,
    out: &mut impl Write,
) -> io::Result<()> {
    let mut rows = vec![["name", "kind", "lanes", "address", "declared"].map(String::from)];
    rows.extend(routine.variables.iter().map(|variable| {
        [
            variable.name.clone(),
            variable.kind.to_string(),
            variable.length.to_string(),
            variable.address.to_string(),
            routine.source.position(variable.place).to_string(),
        ]
    }));
    let before = columns(&mut rows);
    let room = width.saturating_sub(before);
    for (number, row) in rows.iter().enumerate() {
        let values = match (number.checked_sub(1), memory) {
            (Some(number), Some(memory)) => lines(&routine.variables[number], memory, room),
            (None, Some(_)) => vec!["values".into()],
            (_, None) => vec![String::new()],
        };
        let mut start = row.concat();
        for line in values {
            writeln!(out, "{}", format!("{start}  {line}").trim_end())?;
            start = " ".repeat(before - 2);
        }
    }
    Ok(())
}

/// Makes the cells of each column as wide as its widest, with two spaces before; gives where a
/// column behind them all begins.
fn columns<const COLUMNS: usize>(rows: &mut [[String; COLUMNS]]) -> usize {
    let mut behind = 2;
    for column in 0..COLUMNS {
        let width = rows.iter().map(|row| row[column].len()).max().unwrap_or(0);
        for row in rows.iter_mut() {
            row[column] = format!("  {:width$}", row[column]);
        }
        behind += width + 2;
    }
    behind
}

/// The values of all lanes of a variable: on one line, or, of more lanes than a reader counts, under
/// one another on lines that have room, each behind the number of its first lane.
fn lines(variable: &Variable, memory: &[u8], room: usize) -> Vec<String> {
    if variable.length <= values::COUNTED {
        return vec![values::joined(variable, memory, " ")];
    }
    let values = values::shown_lanes(variable, memory);
    let width = values.iter().map(String::len).max().unwrap_or(0);
    let mut lanes = values::COUNTED;
    while lanes > 1 && NUMBER + lanes * (width + 1) > room {
        lanes /= 2;
    }
    let lines = values.chunks(lanes).enumerate().map(|(line, values)| {
        let number = format!("[{}]", line * lanes);
        let values = values.iter().map(|value| format!(" {value:>width$}"));
        format!("{number:NUMBER$}{}", values.collect::<String>())
    });
    lines.collect()
}

/// How wide the number of a line's first lane is.
const NUMBER: usize = 4;

/// Writes the memory in rows of 16 bytes as lower-case hex, each behind its address.
pub fn write_memory(memory: &[u8], out: &mut impl Write) -> io::Result<()> {
    let width = memory.len().to_string().len().max(4);
    for (row, bytes) in memory.chunks(16).enumerate() {
        writeln!(out, "  {:>width$}  {}", row * 16, hex(bytes))?;
    }
    Ok(())
}

/// Bytes as lower-case hex.
pub fn hex(bytes: &[u8]) -> String {
    bytes.iter().map(|byte| format!("{byte:02x}")).collect()
}
