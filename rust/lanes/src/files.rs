//! Files in and out; `-` is standard input or output.

use crate::status::Failure;
use std::fs::File;
use std::io::{BufRead, BufReader, Read, Write};
use std::path::Path;

/// Whether standard input or output is meant.
pub fn is_standard(path: &Path) -> bool {
    path.as_os_str() == "-"
}

/// A file that is open for reading.
pub fn open(path: &Path) -> Result<Box<dyn BufRead>, Failure> {
    if is_standard(path) {
        return Ok(Box::new(BufReader::new(std::io::stdin())));
    }
    let file = File::open(path).map_err(Failure::reading(path))?;
    Ok(Box::new(BufReader::new(file)))
}

/// The first bytes of a file, at most so many.
pub fn read(path: &Path, most: usize) -> Result<Vec<u8>, Failure> {
    let mut bytes = Vec::new();
    let mut part = open(path)?.take(most as u64);
    part.read_to_end(&mut bytes)
        .map_err(Failure::reading(path))?;
    Ok(bytes)
}

/// A file that is open for writing, anew.
pub fn create(path: &Path) -> Result<Box<dyn Write>, Failure> {
    if is_standard(path) {
        return Ok(Box::new(std::io::stdout()));
    }
    let file = File::create(path).map_err(Failure::writing(path))?;
    Ok(Box::new(std::io::BufWriter::new(file)))
}

/// Writes a file anew.
pub fn write(path: &Path, bytes: &[u8]) -> Result<(), Failure> {
    let mut file = create(path)?;
    let written = file.write_all(bytes).and_then(|()| file.flush());
    written.map_err(Failure::writing(path))
}
