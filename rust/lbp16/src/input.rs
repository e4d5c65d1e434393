//! Files that are read, or standard input.

use crate::ending::{unread, Stop};
use std::ffi::OsStr;
use std::fs::File;
use std::io::{self, Read};

/// What was read, and what to call it in messages.
pub struct Input {
    pub name: String,
    pub bytes: Vec<u8>,
}

/// A file's bytes, or those of standard input for `-`.
pub fn read(file: &OsStr) -> Result<Input, Stop> {
    read_most(file, u64::MAX)
}

/// The same, up to a number of bytes.
pub fn read_most(file: &OsStr, most: u64) -> Result<Input, Stop> {
    let name = name_of(file);
    let mut bytes = Vec::new();
    let read = match file == "-" {
        true => io::stdin().lock().take(most).read_to_end(&mut bytes),
        false => File::open(file).and_then(|open| open.take(most).read_to_end(&mut bytes)),
    };
    match read {
        Ok(_) => Ok(Input { name, bytes }),
        Err(error) => Err(unread(&name, &error)),
    }
}

pub fn name_of(file: &OsStr) -> String {
    match file == "-" {
        true => "(standard input)".to_string(),
        false => file.display().to_string(),
    }
}

/// A file that must have a number of bytes; `what` has them.
pub fn read_exactly(file: &OsStr, bytes: usize, what: &str) -> Result<Vec<u8>, Stop> {
    let input = read_most(file, bytes as u64 + 1)?;
    match input.bytes.len() {
        length if length == bytes => Ok(input.bytes),
        length if length > bytes => Err(Stop::Failed(format!(
            "{}: more than the {bytes} bytes of {what}",
            input.name
        ))),
        length => Err(Stop::Failed(format!(
            "{}: {length} bytes where {what} has {bytes}",
            input.name
        ))),
    }
}
