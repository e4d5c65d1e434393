//! How the command ends: its exit status, and what it says first.

use crate::json::Object;
use std::io::{self, ErrorKind, Write};
use std::process::ExitCode;

/// Refused, or the verdict is no.
const REFUSED: u8 = 1;
/// Called wrongly, or something could not be read or written.
const FAILED: u8 = 2;

/// Why a part did not come to a good end.
pub enum Stop {
    /// The library's refusal of an input.
    Refused(Refused),
    /// The verdict is no, and was said.
    No,
    /// It was called wrongly.
    Usage(String),
    /// Something could not be read or written.
    Failed(String),
    /// Nobody reads the answer any more.
    Gone,
}

/// An input that is refused.
pub struct Refused {
    /// What is said on standard error.
    pub message: String,
    /// The same for scripts.
    pub object: Object,
}

pub type Done = Result<(), Stop>;

/// The exit status; what was not said yet is said. `name` is what was called.
pub fn exit(name: &str, done: Done) -> ExitCode {
    match done {
        Ok(()) => ExitCode::SUCCESS,
        Err(Stop::No) => REFUSED.into(),
        Err(Stop::Refused(refused)) => {
            say(refused.message.as_bytes());
            REFUSED.into()
        }
        Err(Stop::Usage(problem)) => {
            say(format!("{name}: {problem}; see {name} --help\n").as_bytes());
            FAILED.into()
        }
        Err(Stop::Failed(problem)) => {
            say(format!("{name}: {problem}\n").as_bytes());
            FAILED.into()
        }
        Err(Stop::Gone) => FAILED.into(),
    }
}

/// Writes to standard error. Where nobody hears it the exit status is left.
pub fn say(lines: &[u8]) {
    let _ = io::stderr().lock().write_all(lines);
}

/// Writes to standard output.
pub fn answer(bytes: &[u8]) -> Done {
    let mut out = io::stdout().lock();
    let written = out.write_all(bytes).and_then(|()| out.flush());
    written.map_err(|error| lost("standard output", &error))
}

/// What could not be written.
pub fn lost(name: &str, error: &io::Error) -> Stop {
    match error.kind() {
        ErrorKind::BrokenPipe => Stop::Gone,
        _ => Stop::Failed(format!("cannot write {name}: {}", plain(error))),
    }
}

/// What could not be read.
pub fn unread(name: &str, error: &io::Error) -> Stop {
    Stop::Failed(format!("cannot read {name}: {}", plain(error)))
}

/// An error in the system's words, without its number.
pub fn plain(error: &io::Error) -> String {
    let text = error.to_string();
    match text.split_once(" (os error ") {
        Some((words, _)) => words.to_string(),
        None => text,
    }
}
