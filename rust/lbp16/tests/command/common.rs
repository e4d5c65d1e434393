//! Starts the card as a process of its own. Every wait has a limit.

use std::io::{BufRead, BufReader, Write};
use std::path::{Path, PathBuf};
use std::process::{Child, Command, Output, Stdio};
use std::sync::mpsc::{self, Receiver};
use std::thread;
use std::time::{Duration, Instant};

pub const LIMIT: Duration = Duration::from_secs(20);

/// A card that is running, and its log.
pub struct Card {
    child: Child,
    lines: Receiver<String>,
    /// Where it is reached.
    pub address: String,
}

impl Card {
    pub fn start(words: &[&str]) -> Card {
        let mut child = Command::new(env!("CARGO_BIN_EXE_lbp16"))
            .arg("serve")
            .args(words)
            .stdout(Stdio::piped())
            .spawn()
            .expect("the program");
        let stdout = child.stdout.take().expect("its output");
        let (sender, lines) = mpsc::channel();
        thread::spawn(move || {
            let mut lines = BufReader::new(stdout).lines().map_while(Result::ok);
            lines.try_for_each(|line| sender.send(line))
        });
        let mut card = Card {
            child,
            lines,
            address: String::new(),
        };
        let first = card.line();
        let address = first.strip_prefix("lbp16 serve: on ");
        card.address = address.expect("its address").to_string();
        card
    }

    /// The next line of the log.
    pub fn line(&self) -> String {
        self.lines.recv_timeout(LIMIT).expect("a line in time")
    }

    /// Whether it has not stopped by itself.
    pub fn runs(&mut self) -> bool {
        self.child.try_wait().expect("its state").is_none()
    }

    /// Stops it with a signal and answers what is left of its log.
    pub fn stop(mut self, signal: &str) -> Vec<String> {
        let id = self.child.id().to_string();
        let kill = ["-c", "kill -s $0 $1", signal, &id];
        let sent = Command::new("sh").args(kill).status();
        assert!(sent.expect("a shell").success());
        assert!(ended(&mut self.child), "it goes on after {signal}");
        assert!(self.child.wait().expect("its state").success());
        let mut lines = Vec::new();
        while let Ok(line) = self.lines.recv_timeout(LIMIT) {
            lines.push(line);
        }
        lines
    }
}

impl Drop for Card {
    fn drop(&mut self) {
        let _ = self.child.kill();
        let _ = self.child.wait();
    }
}

/// Waits until a process ends, for so long and no longer.
fn ended(child: &mut Child) -> bool {
    let start = Instant::now();
    while start.elapsed() < LIMIT {
        if child.try_wait().expect("its state").is_some() {
            return true;
        }
        thread::sleep(Duration::from_millis(10));
    }
    false
}

/// Runs a program to its end, unless that takes too long. It may write a pipe full, no more.
pub fn run(command: &mut Command) -> Output {
    let child = command.stdin(Stdio::null()).stdout(Stdio::piped());
    let mut child = child.stderr(Stdio::piped()).spawn().expect("the program");
    if !ended(&mut child) {
        let _ = child.kill();
        panic!("{command:?} goes on and on");
    }
    child.wait_with_output().expect("its output")
}

/// A file of this test alone, which is not there yet.
pub fn file(name: &str) -> PathBuf {
    let path = Path::new(env!("CARGO_TARGET_TMPDIR")).join(name);
    let _ = std::fs::remove_file(&path);
    path
}

/// How the command ended, and what it wrote.
pub struct Ended {
    pub exit: i32,
    pub out: Vec<u8>,
    pub err: String,
}

/// Calls the command with this standard input.
pub fn lbp16(words: &[&str], input: &[u8]) -> Ended {
    let mut command = Command::new(env!("CARGO_BIN_EXE_lbp16"));
    let command = command.args(words).stdin(Stdio::piped());
    let command = command.stdout(Stdio::piped()).stderr(Stdio::piped());
    let mut child = command.spawn().expect("the program");
    let mut stdin = child.stdin.take().expect("its input");
    let input = input.to_vec();
    // It may end before it has read all.
    let writer = thread::spawn(move || drop(stdin.write_all(&input)));
    let output = child.wait_with_output().expect("its output");
    writer.join().expect("the writer");
    Ended {
        exit: output.status.code().expect("an exit"),
        out: output.stdout,
        err: String::from_utf8(output.stderr).expect("text"),
    }
}

/// An answer: the exit, and all of standard output. Nothing is on standard error.
pub fn answers(words: &[&str], input: &[u8], exit: i32, out: &str) {
    let ended = lbp16(words, input);
    assert_eq!(ended.err, "", "{words:?}");
    assert_eq!(String::from_utf8_lossy(&ended.out), out, "{words:?}");
    assert_eq!(ended.exit, exit, "{words:?}");
}

/// A reason: the exit, and all of standard error. Nothing is on standard output.
pub fn says(words: &[&str], input: &[u8], exit: i32, err: &str) {
    let ended = lbp16(words, input);
    assert_eq!(ended.err, err, "{words:?}");
    assert_eq!(ended.out, b"", "{words:?}");
    assert_eq!(ended.exit, exit, "{words:?}");
}

/// A file of this test alone with these bytes, by its name.
pub fn filled(name: &str, bytes: &[u8]) -> String {
    let path = file(name);
    std::fs::write(&path, bytes).expect("a file");
    path.to_str().expect("a plain name").to_string()
}

/// A part behind its mark and length.
pub fn lb(part: &[u8]) -> Vec<u8> {
    [b"LB", &(part.len() as u16).to_le_bytes()[..], part].concat()
}
