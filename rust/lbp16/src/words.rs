//! The words that a part is called with.

use crate::ending::Stop;
use std::ffi::{OsStr, OsString};
use std::io::{self, IsTerminal};
use std::vec::IntoIter;

/// Options and files, in whatever order. Behind `--` every word is a file.
pub struct Words {
    words: IntoIter<OsString>,
    files: Vec<OsString>,
    /// The option taken last, and what stood behind its `=`.
    option: String,
    value: Option<String>,
}

impl Words {
    pub fn new(words: Vec<OsString>) -> Words {
        Words {
            words: words.into_iter(),
            files: Vec::new(),
            option: String::new(),
            value: None,
        }
    }

    /// The next option. Files before it are put aside.
    pub fn option(&mut self) -> Result<Option<String>, Stop> {
        self.no_value()?;
        while let Some(word) = self.words.next() {
            if word == "--" {
                self.files.extend(self.words.by_ref());
            } else if word.as_encoded_bytes().starts_with(b"-") && word != "-" {
                return self.split(&word).map(Some);
            } else {
                self.files.push(word);
            }
        }
        Ok(None)
    }

    /// An option's name; `--name=value` and `-oVALUE` have their value with them.
    fn split(&mut self, word: &OsStr) -> Result<String, Stop> {
        let Some(word) = word.to_str() else {
            return Err(Stop::Usage(format!("no option {word:?} here")));
        };
        let (name, value) = match word.split_once('=') {
            Some((name, value)) if word.starts_with("--") => (name, Some(value)),
            _ => match word.strip_prefix("-o") {
                Some(value) if !value.is_empty() => ("-o", Some(value)),
                _ => (word, None),
            },
        };
        self.option = name.to_string();
        self.value = value.map(str::to_string);
        Ok(self.option.clone())
    }

    /// The value of the option taken last has been asked for.
    fn no_value(&mut self) -> Result<(), Stop> {
        match self.value.take() {
            Some(_) => Err(Stop::Usage(format!("{} takes no value", self.option))),
            None => Ok(()),
        }
    }

    /// The value of the option taken last.
    pub fn value(&mut self, what: &str) -> Result<OsString, Stop> {
        let value = self.value.take().map(OsString::from);
        let value = value.or_else(|| self.words.next());
        value.ok_or(Stop::Usage(format!("{} needs {what}", self.option)))
    }

    /// The same where it must be text.
    pub fn text(&mut self, what: &str) -> Result<String, Stop> {
        let value = self.value(what)?;
        let text = value.into_string();
        text.map_err(|value| Stop::Usage(format!("{} needs {what}, not {value:?}", self.option)))
    }

    /// The same where it must be a number from 1 on.
    pub fn number(&mut self, what: &str) -> Result<u64, Stop> {
        let text = self.text(what)?;
        match text.parse() {
            Ok(number) if number > 0 => Ok(number),
            _ => Err(Stop::Usage(format!(
                "{} needs {what}, not '{text}'",
                self.option
            ))),
        }
    }

    pub fn unknown<T>(&self) -> Result<T, Stop> {
        Err(Stop::Usage(format!("no option '{}' here", self.option)))
    }

    /// The one file; standard input where none is named, unless that is a terminal.
    pub fn one_file(self) -> Result<OsString, Stop> {
        match <[OsString; 1]>::try_from(self.files) {
            Ok([file]) => Ok(file),
            Err(files) if files.is_empty() && !io::stdin().is_terminal() => Ok("-".into()),
            Err(files) if files.is_empty() => {
                Err(Stop::Usage("give a file, or - for standard input".into()))
            }
            Err(files) => Err(too_many(&files[1])),
        }
    }

    pub fn two_files(self) -> Result<[OsString; 2], Stop> {
        match <[OsString; 2]>::try_from(self.files) {
            Ok([first, second]) if first == "-" && second == "-" => Err(Stop::Usage(
                "standard input can be only one of the two".into(),
            )),
            Ok(files) => Ok(files),
            Err(files) if files.len() < 2 => Err(Stop::Usage("give two files".into())),
            Err(files) => Err(too_many(&files[2])),
        }
    }

    pub fn no_files(self) -> Result<(), Stop> {
        match self.files.first() {
            Some(file) => Err(too_many(file)),
            None => Ok(()),
        }
    }
}

fn too_many(file: &OsStr) -> Stop {
    Stop::Usage(format!("'{}' is a file too many", file.display()))
}
