//! What a part answers, and where it goes.

use crate::ending::{answer, say, Done, Stop};
use crate::input::name_of;
use crate::json::Object;
use crate::output;
use crate::words::Words;
use std::ffi::{OsStr, OsString};
use std::io::{self, IsTerminal};

/// The options that every part with an answer has.
#[derive(Default)]
pub struct Common {
    pub output: Option<OsString>,
    pub json: bool,
}

/// What a part comes to.
pub struct Answer {
    /// Whether the verdict is yes; of what is made, always.
    pub yes: bool,
    /// What is answered in words; lines for standard error where something is made.
    pub words: Vec<u8>,
    /// The same for scripts.
    pub object: Object,
    pub made: Option<Made>,
}

/// What was made of an input.
pub enum Made {
    Bytes(Vec<u8>),
    Text(Vec<u8>),
}

/// Runs a part that makes something of one file and has no other options.
pub fn of_one_file(mut words: Words, made: fn(&OsStr) -> Result<Answer, Stop>) -> Done {
    let mut common = Common::default();
    while let Some(option) = words.option()? {
        if !common.take(&option, &mut words)? {
            return words.unknown();
        }
    }
    let file = words.one_file()?;
    common.end(made(&file))
}

impl Common {
    /// Takes one of these options.
    pub fn take(&mut self, option: &str, words: &mut Words) -> Result<bool, Stop> {
        match option {
            "-o" | "--output" => self.output = Some(words.value("a file")?),
            _ => return self.take_json(option),
        }
        Ok(true)
    }

    /// The same where nothing is made.
    pub fn take_json(&mut self, option: &str) -> Result<bool, Stop> {
        if option == "--json" {
            self.json = true;
        }
        Ok(option == "--json")
    }

    /// Puts out what a part came to.
    pub fn end(&self, came_to: Result<Answer, Stop>) -> Done {
        match came_to {
            Ok(answered) => self.put(answered),
            Err(Stop::Refused(refused)) if self.json => {
                answer(refused.object.line().as_bytes())?;
                Err(Stop::No)
            }
            Err(stop) => Err(stop),
        }
    }

    fn put(&self, answered: Answer) -> Done {
        let Answer {
            yes,
            words,
            object,
            made,
        } = answered;
        match made {
            Some(made) => self.put_made(made, &words, object)?,
            None if self.json => answer(object.line().as_bytes())?,
            None => answer(&words)?,
        }
        match yes {
            true => Ok(()),
            false => Err(Stop::No),
        }
    }

    fn put_made(&self, made: Made, words: &[u8], object: Object) -> Done {
        let named = self.output.as_deref().filter(|file| *file != "-");
        if let Some(file) = named {
            output::write(file, made.bytes())?;
        }
        match (self.json, named) {
            (true, Some(file)) => {
                return answer(object.text("output", name_of(file)).line().as_bytes())
            }
            (true, None) => return answer(made.inside(object).line().as_bytes()),
            (false, Some(_)) => {}
            (false, None) => self.put_plainly(&made)?,
        }
        say(words);
        Ok(())
    }

    /// On standard output; bytes on a terminal only where `-o -` asks for them.
    fn put_plainly(&self, made: &Made) -> Done {
        if let (Made::Bytes(_), None, true) = (made, &self.output, io::stdout().is_terminal()) {
            return Err(Stop::Usage(
                "the output is bytes, not text: give -o FILE, or -o - for this terminal".into(),
            ));
        }
        answer(made.bytes())
    }
}

impl Made {
    fn bytes(&self) -> &[u8] {
        match self {
            Made::Bytes(bytes) | Made::Text(bytes) => bytes,
        }
    }

    /// Within the object, where no file is named for it.
    fn inside(&self, object: Object) -> Object {
        match self {
            Made::Bytes(bytes) => object.hex("hex", bytes),
            Made::Text(text) => object.text("text", text),
        }
    }
}

/// Calls a function of the library that says with refusal 26 how much room it needs.
pub fn with_room<T>(
    mut call: impl FnMut(&mut [u8]) -> Result<T, head::Refusal>,
) -> Result<(T, Vec<u8>), head::Refusal> {
    let needed = match call(&mut []) {
        Ok(answered) => return Ok((answered, Vec::new())),
        Err(refusal) if refusal.number == 26 => refusal.place as usize,
        Err(refusal) => return Err(refusal),
    };
    let mut room = vec![0; needed];
    call(&mut room).map(|answered| (answered, room))
}
