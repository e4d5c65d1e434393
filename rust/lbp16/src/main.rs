//! One command for people, over the proved library: cue lists, packets, recordings, and a card on the wire.

mod again;
mod answer;
mod card;
mod ending;
mod frames;
mod hostmot2;
mod input;
mod json;
mod line;
mod list;
mod output;
mod part;
mod player;
mod probes;
mod protect;
mod reason;
mod record;
mod shown;
mod signals;
mod state;
mod table;
mod verdict;
mod wire;
mod words;

use ending::{answer, exit, Done, Stop};
use part::Part;
use std::env;
use std::ffi::OsString;
use std::process::ExitCode;
use words::Words;

const VERSION: &str = concat!(
    "lbp16 ",
    env!("LBP16_VERSION"),
    "\nlibrary proved with ",
    env!("LBP16_KIT"),
    "\n"
);

fn main() -> ExitCode {
    let mut words: Vec<OsString> = env::args_os().skip(1).collect();
    if words.is_empty() {
        return exit("lbp16", Err(Stop::Usage("say which part".into())));
    }
    let first = words.remove(0);
    match first.to_str() {
        Some("--help" | "-h") => exit("lbp16", answer(help().as_bytes())),
        Some("--version" | "-V") => exit("lbp16", answer(VERSION.as_bytes())),
        name => match name.and_then(part::named) {
            Some(part) => exit(&format!("lbp16 {}", part.name), called(part, words)),
            None => {
                let problem = format!("there is no part '{}'", first.display());
                exit("lbp16", Err(Stop::Usage(problem)))
            }
        },
    }
}

fn called(part: &Part, words: Vec<OsString>) -> Done {
    let files = words.iter().position(|word| word == "--");
    let options = &words[..files.unwrap_or(words.len())];
    match options.iter().any(|word| word == "--help" || word == "-h") {
        true => answer(part.help.as_bytes()),
        false => (part.run)(Words::new(words)),
    }
}

fn help() -> String {
    let mut help = String::from("usage: lbp16 PART [OPTION].. [FILE]..\n\n");
    for part in part::PARTS {
        help.push_str(&format!("  {:9}{}\n", part.name, part.does));
    }
    help + "\nlbp16 PART --help says how a part is used, lbp16 --version which library this is.
A file may be - for standard input. -o FILE writes an output to a file, which is replaced only by a whole one.
Exit status: 0 done; 1 refused, or the verdict is no; 2 called wrongly, or a file or the card can't be reached.
"
}
