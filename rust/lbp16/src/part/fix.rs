//! A damaged list to a playable one, with an account of what was skipped.

use crate::answer::{Answer, Common, Made};
use crate::ending::{Done, Stop};
use crate::input;
use crate::json::Object;
use crate::output;
use crate::record::bytes_of;
use crate::shown::Hex;
use crate::words::Words;
use std::ffi::OsStr;
use std::fmt::Write;
use std::ops::Range;

pub const HELP: &str = "usage: lbp16 fix [-o LIST] [--strict] [--log FILE] [--json] [DAMAGED]

Keeps the records of a damaged list that can be played, and says on standard error what was skipped.

  --strict     also leaves out the record before each gap: it may have lost a byte, and taken another for its own
  --log FILE   writes the account to this file instead of standard error
";

pub fn run(mut words: Words) -> Done {
    let (mut common, mut strict, mut log) = (Common::default(), false, None);
    while let Some(option) = words.option()? {
        match option.as_str() {
            "--strict" => strict = true,
            "--log" => log = Some(words.value("a file")?),
            _ if common.take(&option, &mut words)? => {}
            _ => return words.unknown(),
        }
    }
    let file = words.one_file()?;
    let mut fixed = fixed(&file, strict)?;
    if let Some(log) = log {
        output::write(&log, &fixed.words)?;
        fixed.words.clear();
    }
    common.end(Ok(fixed))
}

fn fixed(file: &OsStr, strict: bool) -> Result<Answer, Stop> {
    let input = input::read(file)?;
    let gaps = gaps(&input.bytes);
    let mut account = Account::new(&input.bytes, strict);
    let mut at = 0;
    for gap in &gaps {
        account.keep(at..gap.start, true);
        account.skip(gap);
        at = gap.end;
    }
    account.keep(at..input.bytes.len(), false);
    let _ = writeln!(
        account.lines,
        "kept records {}, bytes {}",
        account.records,
        account.kept.len()
    );
    let object = Object::new()
        .flag("accepted", true)
        .text("file", &input.name);
    Ok(Answer {
        yes: true,
        words: account.lines.into_bytes(),
        object: object
            .number("records", account.records)
            .count("bytes", account.kept.len())
            .array("skipped", &account.skipped)
            .array(if strict { "left_out" } else { "look_at" }, &account.before),
        made: Some(Made::Bytes(account.kept)),
    })
}

/// The stretches that the library skips.
fn gaps(list: &[u8]) -> Vec<Range<usize>> {
    let mut room = vec![0; list.len()];
    let mut log = Vec::new();
    if let Err(refusal) = head::salvage(list, &mut room, &mut log) {
        log = vec![0; 2 * refusal.place as usize];
    }
    let entries = head::salvage(list, &mut room, &mut log).map_or(0, |salvaged| salvaged.entries);
    let gap = |pair: &[u64]| pair[0] as usize..(pair[0] + pair[1]) as usize;
    log.chunks(2).take(entries).map(gap).collect()
}

/// What is kept, and what is said of it.
struct Account<'a> {
    list: &'a [u8],
    strict: bool,
    kept: Vec<u8>,
    records: u64,
    lines: String,
    skipped: Vec<Object>,
    /// The records before gaps.
    before: Vec<Object>,
}

impl Account<'_> {
    fn new(list: &[u8], strict: bool) -> Account<'_> {
        Account {
            list,
            strict,
            kept: Vec::new(),
            records: 0,
            lines: String::new(),
            skipped: Vec::new(),
            before: Vec::new(),
        }
    }

    /// Good records, before a gap or before the end.
    fn keep(&mut self, good: Range<usize>, gap: bool) {
        let mut at = good.start;
        while let Some(bytes) = bytes_of(&self.list[at..good.end]) {
            let record = &self.list[at..at + bytes];
            let last = gap && at + bytes == good.end;
            if last {
                self.look_at(at, record);
            }
            if !(last && self.strict) {
                self.kept.extend(record);
                self.records += 1;
            }
            at += bytes;
        }
    }

    fn look_at(&mut self, at: usize, record: &[u8]) {
        let what = if self.strict {
            "left out"
        } else {
            "look at it"
        };
        let _ = writeln!(self.lines, "record at {at}, {}: {what}", Hex(record));
        self.before
            .push(Object::new().count("byte", at).hex("record", record));
    }

    fn skip(&mut self, gap: &Range<usize>) {
        let _ = writeln!(self.lines, "skipped {} at {}", gap.len(), gap.start);
        self.skipped.push(
            Object::new()
                .count("byte", gap.start)
                .count("bytes", gap.len()),
        );
    }
}
