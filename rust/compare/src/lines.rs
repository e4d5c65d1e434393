//! Makes random texts of cue lists: good ones in all forms and spellings, ones with faults of every kind,
//! and damaged ones.

use crate::cues::{self, List};
use crate::rng::Rng;
use model::cue::{Action, Record, Records};
use model::store::{Space, COUNT_ADDRESS, UNLOCK_ADDRESS};
use model::text::{MOST_NAMES, NAME_BYTES};

/// The words that no name may be.
pub const RESERVED: [&str; 7] = [
    "read",
    "write",
    "name",
    "registers",
    "eeprom",
    "status",
    "information",
];

/// The name of a space in a text.
pub fn space_word(space: Space) -> &'static str {
    RESERVED[3 + space.index()]
}

/// A text, and the list that it was made to say if it is a good one.
pub struct Made {
    pub text: Vec<u8>,
    pub says: Option<Vec<u8>>,
}

/// A text of any kind, about a third of them good.
pub fn any(rng: &mut Rng) -> Made {
    let list = match rng.coin() {
        true => cues::good(rng),
        false => few(rng),
    };
    let naming = rng.pick(&[0, 2, 4, 12]);
    let mut text = Text::saying(rng, list.bytes(), naming);
    let kind = rng.below(6);
    if kind < 2 {
        return text.made(rng, list.bytes());
    }
    if kind < 5 {
        for _ in 0..rng.pick(&[1, 1, 1, 2, 3]) {
            text.put_faulty(rng);
        }
    }
    let mut text = text.bytes(rng);
    if kind >= 4 {
        for _ in 0..rng.pick(&[1, 1, 2, 3, 5]) {
            damage(rng, &mut text);
        }
    }
    Made { text, says: None }
}

/// A list of few records.
fn few(rng: &mut Rng) -> List {
    let mut list = List::default();
    for _ in 0..rng.below(4) {
        cues::stretch(rng, &mut list, 4);
    }
    list
}

/// A text that defines so many names and uses some. It is good if these are no more than there may be.
pub fn names(rng: &mut Rng, count: usize) -> Made {
    let mut list = List::default();
    let mut text = Text::default();
    for _ in 0..count {
        text.define_any(rng);
        if rng.one_in(4) {
            let name = text.names[rng.below(text.names.len())].clone();
            list.read(name.space, name.address);
            let read = Record {
                space: name.space,
                address: name.address,
                action: Action::Read,
            };
            let words = record_words(rng, &read, Some(&name));
            text.put(rng, &words);
        }
    }
    let mut made = text.made(rng, list.bytes());
    made.says = made.says.filter(|_| count <= MOST_NAMES);
    made
}

/// The number of different texts about the limit of a hundred thousand records.
pub const LONG_TEXTS: usize = 10;

/// A text about the limit of a hundred thousand records.
pub fn long(rng: &mut Rng, variant: usize) -> Made {
    const BEHIND: [&[&str]; LONG_TEXTS] = [
        &[],
        &["", "name last.1 registers 4", "# end", "name last.2 7 0"],
        &["read 0 4"],
        &["# more", "", "name last 0 4", "write last 5"],
        &["read 1 4"],
        &["write 2 0x20 65536"],
        &["read 0x 4"],
        &["read nobody"],
        &["read"],
        &["name last 0 3"],
    ];
    let list = cues::long(rng, 0);
    let mut text = Text::saying(rng, &list, 500);
    let behind = BEHIND[variant].iter().map(|line| line.as_bytes().to_vec());
    text.lines.extend(behind);
    let mut made = text.made(rng, &list);
    made.says = made.says.filter(|_| variant < 2);
    made
}

/// A text in the making.
#[derive(Default)]
struct Text {
    lines: Vec<Vec<u8>>,
    names: Vec<Name>,
}

#[derive(Clone)]
struct Name {
    word: Vec<u8>,
    space: Space,
    address: u32,
}

/// What must stand at a word's place.
#[derive(Clone, Copy, PartialEq, Eq)]
enum Place {
    Form,
    Name,
    Space,
    Address,
    Value,
}

/// A word and the place that it is for.
type Word = (Place, Vec<u8>);

impl Text {
    /// One that says the records of a list. A name is defined for one record in `naming`, or none for 0.
    fn saying(rng: &mut Rng, list: &[u8], naming: usize) -> Text {
        let mut text = Text::default();
        for record in Records::new(list).map_while(Result::ok) {
            if rng.one_in(8) {
                text.lines.push(empty(rng));
            }
            if naming > 0 && rng.one_in(naming) && text.names.len() < MOST_NAMES {
                match rng.one_in(4) {
                    true => text.define_any(rng),
                    false => text.define(rng, record.space, record.address),
                }
            }
            let name = text.name_for(&record).cloned();
            let name = name.filter(|_| !rng.one_in(4));
            let words = record_words(rng, &record, name.as_ref());
            text.put(rng, &words);
        }
        if rng.one_in(4) {
            text.lines.push(empty(rng));
        }
        text
    }

    /// The name that was last defined for a record's cell.
    fn name_for(&self, record: &Record) -> Option<&Name> {
        let cell = (record.space, record.address);
        let mut last_first = self.names.iter().rev();
        last_first.find(|name| (name.space, name.address) == cell)
    }

    fn define_any(&mut self, rng: &mut Rng) {
        let (space, write) = cues::kind(rng);
        let address = cues::address(rng, space, write);
        self.define(rng, space, address);
    }

    fn define(&mut self, rng: &mut Rng, space: Space, address: u32) {
        let name = Name {
            word: new_name(rng, &self.names),
            space,
            address,
        };
        let words = definition(rng, &name);
        self.put(rng, &words);
        self.names.push(name);
    }

    fn put(&mut self, rng: &mut Rng, words: &[Word]) {
        self.lines.push(laid_out(rng, words));
    }

    /// Puts a line in that has a fault or two, mostly at the end, where all names are defined.
    fn put_faulty(&mut self, rng: &mut Rng) {
        let words = faulty(rng, &self.names);
        let line = laid_out(rng, &words);
        let at = match rng.coin() {
            true => self.lines.len(),
            false => rng.below(self.lines.len() + 1),
        };
        self.lines.insert(at, line);
    }

    /// The text's bytes; its last line may lack the newline.
    fn bytes(&self, rng: &mut Rng) -> Vec<u8> {
        let mut bytes = self.lines.join(&b'\n');
        if !self.lines.is_empty() && !rng.one_in(4) {
            bytes.push(b'\n');
        }
        bytes
    }

    fn made(&self, rng: &mut Rng, list: &[u8]) -> Made {
        Made {
            text: self.bytes(rng),
            says: Some(list.to_vec()),
        }
    }
}

// Good lines.

fn record_words(rng: &mut Rng, record: &Record, name: Option<&Name>) -> Vec<Word> {
    let form = if record.is_write() { "write" } else { "read" };
    let mut words = vec![(Place::Form, form.into())];
    match name {
        Some(name) => words.push((Place::Name, name.word.clone())),
        None => words.extend(cell_words(rng, record.space, record.address)),
    }
    if let Action::Write(value) = record.action {
        words.push((Place::Value, number(rng, value)));
    }
    words
}

fn definition(rng: &mut Rng, name: &Name) -> Vec<Word> {
    let mut words = vec![
        (Place::Form, b"name".to_vec()),
        (Place::Name, name.word.clone()),
    ];
    words.extend(cell_words(rng, name.space, name.address));
    words
}

fn cell_words(rng: &mut Rng, space: Space, address: u32) -> [Word; 2] {
    let space = match rng.one_in(3) {
        true => number(rng, space.number().into()),
        false => space_word(space).into(),
    };
    [
        (Place::Space, space),
        (Place::Address, number(rng, address)),
    ]
}

/// A number in one of its spellings.
fn number(rng: &mut Rng, value: u32) -> Vec<u8> {
    let zeros = match rng.below(24) {
        0 => rng.between(20, 60),
        1..=4 => rng.between(1, 6),
        _ => 0,
    };
    let zeros = "0".repeat(zeros);
    let number = match rng.below(6) {
        0 | 1 => format!("{zeros}{value}"),
        2 => format!("0x{zeros}{value:x}"),
        3 => format!("0x{zeros}{value:04X}"),
        4 => format!("0X{zeros}{value:X}"),
        _ => return mixed(rng, format!("0x{zeros}{value:08x}")),
    };
    number.into()
}

/// The same with letters of either case.
fn mixed(rng: &mut Rng, word: String) -> Vec<u8> {
    let mut word = word.into_bytes();
    for byte in &mut word {
        if rng.coin() {
            byte.make_ascii_uppercase();
        }
    }
    word
}

/// A name that is not among these.
fn new_name(rng: &mut Rng, names: &[Name]) -> Vec<u8> {
    loop {
        let word = name(rng, names);
        let reserved = RESERVED.iter().any(|reserved| reserved.as_bytes() == word);
        if !reserved && names.iter().all(|name| name.word != word) {
            return word;
        }
    }
}

fn name(rng: &mut Rng, names: &[Name]) -> Vec<u8> {
    const LETTERS: &[u8] = b"abcdefghijklmnopqrstuvwxyzABCDEFGHIJKLMNOPQRSTUVWXYZ";
    const OTHERS: &[u8] = b"0123456789_-.";
    let mut word = match rng.below(8) {
        // Like another name or like a word, and longer, shorter or with another case.
        0 if !names.is_empty() => names[rng.below(names.len())].word.clone(),
        1 => rng.pick(&RESERVED).into(),
        _ => vec![rng.pick(LETTERS)],
    };
    match rng.below(8) {
        0 if word.len() > 1 => drop(word.pop()),
        1 => word[0] ^= 0x20,
        _ => {
            let most = match rng.one_in(8) {
                true => NAME_BYTES,
                false => (word.len() + rng.below(8)).min(NAME_BYTES),
            };
            while word.len() < most {
                let other = rng.one_in(3);
                word.push(rng.pick(if other { OTHERS } else { LETTERS }));
            }
        }
    }
    word
}

/// Puts words on a line, apart by blanks of every kind; now and then with a comment behind them.
fn laid_out(rng: &mut Rng, words: &[Word]) -> Vec<u8> {
    let mut line = Vec::new();
    if rng.one_in(8) {
        blanks(rng, &mut line);
    }
    for (k, (_, word)) in words.iter().enumerate() {
        if k > 0 {
            blanks(rng, &mut line);
        }
        line.extend(word);
    }
    match rng.below(16) {
        0 => blanks(rng, &mut line),
        1 | 2 => line.push(b'\r'),
        3 => comment(rng, &mut line),
        4 => {
            blanks(rng, &mut line);
            comment(rng, &mut line);
        }
        _ => {}
    }
    line
}

fn blanks(rng: &mut Rng, line: &mut Vec<u8>) {
    match rng.below(8) {
        0 => line.push(b'\t'),
        1 => line.push(b'\r'),
        2 => (0..rng.between(2, 6)).for_each(|_| line.push(rng.pick(b" \t\r"))),
        _ => line.push(b' '),
    }
}

/// A comment: words, a line of a form, or any bytes but the newline.
fn comment(rng: &mut Rng, line: &mut Vec<u8>) {
    line.push(b'#');
    match rng.below(4) {
        0 => line.extend(b" read registers 4"),
        1 => line.extend(b"# name lamp registers 4 # and so on\r"),
        2 => {}
        _ => {
            let bytes = (0..rng.below(12)).map(|_| rng.byte());
            line.extend(bytes.filter(|&byte| byte != b'\n'));
        }
    }
}

/// A line without words.
fn empty(rng: &mut Rng) -> Vec<u8> {
    let mut line = Vec::new();
    if rng.one_in(4) {
        blanks(rng, &mut line);
    }
    if rng.coin() {
        comment(rng, &mut line);
    }
    line
}

// Faults.

/// The words of a line with a fault or two.
fn faulty(rng: &mut Rng, names: &[Name]) -> Vec<Word> {
    let (space, write) = cues::kind(rng);
    let address = cues::address(rng, space, write);
    let value = rng.word()
        & if space == Space::Registers {
            u32::MAX
        } else {
            0xFFFF
        };
    let action = if write {
        Action::Write(value)
    } else {
        Action::Read
    };
    let record = Record {
        space,
        address,
        action,
    };
    let known = match names.is_empty() {
        true => None,
        false => Some(&names[rng.below(names.len())]),
    };
    let mut words = match rng.below(6) {
        0 | 1 => {
            let word = new_name(rng, names);
            definition(
                rng,
                &Name {
                    word,
                    space,
                    address,
                },
            )
        }
        2 | 3 => record_words(rng, &record, known),
        _ => record_words(rng, &record, None),
    };
    for _ in 0..rng.pick(&[1, 1, 2]) {
        spoil(rng, &mut words, known);
    }
    words
}

/// Gives the words a fault of one kind, where it fits them.
fn spoil(rng: &mut Rng, words: &mut Vec<Word>, known: Option<&Name>) {
    let at = rng.below(words.len());
    let kind = rng.below(13);
    let place = match kind {
        2 => Place::Form,
        3 | 8 => Place::Space,
        4 | 9 => Place::Address,
        5 | 10 => Place::Value,
        6 | 7 => Place::Name,
        0 => return drop(words.remove(at)),
        1 => {
            let (place, word) = words[at].clone();
            return words.insert(rng.below(words.len() + 1), (place, word));
        }
        _ => {
            let known = known.filter(|_| rng.coin());
            return wide_write(rng, words, known);
        }
    };
    let found = words.iter_mut().find(|(stands, _)| *stands == place);
    let Some((_, word)) = found else { return };
    *word = match kind {
        2 => rng.pick(&FORMS).into(),
        3 => no_number(rng, 0xFF, known),
        4 => no_number(rng, 0xFFFF, known),
        5 => no_number(rng, u32::MAX, known),
        6 => no_name(rng),
        7 => match known {
            Some(name) => name.word.clone(),
            None => new_name(rng, &[]),
        },
        8 => {
            let space = rng.pick(&[1, 3, 4, 5, 8, 16, 128, 255]);
            number(rng, space)
        }
        9 => bad_address(rng),
        _ => {
            let wide = 0x1_0000 << rng.below(16) | rng.word() & 0xFFFF;
            number(rng, wide)
        }
    };
}

/// First words that are none.
const FORMS: [&str; 14] = [
    "Read",
    "READ",
    "reads",
    "rea",
    "writ",
    "Write",
    "names",
    "Name",
    "rd",
    "registers",
    "lamp",
    "0",
    "read,",
    "-",
];

/// A write by name, to a cell that may be read only, or to a cell of 2 bytes, of a value that may be too
/// wide.
fn wide_write(rng: &mut Rng, words: &mut Vec<Word>, known: Option<&Name>) {
    let value = rng.word() >> rng.pick(&[0, 15, 16]);
    let value = number(rng, value);
    let space = rng.pick(&[Space::Eeprom, Space::Status]);
    let address = cues::address(rng, space, true);
    *words = vec![(Place::Form, b"write".to_vec())];
    match known {
        Some(name) => words.push((Place::Name, name.word.clone())),
        None => words.extend(cell_words(rng, space, address)),
    }
    words.push((Place::Value, value));
}

/// A word that is no number up to `most`.
fn no_number(rng: &mut Rng, most: u32, known: Option<&Name>) -> Vec<u8> {
    const NONE: [&str; 24] = [
        "0x",
        "0X",
        "x10",
        "00x10",
        "0x0x4",
        "1a",
        "4h",
        "0xG",
        "0xfg",
        "-4",
        "+4",
        "0x-4",
        "1_0",
        "4.",
        "4,0",
        "0b1",
        "four",
        "Registers",
        "register",
        "eeprom.",
        "STATUS",
        "read",
        "\"4\"",
        "4\u{A0}",
    ];
    let more = u128::from(most) + 1 + rng.below(9) as u128 * u128::from(rng.byte());
    // Good numbers, if they are taken modulo a power of 2.
    let wrapped = (1u128 << rng.pick(&[32, 33, 64, 65, 100])) + rng.below(32) as u128 * 2;
    match rng.below(12) {
        0 | 1 => more.to_string().into(),
        2 => format!("0x{more:x}").into(),
        3 => format!("0X{}{more:X}", "0".repeat(rng.below(20))).into(),
        4 => wrapped.to_string().into(),
        5 => format!("0x{wrapped:X}").into(),
        6 => "9".repeat(rng.between(10, 60)).into(),
        7 => space_word(rng.pick(&Space::ALL)).into(),
        8 if known.is_some() => known.map_or(vec![], |name| name.word.clone()),
        _ => rng.pick(&NONE).into(),
    }
}

/// A word that is no name.
fn no_name(rng: &mut Rng) -> Vec<u8> {
    const NONE: [&str; 14] = [
        "4", "0x10", "_a", "-a", ".a", "4a", "a+", "a/b", "a:", "a(", "a=b", "\u{E4}", "a\u{E4}",
        "a\0",
    ];
    match rng.below(4) {
        0 => rng.pick(&RESERVED).into(),
        1 => {
            let mut word = name(rng, &[]);
            word.resize(NAME_BYTES + rng.pick(&[1, 1, 2, 40]), b'z');
            word
        }
        _ => rng.pick(&NONE).into(),
    }
}

/// An address that most spaces have no cell at.
fn bad_address(rng: &mut Rng) -> Vec<u8> {
    let address = rng.pick(&[
        1,
        2,
        3,
        0x10,
        0x1E,
        COUNT_ADDRESS,
        UNLOCK_ADDRESS,
        0x20,
        0x7F,
        0x80,
        0xFFFD,
        0xFFFE,
        0xFFFF,
    ]);
    number(rng, address)
}

// Damage.

/// Changes bytes anywhere: some changed, put in, taken out, lines exchanged, words dropped.
fn damage(rng: &mut Rng, text: &mut Vec<u8>) {
    let at = rng.below(text.len() + 1);
    let end = text.len().min(at + rng.between(1, 12));
    match rng.below(14) {
        0 if at < text.len() => text[at] = rng.byte(),
        1 if at < text.len() => text[at] ^= 1 << rng.below(8),
        2 if at < text.len() => text[at] ^= 0x20,
        3 => drop(text.drain(at..end)),
        4 => text.insert(at, rng.pick(b" \t\r\n#\0")),
        5 => text.insert(at, rng.pick(b"0123456789abcdefxXABCDEFlz_-.")),
        6 => text.truncate(at),
        7 => {
            let some: Vec<u8> = (at..end).map(|_| rng.byte()).collect();
            text.splice(at..end, some);
        }
        8..=10 => change_lines(rng, text),
        _ => change_words(rng, text),
    }
}

/// Exchanges two lines, or drops or doubles one.
fn change_lines(rng: &mut Rng, text: &mut Vec<u8>) {
    let mut lines: Vec<&[u8]> = text.split(|&byte| byte == b'\n').collect();
    let [one, other] = [rng.below(lines.len()), rng.below(lines.len())];
    match rng.below(4) {
        0 => drop(lines.remove(one)),
        1 => lines.insert(other, lines[one]),
        _ => lines.swap(one, other),
    }
    *text = lines.join(&b'\n');
}

/// Drops or doubles a word of a line, or exchanges two.
fn change_words(rng: &mut Rng, text: &mut Vec<u8>) {
    let mut lines: Vec<&[u8]> = text.split(|&byte| byte == b'\n').collect();
    let at = rng.below(lines.len());
    let mut words: Vec<&[u8]> = lines[at].split(|&byte| byte == b' ').collect();
    let [one, other] = [rng.below(words.len()), rng.below(words.len())];
    match rng.below(4) {
        0 => words.insert(other, words[one]),
        1 => words.swap(one, other),
        _ => drop(words.remove(one)),
    }
    let line = words.join(&b' ');
    lines[at] = &line;
    *text = lines.join(&b'\n');
}
