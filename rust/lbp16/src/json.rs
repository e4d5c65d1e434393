//! One object, for scripts.

use std::fmt::Write;

/// An object that grows by its members.
#[derive(Clone, Default)]
pub struct Object {
    members: String,
}

impl Object {
    pub fn new() -> Object {
        Object::default()
    }

    fn name(&mut self, name: &str) {
        if !self.members.is_empty() {
            self.members.push_str(", ");
        }
        put_text(&mut self.members, name);
        self.members.push_str(": ");
    }

    pub fn number(mut self, name: &str, number: impl Into<u64>) -> Object {
        self.name(name);
        let _ = write!(self.members, "{}", number.into());
        self
    }

    pub fn count(self, name: &str, number: usize) -> Object {
        self.number(name, number as u64)
    }

    pub fn signed(mut self, name: &str, number: i64) -> Object {
        self.name(name);
        let _ = write!(self.members, "{number}");
        self
    }

    /// A number that JSON has none for is null.
    pub fn float(mut self, name: &str, number: f32) -> Object {
        self.name(name);
        match number.is_finite() {
            true => {
                let _ = write!(self.members, "{number:e}");
            }
            false => self.members.push_str("null"),
        }
        self
    }

    pub fn flag(mut self, name: &str, flag: bool) -> Object {
        self.name(name);
        self.members.push_str(if flag { "true" } else { "false" });
        self
    }

    /// What is no UTF-8 is replaced.
    pub fn text(mut self, name: &str, text: impl AsRef<[u8]>) -> Object {
        self.name(name);
        put_text(&mut self.members, &String::from_utf8_lossy(text.as_ref()));
        self
    }

    /// Bytes as hexadecimal digits.
    pub fn hex(mut self, name: &str, bytes: &[u8]) -> Object {
        self.name(name);
        self.members.push('"');
        for byte in bytes {
            let _ = write!(self.members, "{byte:02X}");
        }
        self.members.push('"');
        self
    }

    pub fn object(mut self, name: &str, object: &Object) -> Object {
        self.name(name);
        self.members.push_str(&object.written());
        self
    }

    pub fn array(mut self, name: &str, objects: &[Object]) -> Object {
        self.name(name);
        let objects: Vec<String> = objects.iter().map(Object::written).collect();
        let _ = write!(self.members, "[{}]", objects.join(", "));
        self
    }

    fn written(&self) -> String {
        format!("{{{}}}", self.members)
    }

    /// The object on a line of its own.
    pub fn line(&self) -> String {
        self.written() + "\n"
    }
}

fn put_text(out: &mut String, text: &str) {
    out.push('"');
    for letter in text.chars() {
        match letter {
            '"' => out.push_str("\\\""),
            '\\' => out.push_str("\\\\"),
            '\n' => out.push_str("\\n"),
            '\t' => out.push_str("\\t"),
            letter if letter.is_control() => {
                let _ = write!(out, "\\u{:04x}", letter as u32);
            }
            letter => out.push(letter),
        }
    }
    out.push('"');
}
