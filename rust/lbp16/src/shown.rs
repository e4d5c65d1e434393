//! Bytes and numbers in words.

use std::fmt;

/// Bytes as hexadecimal digits with a blank between two.
pub struct Hex<'a>(pub &'a [u8]);

impl fmt::Display for Hex<'_> {
    fn fmt(&self, f: &mut fmt::Formatter) -> fmt::Result {
        for (k, byte) in self.0.iter().enumerate() {
            write!(f, "{}{byte:02X}", if k == 0 { "" } else { " " })?;
        }
        Ok(())
    }
}

/// A number of things: `1 record`, `2 records`.
pub struct Count<'a>(pub u64, pub &'a str);

impl fmt::Display for Count<'_> {
    fn fmt(&self, f: &mut fmt::Formatter) -> fmt::Result {
        let Count(number, thing) = self;
        write!(f, "{number} {thing}{}", if *number == 1 { "" } else { "s" })
    }
}
