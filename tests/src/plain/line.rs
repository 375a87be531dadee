//! A line of the text, and its fields one after another.

use super::names::{name_of, NameRef};

/// Where a line stands, whether its line feed ends it, and whether all its bytes are allowed.
#[derive(Clone, Copy)]
pub struct Line {
    pub from: usize,
    pub end: usize,
    pub ended: bool,
    pub allowed: bool,
}

impl Line {
    /// The line that begins at a place.
    pub fn at(text: &[u8], from: usize) -> Self {
        let rest = &text[from..];
        let feed = rest.iter().position(|byte| *byte == b'\n');
        let len = feed.unwrap_or(rest.len());
        Line {
            from,
            end: from + len,
            ended: feed.is_some(),
            allowed: rest[..len].iter().all(is_allowed),
        }
    }
}

/// Whether a byte may stand in a line.
fn is_allowed(byte: &u8) -> bool {
    byte.is_ascii_lowercase() || byte.is_ascii_digit() || b"#._\t(),".contains(byte)
}

/// The fields of a line that are not yet handed out.
pub struct Fields<'a> {
    text: &'a [u8],
    at: usize,
    end: usize,
    done: bool,
}

impl<'a> Fields<'a> {
    /// The fields of a line.
    pub fn of(text: &'a [u8], line: Line) -> Self {
        Fields {
            text,
            at: line.from,
            end: line.end,
            done: false,
        }
    }

    /// Whether no field is left.
    pub fn is_done(&self) -> bool {
        self.done
    }

    /// The next field.
    pub fn next(&mut self) -> Option<&'a [u8]> {
        if self.done {
            return None;
        }
        let rest = &self.text[self.at..self.end];
        let tab = rest.iter().position(|byte| *byte == b'\t');
        self.done = tab.is_none();
        let field = &rest[..tab.unwrap_or(rest.len())];
        self.at += field.len() + 1;
        Some(field)
    }

    /// The next field as a name.
    pub fn name(&mut self, dotted: bool) -> Result<NameRef, u8> {
        let (at, field) = self.placed()?;
        name_of(self.text, at, field, dotted).ok_or(5)
    }

    /// The next field as two hex digits.
    pub fn hex(&mut self) -> Result<u8, u8> {
        hex_byte(self.next().ok_or(5)?).ok_or(5)
    }

    /// The place of the next field, and the field.
    pub fn placed(&mut self) -> Result<(usize, &'a [u8]), u8> {
        let at = self.at;
        Ok((at, self.next().ok_or(5)?))
    }

    /// Refuses a field too many, then a record that may not stand here.
    pub fn end(&self, stands: bool) -> Result<(), u8> {
        match (self.done, stands) {
            (false, _) => Err(5),
            (true, false) => Err(6),
            (true, true) => Ok(()),
        }
    }
}

/// Two lower-case hex digits.
pub fn hex_byte(field: &[u8]) -> Option<u8> {
    let digit = |byte| match byte {
        b'0'..=b'9' => Some(byte - b'0'),
        b'a'..=b'f' => Some(byte - b'a' + 10),
        _ => None,
    };
    match field {
        [high, low] => Some(digit(*high)? * 16 + digit(*low)?),
        _ => None,
    }
}
