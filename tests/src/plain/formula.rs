//! A formula read by recursion: each operation becomes a statement once its parts are read. Past
//! the deepest that is taken, the form alone is read, by a loop.

use super::names::name_of;
use super::read::Known;
use super::routine::{Op, Operand};

/// The deepest formula that is taken.
const MOST_DEPTH: usize = 8;

/// The bytes of a formula from `at` to `end` are not yet read.
pub struct Formula<'k, 't> {
    pub known: &'k mut Known<'t>,
    pub at: usize,
    pub end: usize,
    pub line: usize,
    pub unknown: bool,
    pub deep: bool,
}

impl<'t> Formula<'_, 't> {
    /// Reads the whole formula; its last statement gives its value.
    pub fn read(&mut self) -> Result<(), u8> {
        let from = self.known.routine.count;
        let whole = self.part(0)?;
        if self.at != self.end {
            return Err(5);
        }
        if self.known.routine.count == from {
            self.known.add(Op::Set(whole), self.line);
        }
        Ok(())
    }

    /// Reads an operand, or an operation that stands inside so many others.
    fn part(&mut self, depth: usize) -> Result<Operand, u8> {
        let (from, word) = self.word();
        if self.mark(b'(').is_err() {
            return self.known.operand(from, word, &mut self.unknown);
        }
        if depth == MOST_DEPTH {
            self.deep = true;
            return self.pass_deep(word);
        }
        let op = match word {
            b"xor" => {
                let (a, b) = self.pair(depth)?;
                Op::Xor(a, b)
            }
            b"mul" => {
                let (a, b) = self.pair(depth)?;
                Op::Mul(a, b)
            }
            b"app" => {
                let map = self.map()?;
                Op::App(map, self.part(depth + 1)?)
            }
            _ => return Err(5),
        };
        self.mark(b')')?;
        Ok(self.known.add(op, self.line))
    }

    /// Reads two parts with a comma between them.
    fn pair(&mut self, depth: usize) -> Result<(Operand, Operand), u8> {
        let a = self.part(depth + 1)?;
        self.mark(b',')?;
        Ok((a, self.part(depth + 1)?))
    }

    /// Passes over an operation that stands too deep, whose word and parenthesis are read. Of each
    /// one begun it is held whether its last part is reached.
    fn pass_deep(&mut self, word: &[u8]) -> Result<Operand, u8> {
        let mut open = vec![self.begins_last(word)?];
        loop {
            let (from, word) = self.word();
            if self.mark(b'(').is_ok() {
                open.push(self.begins_last(word)?);
                continue;
            }
            let part = self.known.operand(from, word, &mut self.unknown)?;
            while open.last() == Some(&true) {
                self.mark(b')')?;
                open.pop();
            }
            let Some(last) = open.last_mut() else {
                return Ok(part);
            };
            *last = true;
            self.mark(b',')?;
        }
    }

    /// Whether the part that follows is the only one of an operation with this word.
    fn begins_last(&mut self, word: &[u8]) -> Result<bool, u8> {
        match word {
            b"xor" | b"mul" => Ok(false),
            b"app" => self.map().map(|_| true),
            _ => Err(5),
        }
    }

    /// Reads the name of a map and the comma behind it.
    fn map(&mut self) -> Result<usize, u8> {
        let (from, word) = self.word();
        let text = self.known.text;
        let name = name_of(text, from, word, false).ok_or(5)?;
        self.mark(b',')?;
        let map = self.known.maps.place(text, name);
        self.unknown |= map.is_none();
        Ok(map.unwrap_or(0))
    }

    /// The bytes up to the next mark, with their place.
    fn word(&mut self) -> (usize, &'t [u8]) {
        let from = self.at;
        let text = self.known.text;
        let rest = &text[from..self.end];
        let mark = rest.iter().position(|byte| b"(),".contains(byte));
        self.at += mark.unwrap_or(rest.len());
        (from, &text[from..self.at])
    }

    /// Passes over this mark, which must stand here.
    fn mark(&mut self, mark: u8) -> Result<(), u8> {
        if self.at == self.end || self.known.text[self.at] != mark {
            return Err(5);
        }
        self.at += 1;
        Ok(())
    }
}
