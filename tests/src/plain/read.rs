//! A text read by a cursor, one record at a time, into a routine of fixed size.

use super::field::AffineMap;
use super::line::{Fields, Line};
use super::names::{NameRef, Names};
use super::routine::Routine;

/// What the lines above have given.
pub struct Known<'a> {
    pub text: &'a [u8],
    pub routine: Routine,
    pub stage: u8,
    pub maps: Names,
    pub origin: Names,
    pub masked: Names,
}

/// The routine that a text holds, or a refusal's number and line.
pub fn read(text: &[u8]) -> Result<Routine, (u8, usize)> {
    if text.len() > 16_384 {
        return Err((2, 0));
    }
    let mut known = Known {
        text,
        routine: Routine::new(),
        stage: 0,
        maps: Names::new(),
        origin: Names::new(),
        masked: Names::new(),
    };
    let (mut at, mut count) = (0, 0);
    while at < text.len() {
        count += 1;
        let line = Line::at(text, at);
        known.take_line(line, count).map_err(|n| (n, count))?;
        at = line.end + 1;
    }
    if known.stage < 6 {
        return Err((6, count + 1));
    }
    known.routine.output_line = count;
    Ok(known.routine)
}

/// The stage in which a record of this word may stand, as a set of bits, and the stage after it.
fn order_of(word: &[u8]) -> Option<(u8, u8)> {
    Some(match word {
        b"shares" => (1, 1),
        b"map" => (2, 1),
        b"input" => (2 | 4, 2),
        b"origin" => (2 | 4, 3),
        b"set" | b"xor" | b"mul" | b"app" | b"let" => (8 | 32, 0),
        b"rand" => (32, 0),
        b"result" => (8, 4),
        b"masked" => (16, 5),
        b"output" => (32, 6),
        _ => return None,
    })
}

impl Known<'_> {
    /// Takes a line, or tells the lowest number that refuses it.
    fn take_line(&mut self, line: Line, n: usize) -> Result<(), u8> {
        if !line.allowed {
            return Err(3);
        }
        if !line.ended {
            return Err(4);
        }
        let mut fields = Fields::of(self.text, line);
        let word = fields.next().ok_or(5)?;
        let (stages, after) = order_of(word).ok_or(5)?;
        let stands = stages >> self.stage & 1 == 1;
        match word {
            b"shares" => self.take_shares(fields, stands)?,
            b"map" => self.take_map(fields, stands)?,
            b"input" => self.take_input(fields, stands)?,
            b"origin" | b"masked" => fields.end(stands)?,
            b"result" => self.take_result(fields, stands)?,
            b"output" => self.take_output(fields, stands)?,
            b"let" => self.take_let(fields, stands, n)?,
            _ => self.take_statement(word, fields, stands, n)?,
        }
        if after != 0 {
            self.stage = after;
        }
        Ok(())
    }

    /// The number of shares.
    fn take_shares(&mut self, mut fields: Fields, stands: bool) -> Result<(), u8> {
        let digit = match fields.next() {
            Some([digit @ b'1'..=b'8']) => digit - b'0',
            _ => return Err(5),
        };
        fields.end(stands)?;
        self.routine.shares = digit as usize;
        Ok(())
    }

    /// One map more.
    fn take_map(&mut self, mut fields: Fields, stands: bool) -> Result<(), u8> {
        let name = fields.name(false)?;
        let mut map = AffineMap {
            constant: fields.hex()?,
            columns: [0; 8],
        };
        for column in &mut map.columns {
            *column = fields.hex()?;
        }
        fields.end(stands)?;
        if self.maps.place(self.text, name).is_some() {
            return Err(7);
        }
        if self.maps.count == 8 {
            return Err(9);
        }
        self.routine.maps[self.maps.count] = map;
        self.maps.push(name);
        Ok(())
    }

    /// One input more, with its shares.
    fn take_input(&mut self, mut fields: Fields, stands: bool) -> Result<(), u8> {
        let name = fields.name(false)?;
        fields.end(stands)?;
        if self.origin.place(self.text, name).is_some() {
            return Err(7);
        }
        let routine = &mut self.routine;
        if routine.inputs == 4 || routine.variables + routine.shares > 16 {
            return Err(9);
        }
        routine.inputs += 1;
        routine.variables += routine.shares;
        self.origin.push(name);
        for part in 0..routine.shares as u8 {
            self.masked.push(NameRef { part, ..name });
        }
        Ok(())
    }

    /// The result.
    fn take_result(&mut self, mut fields: Fields, stands: bool) -> Result<(), u8> {
        let name = fields.name(true)?;
        fields.end(stands)?;
        self.routine.result = self.origin.place(self.text, name).ok_or(8)?;
        Ok(())
    }

    /// The outputs.
    fn take_output(&mut self, mut fields: Fields, stands: bool) -> Result<(), u8> {
        let mut names = [NameRef::default(); 8];
        let mut count = 0;
        while count == 0 || !fields.is_done() {
            let name = fields.name(true)?;
            *names.get_mut(count).ok_or(5)? = name;
            count += 1;
        }
        fields.end(stands)?;
        let mut seen = Names::new();
        for name in &names[..count] {
            if seen.place(self.text, *name).is_some() {
                return Err(7);
            }
            seen.push(*name);
        }
        for (place, name) in self.routine.outputs.iter_mut().zip(&names[..count]) {
            *place = self.masked.place(self.text, *name).ok_or(8)?;
        }
        if count != self.routine.shares {
            return Err(10);
        }
        Ok(())
    }
}
