//! The statements of both blocks: operands found, operations added, names given.

use super::formula::Formula;
use super::line::{hex_byte, Fields};
use super::names::{name_of, NameRef, Names};
use super::read::Known;
use super::routine::{Op, Operand, Statement};

impl Known<'_> {
    /// The names of the block.
    fn block(&mut self) -> &mut Names {
        match self.stage {
            5 => &mut self.masked,
            _ => &mut self.origin,
        }
    }

    /// The operand that a field holds, a name found among those of the block.
    pub fn operand(&mut self, at: usize, field: &[u8], unknown: &mut bool) -> Result<Operand, u8> {
        if let [b'#', digits @ ..] = field {
            return hex_byte(digits).map(Operand::Byte).ok_or(5);
        }
        let text = self.text;
        let name = name_of(text, at, field, true).ok_or(5)?;
        let place = self.block().place(text, name);
        *unknown |= place.is_none();
        Ok(Operand::Place(place.unwrap_or(0)))
    }

    /// Adds a statement whose value has no name yet; past the limit it is counted alone.
    pub fn add(&mut self, op: Op, line: usize) -> Operand {
        let place = self.block().count;
        let count = self.routine.count;
        if count < 256 {
            self.routine.statements[count] = Statement { op, line };
            self.routine.origin += (self.stage == 3) as usize;
            self.block().push(NameRef::default());
        }
        self.routine.count = count + 1;
        Operand::Place(place)
    }

    /// Gives the name to the value added last; refuses what the line reads and counts.
    fn give(&mut self, name: NameRef, unknown: bool) -> Result<(), u8> {
        let text = self.text;
        if self.block().place(text, name).is_some() {
            return Err(7);
        }
        if unknown {
            return Err(8);
        }
        if self.routine.count > 256 || self.routine.variables > 16 {
            return Err(9);
        }
        self.block().name_last(name);
        Ok(())
    }

    /// One statement more in its block.
    pub fn take_statement(
        &mut self,
        word: &[u8],
        mut fields: Fields,
        stands: bool,
        line: usize,
    ) -> Result<(), u8> {
        let name = fields.name(true)?;
        let mut unknown = false;
        let op = self.op(word, &mut fields, &mut unknown)?;
        fields.end(stands)?;
        self.routine.variables += (word == b"rand") as usize;
        self.add(op, line);
        self.give(name, unknown)
    }

    /// The statements of a let.
    pub fn take_let(&mut self, mut fields: Fields, stands: bool, line: usize) -> Result<(), u8> {
        let name = fields.name(true)?;
        let (at, field) = fields.placed()?;
        fields.end(true)?;
        let mut formula = Formula {
            known: self,
            at,
            end: at + field.len(),
            line,
            unknown: false,
            deep: false,
        };
        formula.read()?;
        let unknown = formula.unknown;
        if formula.deep {
            return Err(13);
        }
        fields.end(stands)?;
        self.give(name, unknown)
    }

    /// The next field as an operand.
    fn next_operand(&mut self, fields: &mut Fields, unknown: &mut bool) -> Result<Operand, u8> {
        let (at, field) = fields.placed()?;
        self.operand(at, field, unknown)
    }

    /// What a statement computes.
    fn op(&mut self, word: &[u8], fields: &mut Fields, unknown: &mut bool) -> Result<Op, u8> {
        Ok(match word {
            b"set" => Op::Set(self.next_operand(fields, unknown)?),
            b"xor" => Op::Xor(
                self.next_operand(fields, unknown)?,
                self.next_operand(fields, unknown)?,
            ),
            b"mul" => Op::Mul(
                self.next_operand(fields, unknown)?,
                self.next_operand(fields, unknown)?,
            ),
            b"app" => {
                let map = self.maps.place(self.text, fields.name(false)?);
                *unknown |= map.is_none();
                Op::App(map.unwrap_or(0), self.next_operand(fields, unknown)?)
            }
            _ => Op::Rand(self.routine.variables),
        })
    }
}
