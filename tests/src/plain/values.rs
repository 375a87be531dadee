//! The values of a routine, one behind the other in the first work buffer; the second one holds
//! loaded operands.

use super::product::product;
use super::routine::{Op, Operand, Routine};
use super::terms::{add_terms, apply};
use super::Plain;

/// Terms that stand together with the raw size of the next place.
const MOST_TERMS: usize = 3_840;

/// Where the polynomial of an operand is found: a constant; the sum of some variables; or a value
/// in the buffer, its first term and how many.
#[derive(Clone, Copy)]
enum Source {
    Constant(u8),
    Variables(usize, usize),
    Stored(usize, usize),
}

/// The values formed so far: w bytes a term, `top` terms in all.
pub struct Values<'a> {
    routine: &'a Routine,
    lists: [[u8; 8]; 8],
    left: &'a mut [u8],
    right: &'a mut [u8],
    w: usize,
    starts: [usize; 256],
    sizes: [usize; 256],
    top: usize,
    way: Plain,
}

impl Source {
    /// How many terms it has.
    fn size(self) -> usize {
        match self {
            Source::Constant(byte) => (byte != 0) as usize,
            Source::Variables(_, k) | Source::Stored(_, k) => k,
        }
    }
}

impl<'a> Values<'a> {
    /// No value is formed yet.
    pub fn new(routine: &'a Routine, left: &'a mut [u8], right: &'a mut [u8], way: Plain) -> Self {
        Values {
            routine,
            lists: routine.maps.map(|map| map.coefficients()),
            left,
            right,
            w: routine.variables + 1,
            starts: [0; 256],
            sizes: [0; 256],
            top: 0,
            way,
        }
    }

    /// Forms the difference behind all values: its first byte in the first work buffer and its
    /// number of terms; or the line of the first place that exceeds the limit.
    pub fn difference(&mut self) -> Result<(usize, usize), usize> {
        for i in 0..self.routine.count {
            self.form(i)?;
        }
        let routine = self.routine;
        let mut parts = [self.place(routine.result, false); 9];
        for (part, at) in parts[1..].iter_mut().zip(&routine.outputs) {
            *part = self.place(*at, true);
        }
        let parts = &parts[..routine.shares + 1];
        let raw = parts.iter().map(|part| part.size()).sum();
        self.check(raw, routine.output_line)?;
        let mut size = 0;
        for part in parts {
            size += self.load(*part, size);
        }
        let start = self.top * self.w;
        let terms = &self.right[..size * self.w];
        let k = add_terms(&mut self.left[start..], 0, terms, self.w);
        Ok((start, k))
    }

    /// The number of inputs none of whose shares has a power in a term of the result; all values
    /// are formed.
    pub fn idle(&mut self) -> usize {
        let routine = self.routine;
        let size = self.load(self.place(routine.result, false), 0);
        let terms = &self.right[..size * self.w];
        let matters = |input: usize| {
            let first = 1 + input * routine.shares;
            let shares = first..first + routine.shares;
            let mut all = terms.chunks_exact(self.w);
            all.any(|t| t[shares.clone()].iter().any(|power| *power > 0))
        };
        (0..routine.inputs).filter(|input| !matters(*input)).count()
    }

    /// Whether a place of this raw size exceeds the limit.
    fn check(&self, raw: usize, line: usize) -> Result<(), usize> {
        if self.top + raw > MOST_TERMS {
            return Err(line);
        }
        Ok(())
    }

    /// The value at a place of a block.
    fn place(&self, at: usize, masked: bool) -> Source {
        let routine = self.routine;
        let (begins, width, base) = match masked {
            false => (routine.inputs, routine.shares, 0),
            true => (routine.inputs * routine.shares, 1, routine.origin),
        };
        if at < begins {
            return Source::Variables(at * width, width);
        }
        let i = base + at - begins;
        Source::Stored(self.starts[i], self.sizes[i])
    }

    /// The value of an operand.
    fn locate(&self, a: Operand, masked: bool) -> Source {
        match a {
            Operand::Place(at) => self.place(at, masked),
            Operand::Byte(byte) => Source::Constant(byte),
        }
    }

    /// Lays the polynomial of a source in the second work buffer from a term on.
    fn load(&mut self, source: Source, at: usize) -> usize {
        let w = self.w;
        let to = &mut self.right[at * w..(at + source.size()) * w];
        match source {
            Source::Constant(0) => {}
            Source::Constant(byte) => {
                to.fill(0);
                to[0] = byte;
            }
            Source::Variables(first, k) => {
                to.fill(0);
                for j in 0..k {
                    to[j * w] = 1;
                    to[j * w + 1 + first + j] = 1;
                }
            }
            Source::Stored(from, k) => {
                to.copy_from_slice(&self.left[from * w..(from + k) * w]);
            }
        }
        source.size()
    }

    /// The raw size of a statement.
    fn raw_size(&self, op: Op, masked: bool) -> usize {
        let size = |a| self.locate(a, masked).size();
        match op {
            Op::Set(a) => size(a),
            Op::Xor(a, b) => size(a) + size(b),
            Op::Mul(a, b) => size(a) * size(b),
            Op::App(f, a) => {
                let nonzero = self.lists[f].iter().filter(|l| **l != 0).count();
                nonzero * size(a) + (self.routine.maps[f].constant != 0) as usize
            }
            Op::Rand(_) => 1,
        }
    }

    /// Forms the value of statement i behind all others.
    fn form(&mut self, i: usize) -> Result<(), usize> {
        let statement = self.routine.statements[i];
        let masked = i >= self.routine.origin;
        self.check(self.raw_size(statement.op, masked), statement.line)?;
        let w = self.w;
        let (a, b) = match statement.op {
            Op::Set(a) | Op::App(_, a) => (self.locate(a, masked), Source::Constant(0)),
            Op::Xor(a, b) | Op::Mul(a, b) => (self.locate(a, masked), self.locate(b, masked)),
            Op::Rand(variable) => (Source::Variables(variable, 1), Source::Constant(0)),
        };
        let p = self.load(a, 0);
        let q = self.load(b, p);
        let new = &mut self.left[self.top * w..];
        let (first, second) = self.right[..(p + q) * w].split_at_mut(p * w);
        let k = match statement.op {
            Op::Set(_) | Op::Rand(_) => {
                new[..p * w].copy_from_slice(first);
                p
            }
            Op::Xor(..) => add_terms(new, 0, &self.right[..(p + q) * w], w),
            Op::Mul(..) => product(new, first, second, w, self.way),
            Op::App(f, _) => {
                let constant = self.routine.maps[f].constant;
                apply(new, (&self.lists[f], constant), first, w, self.way)
            }
        };
        self.starts[i] = self.top;
        self.sizes[i] = k;
        self.top += k;
        Ok(())
    }
}
