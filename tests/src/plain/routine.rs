//! The routine as a struct of fixed size, and its run on bytes.

use super::field::{times, AffineMap};

/// An operand: the place of a value in its block, or a byte.
#[derive(Clone, Copy)]
pub enum Operand {
    Place(usize),
    Byte(u8),
}

/// What a statement computes; App holds the map's place, Rand the number of its variable.
#[derive(Clone, Copy)]
pub enum Op {
    Set(Operand),
    Xor(Operand, Operand),
    Mul(Operand, Operand),
    App(usize, Operand),
    Rand(usize),
}

/// A statement and its line.
#[derive(Clone, Copy)]
pub struct Statement {
    pub op: Op,
    pub line: usize,
}

/// What an accepted text holds: the first `origin` of `count` statements are the origin block's.
pub struct Routine {
    pub shares: usize,
    pub maps: [AffineMap; 8],
    pub inputs: usize,
    pub variables: usize,
    pub statements: [Statement; 256],
    pub origin: usize,
    pub count: usize,
    pub result: usize,
    pub outputs: [usize; 8],
    pub output_line: usize,
}

impl Routine {
    /// The routine before the first line.
    pub fn new() -> Self {
        let op = Op::Set(Operand::Byte(0));
        Routine {
            shares: 0,
            maps: [AffineMap::default(); 8],
            inputs: 0,
            variables: 0,
            statements: [Statement { op, line: 0 }; 256],
            origin: 0,
            count: 0,
            result: 0,
            outputs: [0; 8],
            output_line: 0,
        }
    }

    /// The original's result and the XOR of the outputs, on one byte for each variable.
    pub fn run(&self, bytes: &[u8]) -> (u8, u8) {
        let mut origin = [0; 260];
        for (i, value) in origin[..self.inputs].iter_mut().enumerate() {
            let shares = &bytes[i * self.shares..(i + 1) * self.shares];
            *value = shares.iter().fold(0, |sum, share| sum ^ share);
        }
        self.run_block(0, self.origin, &mut origin, self.inputs, bytes);
        let mut masked = [0; 272];
        let begins = self.inputs * self.shares;
        masked[..begins].copy_from_slice(&bytes[..begins]);
        self.run_block(self.origin, self.count, &mut masked, begins, bytes);
        let outputs = &self.outputs[..self.shares];
        let joined = outputs.iter().fold(0, |sum, at| sum ^ masked[*at]);
        (origin[self.result], joined)
    }

    /// Runs the statements from..to behind the values that the block begins with.
    fn run_block(&self, from: usize, to: usize, values: &mut [u8], begins: usize, bytes: &[u8]) {
        for i in from..to {
            let load = |a| match a {
                Operand::Place(at) => values[at],
                Operand::Byte(byte) => byte,
            };
            values[begins + i - from] = match self.statements[i].op {
                Op::Set(a) => load(a),
                Op::Xor(a, b) => load(a) ^ load(b),
                Op::Mul(a, b) => times(load(a), load(b)),
                Op::App(f, a) => self.maps[f].apply(load(a)),
                Op::Rand(variable) => bytes[variable],
            };
        }
    }
}
