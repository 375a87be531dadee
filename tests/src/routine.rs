//! The routine that an accepted text holds. Values are counted within each block: first those
//! that the block begins with, then one for each statement, those of a let without a name too.

use crate::maps::Map;

/// An operand: the place of a value in its block, or a byte.
#[derive(Clone, Copy, Debug, PartialEq, Eq)]
pub enum Source {
    Value(usize),
    Byte(u8),
}

/// What a statement does; a rand draws the variable of that number.
#[derive(Clone, Copy, Debug, PartialEq, Eq)]
pub enum Operation {
    Set(Source),
    Xor(Source, Source),
    Mul(Source, Source),
    App(usize, Source),
    Rand(usize),
}

/// A statement and the line on which it stands.
#[derive(Clone, Copy, Debug, PartialEq, Eq)]
pub struct Statement {
    pub line: u64,
    pub operation: Operation,
}

/// What an accepted text holds.
#[derive(Clone, Debug, Default, PartialEq, Eq)]
pub struct Routine {
    pub shares: usize,
    pub maps: Vec<Map>,
    pub inputs: usize,
    pub variables: usize,
    pub origin: Vec<Statement>,
    pub result: usize,
    pub masked: Vec<Statement>,
    pub outputs: Vec<usize>,
    pub output_line: u64,
}
