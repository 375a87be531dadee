//! One line as a record: the words, the numbers of fields and the forms of fields.

use crate::formula::{formula_of, Formula};
use crate::limits::{MOST_NAME, MOST_SHARES};
use crate::maps::Map;

/// An operand as it is written; in a formula also the value of one of its earlier operations.
#[derive(Clone, Copy, Debug, PartialEq, Eq)]
pub enum Operand<'a> {
    Name(&'a [u8]),
    Constant(u8),
    Inner(usize),
}

/// What a statement does, as it is written.
#[derive(Clone, Copy, Debug, PartialEq, Eq)]
pub enum Action<'a> {
    Set(Operand<'a>),
    Xor(Operand<'a>, Operand<'a>),
    Mul(Operand<'a>, Operand<'a>),
    App(&'a [u8], Operand<'a>),
    Rand,
}

/// A well-formed line.
#[derive(Clone, Debug, PartialEq, Eq)]
pub enum Record<'a> {
    Shares(usize),
    Map(&'a [u8], Map),
    Input(&'a [u8]),
    Origin,
    Statement(&'a [u8], Action<'a>),
    Let(&'a [u8], Formula<'a>),
    Result(&'a [u8]),
    Masked,
    Output(Vec<&'a [u8]>),
}

/// Whether a byte may stand in a line.
pub fn is_allowed(byte: u8) -> bool {
    matches!(byte, b'a'..=b'z' | b'0'..=b'9' | b'#' | b'.' | b'_' | b'\t' | b'(' | b')' | b',')
}

/// The record of a line without its line feed; None is refusal 5.
pub fn record_of(line: &[u8]) -> Option<Record<'_>> {
    let fields: Vec<&[u8]> = line.split(|byte| *byte == b'\t').collect();
    let (word, fields) = fields.split_first()?;
    match (*word, fields) {
        (b"shares", [count]) => Some(Record::Shares(share_count(count)?)),
        (b"map", [name, bytes @ ..]) => Some(Record::Map(plain_name(name)?, map_of(bytes)?)),
        (b"input", [name]) => Some(Record::Input(plain_name(name)?)),
        (b"origin", []) => Some(Record::Origin),
        (b"result", [name]) => Some(Record::Result(dotted_name(name)?)),
        (b"masked", []) => Some(Record::Masked),
        (b"output", names) => output_of(names),
        (b"let", [name, formula]) => {
            let formula = formula_of(formula)?;
            Some(Record::Let(dotted_name(name)?, formula))
        }
        (word, [name, operands @ ..]) => {
            let action = action_of(word, operands)?;
            Some(Record::Statement(dotted_name(name)?, action))
        }
        _ => None,
    }
}

/// What a statement with this word does with the fields after its name.
fn action_of<'a>(word: &[u8], fields: &[&'a [u8]]) -> Option<Action<'a>> {
    match (word, fields) {
        (b"set", [a]) => Some(Action::Set(operand_of(a)?)),
        (b"xor", [a, b]) => Some(Action::Xor(operand_of(a)?, operand_of(b)?)),
        (b"mul", [a, b]) => Some(Action::Mul(operand_of(a)?, operand_of(b)?)),
        (b"app", [f, a]) => Some(Action::App(plain_name(f)?, operand_of(a)?)),
        (b"rand", []) => Some(Action::Rand),
        _ => None,
    }
}

/// The output record of 1 to 8 names.
fn output_of<'a>(names: &[&'a [u8]]) -> Option<Record<'a>> {
    if names.is_empty() || names.len() > MOST_SHARES {
        return None;
    }
    let names: Option<Vec<_>> = names.iter().map(|name| dotted_name(name)).collect();
    Some(Record::Output(names?))
}

/// A share count: one digit, 1 to 8.
fn share_count(field: &[u8]) -> Option<usize> {
    match field {
        [digit @ b'1'..=b'8'] => Some((digit - b'0') as usize),
        _ => None,
    }
}

/// A map's constant and its eight columns.
fn map_of(fields: &[&[u8]]) -> Option<Map> {
    if fields.len() != 9 {
        return None;
    }
    let mut columns = [0; 8];
    for (column, field) in columns.iter_mut().zip(&fields[1..]) {
        *column = hex_byte(field)?;
    }
    let constant = hex_byte(fields[0])?;
    Some(Map { constant, columns })
}

/// Two lower-case hex digits.
fn hex_byte(field: &[u8]) -> Option<u8> {
    match field {
        [high, low] => Some(hex_digit(*high)? << 4 | hex_digit(*low)?),
        _ => None,
    }
}

/// One lower-case hex digit.
fn hex_digit(byte: u8) -> Option<u8> {
    match byte {
        b'0'..=b'9' => Some(byte - b'0'),
        b'a'..=b'f' => Some(byte - b'a' + 10),
        _ => None,
    }
}

/// An operand: # and two digits, or a name.
pub fn operand_of(field: &[u8]) -> Option<Operand<'_>> {
    match field {
        [b'#', digits @ ..] => Some(Operand::Constant(hex_byte(digits)?)),
        _ => Some(Operand::Name(dotted_name(field)?)),
    }
}

/// A name without a dot part: a letter, then up to 11 of a to z, 0 to 9 and _.
pub fn plain_name(field: &[u8]) -> Option<&[u8]> {
    let (first, rest) = field.split_first()?;
    let begins = first.is_ascii_lowercase();
    let goes_on = rest
        .iter()
        .all(|byte| matches!(byte, b'a'..=b'z' | b'0'..=b'9' | b'_'));
    (begins && goes_on && field.len() <= MOST_NAME).then_some(field)
}

/// A name with or without a dot part: a dot and one digit 0 to 7.
fn dotted_name(field: &[u8]) -> Option<&[u8]> {
    match field {
        [stem @ .., b'.', b'0'..=b'7'] => plain_name(stem).map(|_| field),
        _ => plain_name(field),
    }
}
