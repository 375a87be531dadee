//! A routine run on many valuations at once: one column of bytes for each value.

use crate::field::product;
use crate::limits::MOST_VARIABLES;
use crate::reading::read;
use crate::report::{RunAnswer, WRONG_NUMBER};
use crate::routine::{Operation, Routine, Source, Statement};

/// One byte for each valuation.
pub type Column = Vec<u8>;

/// Runs a text on given bytes.
pub fn run(text: &[u8], bytes: &[u8]) -> RunAnswer {
    match read(text) {
        Err(refusal) => RunAnswer::refused(refusal),
        Ok(routine) if routine.variables != bytes.len() => RunAnswer::refused(WRONG_NUMBER),
        Ok(routine) => RunAnswer::taken(run_routine(&routine, bytes)),
    }
}

/// The original's result and the XOR of the output shares, for one byte for each variable.
pub fn run_routine(routine: &Routine, bytes: &[u8]) -> (u8, u8) {
    let variables: Vec<Column> = bytes.iter().map(|byte| vec![*byte]).collect();
    let (original, joined) = run_columns(routine, &variables, 1);
    (original[0], joined[0])
}

/// The same for `count` valuations, given as one column for each variable.
pub fn run_columns(routine: &Routine, variables: &[Column], count: usize) -> (Column, Column) {
    let shares = &variables[..routine.inputs * routine.shares];
    let inputs = shares.chunks(routine.shares.max(1));
    let inputs = inputs.map(|shares| join(shares.iter(), count)).collect();
    let evaluate = |block, values| block_values(routine, block, values, variables, count);
    let origin = evaluate(&routine.origin, inputs);
    let masked = evaluate(&routine.masked, shares.to_vec());
    let outputs = routine.outputs.iter().map(|at| &masked[*at]);
    (origin[routine.result].clone(), join(outputs, count))
}

/// All values of a block, from those that it begins with.
fn block_values(
    routine: &Routine,
    block: &[Statement],
    mut values: Vec<Column>,
    variables: &[Column],
    count: usize,
) -> Vec<Column> {
    for statement in block {
        let load = |source| match source {
            Source::Value(at) => values[at].clone(),
            Source::Byte(byte) => vec![byte; count],
        };
        let value = match statement.operation {
            Operation::Set(a) => load(a),
            Operation::Xor(a, b) => combine(load(a), load(b), |x, y| x ^ y),
            Operation::Mul(a, b) => combine(load(a), load(b), product),
            Operation::App(f, a) => load(a)
                .into_iter()
                .map(|x| routine.maps[f].value(x))
                .collect(),
            Operation::Rand(variable) => variables[variable].clone(),
        };
        values.push(value);
    }
    values
}

/// Two columns, byte by byte.
fn combine(mut left: Column, right: Column, operation: impl Fn(u8, u8) -> u8) -> Column {
    for (x, y) in left.iter_mut().zip(right) {
        *x = operation(*x, y);
    }
    left
}

/// The XOR of columns.
fn join<'a>(columns: impl Iterator<Item = &'a Column>, count: usize) -> Column {
    columns.fold(vec![0; count], |sum, column| {
        combine(sum, column.clone(), |x, y| x ^ y)
    })
}

/// Columns of `count` valuations, drawn byte by byte.
pub fn drawn_valuations(
    variables: usize,
    count: usize,
    mut draw: impl FnMut() -> u8,
) -> Vec<Column> {
    assert!(variables <= MOST_VARIABLES);
    let mut column = |_| (0..count).map(|_| draw()).collect();
    (0..variables).map(&mut column).collect()
}

/// Whether both results agree on every valuation of up to two variables.
pub fn equal_on_all(routine: &Routine) -> bool {
    let every = (0..=255).collect::<Vec<u8>>();
    let equal = |columns: &[Vec<u8>], count| {
        let (original, joined) = run_columns(routine, columns, count);
        original == joined
    };
    match routine.variables {
        0 => equal(&[], 1),
        1 => equal(&[every], 256),
        2 => (0..=255).all(|byte| equal(&[every.clone(), vec![byte; 256]], 256)),
        _ => true,
    }
}

#[cfg(test)]
mod tests {
    use super::*;
    use crate::maps::FIPS;
    use crate::texts::draft::{map_line, Draft};

    /// The S-box of FIPS 197 as the original: x^254, then the map.
    fn sbox_text() -> Vec<u8> {
        let mut draft = Draft::of("shares 1");
        draft.add(&map_line("f", &FIPS));
        draft.add_lines("input x\norigin\nset s0 x\nset p0 #01");
        for i in 1..8 {
            draft.add(&format!("mul s{i} s{0} s{0}", i - 1));
            draft.add(&format!("mul p{i} p{} s{i}", i - 1));
        }
        draft.add_lines("app y f p7\nresult y\nmasked\noutput x.0");
        draft.text()
    }

    #[test]
    fn some_bytes_of_the_published_sbox() {
        let text = sbox_text();
        for (x, y) in [
            (0x00, 0x63),
            (0x01, 0x7c),
            (0x10, 0xca),
            (0x53, 0xed),
            (0xff, 0x16),
        ] {
            let answer = run(&text, &[x]);
            assert_eq!((answer.original, answer.joined), (y, x as u64));
        }
        assert_eq!(run(&text, &[]).refusal, 11);
    }
}
