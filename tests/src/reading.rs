//! A text read into its routine, or its refusal: the first faulty line, the lowest number on it.

use crate::grammar::{is_allowed, record_of, Action, Operand, Record};
use crate::limits::*;
use crate::maps::Map;
use crate::report::Refusal;
use crate::routine::{Operation, Routine, Source, Statement};
use std::collections::BTreeMap;

/// Where the reader stands: what came last decides what may come next.
#[derive(Clone, Copy, Debug, PartialEq, Eq)]
enum Stage {
    Start,
    Maps,
    Inputs,
    Origin,
    Result,
    Masked,
    Output,
}

/// The names of one set, each with the place of its value.
type Names = BTreeMap<Vec<u8>, usize>;

/// What was read so far.
struct Reading {
    stage: Stage,
    routine: Routine,
    map_names: Names,
    origin_names: Names,
    masked_names: Names,
}

/// The routine that a text holds, or its refusal.
pub fn read(text: &[u8]) -> Result<Routine, Refusal> {
    if text.len() > MOST_TEXT {
        return Err(Refusal { number: 2, line: 0 });
    }
    let mut reading = Reading::new();
    let mut line = 0;
    for bytes in text.split_inclusive(|byte| *byte == b'\n') {
        line += 1;
        let taken = reading.take_line(bytes, line);
        taken.map_err(|number| Refusal { number, line })?;
    }
    if reading.stage != Stage::Output {
        line += 1;
        return Err(Refusal { number: 6, line });
    }
    Ok(reading.routine)
}

/// The record that a line holds, or the lowest of 3, 4, 5 and 13 that refuses it.
pub fn record_in(bytes: &[u8]) -> Result<Record<'_>, u64> {
    let ended = bytes.strip_suffix(b"\n");
    let content = ended.unwrap_or(bytes);
    ask(content.iter().all(|byte| is_allowed(*byte)), 3)?;
    ask(ended.is_some(), 4)?;
    let record = record_of(content).ok_or(5u64)?;
    let deep = matches!(&record, Record::Let(_, formula) if formula.depth > MOST_DEPTH);
    ask(!deep, 13)?;
    Ok(record)
}

/// The number of a refusal unless the condition holds.
fn ask(condition: bool, number: u64) -> Result<(), u64> {
    condition.then_some(()).ok_or(number)
}

impl Reading {
    /// Before the first line.
    fn new() -> Self {
        Reading {
            stage: Stage::Start,
            routine: Routine::default(),
            map_names: Names::new(),
            origin_names: Names::new(),
            masked_names: Names::new(),
        }
    }

    /// Takes one line, or tells the lowest number that refuses it.
    fn take_line(&mut self, bytes: &[u8], line: u64) -> Result<(), u64> {
        let record = record_in(bytes)?;
        self.stage = self.stage_after(&record).ok_or(6u64)?;
        match record {
            Record::Shares(count) => self.routine.shares = count,
            Record::Map(name, map) => self.take_map(name, map)?,
            Record::Input(name) => self.take_input(name)?,
            Record::Origin | Record::Masked => {}
            Record::Statement(name, action) => self.take_steps(name, &[action], line)?,
            Record::Let(name, formula) => self.take_steps(name, &formula.steps, line)?,
            Record::Result(name) => {
                self.routine.result = *self.origin_names.get(name).ok_or(8u64)?
            }
            Record::Output(names) => self.take_output(&names, line)?,
        }
        Ok(())
    }

    /// Where the reader stands after a record; None where the record may not stand here.
    fn stage_after(&self, record: &Record) -> Option<Stage> {
        match (self.stage, record) {
            (Stage::Start, Record::Shares(_)) => Some(Stage::Maps),
            (Stage::Maps, Record::Map(..)) => Some(Stage::Maps),
            (Stage::Maps | Stage::Inputs, Record::Input(_)) => Some(Stage::Inputs),
            (Stage::Maps | Stage::Inputs, Record::Origin) => Some(Stage::Origin),
            (Stage::Origin, Record::Statement(_, Action::Rand)) => None,
            (Stage::Origin, Record::Statement(..) | Record::Let(..)) => Some(Stage::Origin),
            (Stage::Origin, Record::Result(_)) => Some(Stage::Result),
            (Stage::Result, Record::Masked) => Some(Stage::Masked),
            (Stage::Masked, Record::Statement(..) | Record::Let(..)) => Some(Stage::Masked),
            (Stage::Masked, Record::Output(_)) => Some(Stage::Output),
            _ => None,
        }
    }

    /// A map gives its name in the set of maps.
    fn take_map(&mut self, name: &[u8], map: Map) -> Result<(), u64> {
        ask(!self.map_names.contains_key(name), 7)?;
        ask(self.routine.maps.len() < MOST_MAPS, 9)?;
        let at = self.map_names.len();
        self.map_names.insert(name.to_vec(), at);
        self.routine.maps.push(map);
        Ok(())
    }

    /// An input gives its name in the origin set and its shares' names in the masked set.
    fn take_input(&mut self, name: &[u8]) -> Result<(), u64> {
        let shares = self.routine.shares;
        ask(!self.origin_names.contains_key(name), 7)?;
        ask(self.routine.inputs < MOST_INPUTS, 9)?;
        ask(self.routine.variables + shares <= MOST_VARIABLES, 9)?;
        self.origin_names.insert(name.to_vec(), self.routine.inputs);
        for share in 0..shares {
            let dotted = [name, b".", &[b'0' + share as u8]].concat();
            let at = self.routine.variables + share;
            self.masked_names.insert(dotted, at);
        }
        self.routine.inputs += 1;
        self.routine.variables += shares;
        Ok(())
    }

    /// The operations of a line in their order, once their operands are found in the block's set;
    /// the last one gives the name there, the others have none.
    fn take_steps(&mut self, name: &[u8], steps: &[Action], line: u64) -> Result<(), u64> {
        let routine = &self.routine;
        let (names, begins, block) = match self.stage {
            Stage::Origin => (&self.origin_names, routine.inputs, &routine.origin),
            _ => (
                &self.masked_names,
                routine.inputs * routine.shares,
                &routine.masked,
            ),
        };
        let first = begins + block.len();
        ask(!names.contains_key(name), 7)?;
        let find = |step: &Action| self.operation_of(*step, names, first);
        let operations: Option<Vec<Operation>> = steps.iter().map(find).collect();
        let operations = operations.ok_or(8u64)?;
        let count = routine.origin.len() + routine.masked.len() + operations.len();
        let rands = |operation: &&Operation| matches!(operation, Operation::Rand(_));
        let drawn = operations.iter().filter(rands).count();
        ask(routine.variables + drawn <= MOST_VARIABLES, 9)?;
        ask(count <= MOST_STATEMENTS, 9)?;
        self.routine.variables += drawn;
        let (names, block) = match self.stage {
            Stage::Origin => (&mut self.origin_names, &mut self.routine.origin),
            _ => (&mut self.masked_names, &mut self.routine.masked),
        };
        names.insert(name.to_vec(), first + operations.len() - 1);
        let statement = |operation| Statement { line, operation };
        block.extend(operations.into_iter().map(statement));
        Ok(())
    }

    /// The operation with its names found, on a line whose first value has this place; None where
    /// a name isn't given above.
    fn operation_of(&self, action: Action, names: &Names, first: usize) -> Option<Operation> {
        let find = |operand| match operand {
            Operand::Name(name) => names.get(name).copied().map(Source::Value),
            Operand::Constant(byte) => Some(Source::Byte(byte)),
            Operand::Inner(at) => Some(Source::Value(first + at)),
        };
        Some(match action {
            Action::Set(a) => Operation::Set(find(a)?),
            Action::Xor(a, b) => Operation::Xor(find(a)?, find(b)?),
            Action::Mul(a, b) => Operation::Mul(find(a)?, find(b)?),
            Action::App(f, a) => Operation::App(*self.map_names.get(f)?, find(a)?),
            Action::Rand => Operation::Rand(self.routine.variables),
        })
    }

    /// The output line reads k different names of the masked set.
    fn take_output(&mut self, names: &[&[u8]], line: u64) -> Result<(), u64> {
        for (at, name) in names.iter().enumerate() {
            ask(!names[..at].contains(name), 7)?;
        }
        for name in names {
            let place = self.masked_names.get(*name).ok_or(8u64)?;
            self.routine.outputs.push(*place);
        }
        self.routine.output_line = line;
        ask(names.len() == self.routine.shares, 10)
    }
}
