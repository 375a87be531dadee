//! The unrolled form of an accepted text: each let as the statements that it counts as.

use crate::grammar::{record_of, Action, Operand, Record};
use std::collections::BTreeSet;

/// An unrolled text, and for each of its lines the line that it comes from.
pub struct Unrolled {
    pub text: Vec<u8>,
    sources: Vec<u64>,
}

/// Names q0, q1, .. for the inner values of a block, passing over those of the block's set.
#[derive(Default)]
struct Fresh {
    taken: BTreeSet<Vec<u8>>,
    next: usize,
}

/// The unrolled form of an accepted text; None where it has no let.
pub fn unrolled(text: &[u8]) -> Option<Unrolled> {
    let lines = text.strip_suffix(b"\n")?.split(|byte| *byte == b'\n');
    let record = |line| record_of(line).map(|record| (line, record));
    let records: Vec<(&[u8], Record)> = lines.map(record).collect::<Option<_>>()?;
    let is_let = |(_, record): &(&[u8], Record)| matches!(record, Record::Let(..));
    if !records.iter().any(is_let) {
        return None;
    }
    let is_masked = |(_, record): &(&[u8], Record)| *record == Record::Masked;
    let middle = records.iter().position(is_masked)?;
    let mut form = Unrolled {
        text: vec![],
        sources: vec![],
    };
    let (origin, masked) = records.split_at(middle);
    form.add_block(origin, 1);
    form.add_block(masked, middle as u64 + 1);
    Some(form)
}

impl Unrolled {
    /// The line of the text that a line of the unrolled form comes from; other numbers, 0 among
    /// them, stay as they are.
    pub fn source(&self, line: u64) -> u64 {
        let places = self.sources.iter().zip(1..);
        let mut found = places.filter(|(_, at)| *at == line);
        found.next().map_or(line, |(source, _)| *source)
    }

    /// Adds the records that give and read one set of names, from this line on.
    fn add_block(&mut self, records: &[(&[u8], Record)], first: u64) {
        let mut fresh = Fresh::of(records);
        for ((line, record), source) in records.iter().zip(first..) {
            match record {
                Record::Let(name, formula) => {
                    self.add_let(name, &formula.steps, &mut fresh, source)
                }
                _ => self.add_line(line, source),
            }
        }
    }

    /// Adds the statements of a let, the last one with its name.
    fn add_let(&mut self, name: &[u8], steps: &[Action], fresh: &mut Fresh, source: u64) {
        let mut names: Vec<Vec<u8>> = steps[1..].iter().map(|_| fresh.draw()).collect();
        names.push(name.to_vec());
        for (step, name) in steps.iter().zip(&names) {
            let part = |operand: &Operand| match operand {
                Operand::Name(name) => name.to_vec(),
                Operand::Constant(byte) => format!("#{byte:02x}").into_bytes(),
                Operand::Inner(at) => names[*at].clone(),
            };
            let fields = match step {
                Action::Set(a) => vec![b"set".to_vec(), name.clone(), part(a)],
                Action::Xor(a, b) => vec![b"xor".to_vec(), name.clone(), part(a), part(b)],
                Action::Mul(a, b) => vec![b"mul".to_vec(), name.clone(), part(a), part(b)],
                Action::App(f, a) => vec![b"app".to_vec(), name.clone(), f.to_vec(), part(a)],
                Action::Rand => vec![b"rand".to_vec(), name.clone()],
            };
            self.add_line(&fields.join(&b'\t'), source);
        }
    }

    /// Adds one line.
    fn add_line(&mut self, line: &[u8], source: u64) {
        self.text.extend_from_slice(line);
        self.text.push(b'\n');
        self.sources.push(source);
    }
}

impl Fresh {
    /// The names that the set of these records holds. Shares have a dot part, so no inner value
    /// can have the name of one.
    fn of(records: &[(&[u8], Record)]) -> Self {
        let given = |(_, record): &(&[u8], Record)| match record {
            Record::Input(name) | Record::Statement(name, _) | Record::Let(name, _) => {
                Some(name.to_vec())
            }
            _ => None,
        };
        Fresh {
            taken: records.iter().filter_map(given).collect(),
            next: 0,
        }
    }

    /// The next name that is not taken.
    fn draw(&mut self) -> Vec<u8> {
        loop {
            let name = format!("q{}", self.next).into_bytes();
            self.next += 1;
            if !self.taken.contains(&name) {
                return name;
            }
        }
    }
}

#[cfg(test)]
mod tests {
    use super::*;
    use crate::texts::draft::Draft;

    #[test]
    fn inner_values_pass_over_the_names_of_their_set() {
        let text = Draft::of(
            "shares 1\ninput q0\norigin\nlet a mul(xor(q0,#01),xor(q0,#02))\nset q2 a\nlet b q2\n\
             result b\nmasked\nlet q1 xor(mul(q0.0,q0.0),xor(#00,#ff))\noutput q1",
        );
        let expected = Draft::of(
            "shares 1\ninput q0\norigin\nxor q1 q0 #01\nxor q3 q0 #02\nmul a q1 q3\nset q2 a\n\
             set b q2\nresult b\nmasked\nmul q0 q0.0 q0.0\nxor q2 #00 #ff\nxor q1 q0 q2\noutput q1",
        );
        let form = unrolled(&text.text()).expect("there is a let");
        assert_eq!(form.text, expected.text());
        let lines = [1, 2, 3, 4, 4, 4, 5, 6, 7, 8, 9, 9, 9, 10];
        assert_eq!(form.sources, lines);
        assert!(unrolled(&expected.text()).is_none());
    }
}
