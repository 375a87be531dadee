//! The formula of a let: its operations in their order, and how deep they are nested.

use crate::grammar::{operand_of, plain_name, Action, Operand};

/// A well-formed formula: left part first, inner before outer; an operand alone is a set.
#[derive(Clone, Debug, PartialEq, Eq)]
pub struct Formula<'a> {
    pub steps: Vec<Action<'a>>,
    pub depth: usize,
}

/// What an operation of two parts does with them.
type Pair<'a> = fn(Operand<'a>, Operand<'a>) -> Action<'a>;

/// An operation that is begun and not yet closed.
enum Open<'a> {
    Left(Pair<'a>),
    Right(Pair<'a>, Operand<'a>),
    Image(&'a [u8]),
}

/// The bytes not yet read, the operations begun, and the formula of those that are closed.
struct Reader<'a> {
    rest: &'a [u8],
    open: Vec<Open<'a>>,
    formula: Formula<'a>,
}

/// The formula that a field holds; None where it is not well formed.
pub fn formula_of(field: &[u8]) -> Option<Formula<'_>> {
    let formula = Formula {
        steps: vec![],
        depth: 0,
    };
    let mut reader = Reader {
        rest: field,
        open: vec![],
        formula,
    };
    loop {
        let part = reader.part()?;
        let Some(whole) = reader.close(part)? else {
            continue;
        };
        if reader.formula.steps.is_empty() {
            reader.formula.steps.push(Action::Set(whole));
        }
        return reader.rest.is_empty().then_some(reader.formula);
    }
}

impl<'a> Reader<'a> {
    /// The next operand; the operations whose first part it stands in are begun.
    fn part(&mut self) -> Option<Operand<'a>> {
        loop {
            let word = self.word();
            if self.mark(b'(').is_none() {
                return operand_of(word);
            }
            let open = match word {
                b"xor" => Open::Left(Action::Xor),
                b"mul" => Open::Left(Action::Mul),
                b"app" => {
                    let map = plain_name(self.word())?;
                    self.mark(b',')?;
                    Open::Image(map)
                }
                _ => return None,
            };
            self.open.push(open);
            self.formula.depth = self.formula.depth.max(self.open.len());
        }
    }

    /// Closes the operations that end with this part: their value where none is left open, or
    /// nothing where a right part follows.
    fn close(&mut self, mut part: Operand<'a>) -> Option<Option<Operand<'a>>> {
        while let Some(open) = self.open.pop() {
            let step = match open {
                Open::Left(pair) => {
                    self.mark(b',')?;
                    self.open.push(Open::Right(pair, part));
                    return Some(None);
                }
                Open::Right(pair, left) => pair(left, part),
                Open::Image(map) => Action::App(map, part),
            };
            self.mark(b')')?;
            part = Operand::Inner(self.formula.steps.len());
            self.formula.steps.push(step);
        }
        Some(Some(part))
    }

    /// The bytes up to the next mark.
    fn word(&mut self) -> &'a [u8] {
        let mark = self.rest.iter().position(|byte| b"(),".contains(byte));
        let (word, rest) = self.rest.split_at(mark.unwrap_or(self.rest.len()));
        self.rest = rest;
        word
    }

    /// Passes over this mark, which must stand here.
    fn mark(&mut self, mark: u8) -> Option<()> {
        let (first, rest) = self.rest.split_first()?;
        (*first == mark).then(|| self.rest = rest)
    }
}

#[cfg(test)]
mod tests {
    use super::*;
    use crate::texts::formulas::{balanced, nested};

    /// A name as an operand.
    fn name(text: &str) -> Operand<'_> {
        Operand::Name(text.as_bytes())
    }

    /// The steps and the depth of a formula.
    fn read(text: &str) -> Option<(Vec<Action<'_>>, usize)> {
        formula_of(text.as_bytes()).map(|formula| (formula.steps, formula.depth))
    }

    #[test]
    fn left_part_first_and_inner_before_outer() {
        use Action::*;
        use Operand::*;
        assert_eq!(read("a.7"), Some((vec![Set(name("a.7"))], 0)));
        assert_eq!(read("#5f"), Some((vec![Set(Constant(0x5f))], 0)));
        assert_eq!(read("xor"), Some((vec![Set(name("xor"))], 0)));
        let one = vec![Xor(name("a"), Constant(1))];
        assert_eq!(read("xor(a,#01)"), Some((one, 1)));
        let steps = vec![
            Mul(name("a"), name("b")),
            App(b"f", name("c")),
            App(b"g", Inner(1)),
            Xor(Inner(0), Inner(2)),
            Mul(Inner(3), name("d")),
        ];
        let text = "mul(xor(mul(a,b),app(g,app(f,c))),d)";
        assert_eq!(read(text), Some((steps, 4)));
        let words = vec![App(b"app", name("app")), Xor(name("xor"), Inner(0))];
        assert_eq!(read("xor(xor,app(app,app))"), Some((words, 2)));
    }

    #[test]
    fn depth_is_the_longest_way_in() {
        for depth in [0, 1, 8, 9, 2_300] {
            let texts = [
                nested("xor(", "a", ",#00)", depth),
                nested("mul(a,", "a", ")", depth),
                nested("app(f,", "a", ")", depth),
            ];
            for text in texts {
                let (steps, found) = read(&text).expect("well formed");
                assert_eq!((steps.len(), found), (depth.max(1), depth));
                assert_eq!(read(&format!("{text})")), None);
                assert!(depth == 0 || read(&text[..text.len() - 1]).is_none());
            }
        }
        let most = balanced("xor", "a", 255);
        let (steps, depth) = read(&most).expect("well formed");
        assert_eq!((steps.len(), depth), (255, 8));
        assert_eq!(read(&"xor(".repeat(4_000)), None);
    }
}
