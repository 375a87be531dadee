//! Statements of a draft folded into formulas, so that the values that are left stay the same.

use crate::limits::MOST_DEPTH;
use crate::random::Random;
use crate::texts::draft::Draft;
use crate::texts::formulas::depth_of;
use std::collections::BTreeMap;

/// The formulas of a block's names so far: of those whose line is dropped, and of the others.
#[derive(Default)]
struct Held {
    dropped: BTreeMap<String, String>,
    kept: BTreeMap<String, String>,
}

/// The draft with many of its statements in formulas; seldom one is nested too deep.
pub fn folded(random: &mut Random, draft: &Draft) -> Draft {
    let mut new = Draft::default();
    let mut held = Held::default();
    for (at, line) in draft.lines.iter().enumerate() {
        if line[0] == "masked" {
            held = Held::default();
        }
        let Some((formula, changed)) = held.formula_of(random, line) else {
            new.lines.push(line.clone());
            continue;
        };
        let name = &line[1];
        let room = depth_of(&formula) < MOST_DEPTH || random.one_in(8);
        if room && read_once(&draft.lines[at + 1..], name) && !random.one_in(3) {
            held.dropped.insert(name.clone(), formula);
            continue;
        }
        new.lines.push(match changed || random.one_in(2) {
            true => vec!["let".into(), name.clone(), formula.clone()],
            false => line.clone(),
        });
        held.kept.insert(name.clone(), formula);
    }
    new
}

impl Held {
    /// The formula of a statement's line, and whether another one stands in it; None for lines of
    /// other words or with a wrong number of fields.
    fn formula_of(&self, random: &mut Random, line: &[String]) -> Option<(String, bool)> {
        let fields: Vec<&str> = line.iter().map(String::as_str).collect();
        let mut changed = false;
        let mut part = |name: &str| {
            let part = self.part(random, name);
            changed |= part != name;
            part
        };
        let formula = match fields[..] {
            ["set", _, a] => part(a),
            [word @ ("xor" | "mul"), _, a, b] => format!("{word}({},{})", part(a), part(b)),
            ["app", _, f, a] => format!("app({f},{})", part(a)),
            _ => return None,
        };
        Some((formula, changed))
    }

    /// What stands for an operand: the formula of its dropped line, seldom that of another.
    fn part(&self, random: &mut Random, name: &str) -> String {
        let short = |formula: &&String| depth_of(formula) + 1 < MOST_DEPTH;
        let copied = self.kept.get(name).filter(short);
        let copied = copied.filter(|_| random.one_in(8));
        let formula = self.dropped.get(name).or(copied);
        formula.map_or(name, String::as_str).to_string()
    }
}

/// Whether the lines of the block read a name once, and in a statement.
fn read_once(lines: &[Vec<String>], name: &str) -> bool {
    let mut reads = 0;
    for line in lines {
        let first = match line[0].as_str() {
            "result" | "output" => return reads == 1 && !line[1..].iter().any(|read| read == name),
            "app" => 3,
            _ => 2,
        };
        reads += line.iter().skip(first).filter(|read| *read == name).count();
    }
    false
}

#[cfg(test)]
mod tests {
    use super::*;
    use crate::judge::judge;
    use crate::report::Verdict;
    use crate::texts::gadgets::gadget;

    #[test]
    fn folded_gadgets_mask_their_original() {
        let mut random = Random::new(1);
        let (mut lets, mut deep) = (0, 0);
        for _ in 0..400 {
            let draft = gadget(&mut random, 20);
            let folded = folded(&mut random, &draft);
            lets += folded.lines.iter().filter(|line| line[0] == "let").count();
            let report = judge(&folded.text()).report;
            match report.refusal {
                13 => deep += 1,
                _ => assert_ne!(report.verdict, Verdict::Differs, "{folded:?}"),
            }
        }
        assert!(lets > 400 && deep < 40);
    }
}
