//! Random gadgets that mask their original, and gadgets broken in one place.

use crate::random::Random;
use crate::texts::draft::{map_line, Draft};
use crate::texts::formulas::drawn;
use crate::texts::pairing::{draw_map, Pairing};

/// A gadget that masks its original; the size of its values is kept below about `most`.
pub fn gadget(random: &mut Random, most: usize) -> Draft {
    let shares = *random.pick(&[1, 1, 2, 2, 2, 3, 3, 3, 4, 4, 5, 6, 7, 8]);
    let inputs = random.below((16 / shares).min(4) + 1);
    let maps = if random.one_in(20) {
        8
    } else {
        random.below(3)
    };
    let mut pairing = Pairing::new(random, shares, inputs, maps);
    let steps = *pairing.random.pick(&[0, 1, 2, 2, 3, 3, 4, 5, 8]);
    for _ in 0..steps {
        step(&mut pairing, most);
    }
    if pairing.values.is_empty() {
        let operand = pairing.draw_operand();
        pairing.set(operand);
    }
    let last = pairing.values.len() - 1;
    let result = match pairing.random.one_in(4) {
        true => pairing.random.below(last + 1),
        false => last,
    };
    pairing.refresh(result);
    assemble(pairing, inputs, result)
}

/// One more value, or a refreshed one.
fn step(pairing: &mut Pairing, most: usize) {
    let a = pairing.draw_operand();
    let b = pairing.draw_operand();
    match pairing.random.below(8) {
        0 => pairing.set(a),
        1 | 2 => pairing.xor(a, b),
        3..=5 if a.size * b.size <= most => pairing.mul(a, b),
        6 if !pairing.maps.is_empty() && 8 * a.size < most => {
            let f = pairing.random.below(pairing.maps.len());
            pairing.app(f, a);
        }
        7 if !pairing.values.is_empty() => {
            let at = pairing.random.below(pairing.values.len());
            pairing.refresh(at);
        }
        _ => {}
    }
}

/// The text of both blocks.
fn assemble(pairing: Pairing, inputs: usize, result: usize) -> Draft {
    let mut draft = Draft::of(&format!("shares {}", pairing.shares));
    for (name, map) in &pairing.maps {
        draft.add(&map_line(name, map));
    }
    for input in &pairing.values[..inputs] {
        draft.add(&format!("input {}", input.name));
    }
    draft.add("origin");
    pairing.origin.iter().for_each(|line| draft.add(line));
    let value = &pairing.values[result];
    draft.add(&format!("result {}", value.name));
    draft.add("masked");
    pairing.masked.iter().for_each(|line| draft.add(line));
    let mut outputs = value.shares.clone();
    pairing.random.shuffle(&mut outputs);
    draft.add(&format!("output {}", outputs.join(" ")));
    draft
}

/// Statements of both blocks drawn without a plan.
pub fn unplanned(random: &mut Random) -> Draft {
    let shares = random.between(1, 4);
    let inputs = random.below((16 / shares).min(4) + 1);
    let mut draft = Draft::of(&format!("shares {shares}"));
    let maps = random.below(3);
    for i in 0..maps {
        draft.add(&map_line(&format!("f{i}"), &draw_map(random)));
    }
    let names: Vec<String> = (0..inputs).map(|i| format!("x{i}")).collect();
    names
        .iter()
        .for_each(|name| draft.add(&format!("input {name}")));
    draft.add("origin");
    let dotted = |name: &String| {
        (0..shares)
            .map(|i| format!("{name}.{i}"))
            .collect::<Vec<_>>()
    };
    let mut given: Vec<String> = names.iter().flat_map(dotted).collect();
    let mut origin = names.clone();
    let steps = random.between(1, 6);
    draw_block(random, &mut draft, &mut origin, maps, steps);
    draft.add(&format!("result {}", random.pick(&origin)));
    draft.add("masked");
    if shares * inputs < 16 && random.one_in(2) {
        draft.add("rand r");
        given.push("r".into());
    }
    let steps = random.between(shares, 10);
    draw_block(random, &mut draft, &mut given, maps, steps);
    let last = given.len() - shares;
    random.shuffle(&mut given[last..]);
    draft.add(&format!("output {}", given[last..].join(" ")));
    draft
}

/// So many statements, each of which may read all names given above.
fn draw_block(
    random: &mut Random,
    draft: &mut Draft,
    given: &mut Vec<String>,
    maps: usize,
    steps: usize,
) {
    let maps: Vec<String> = (0..maps).map(|i| format!("f{i}")).collect();
    for i in 0..steps {
        let mut operand = || match given.is_empty() || random.one_in(6) {
            true => format!("#{:02x}", random.byte()),
            false => random.pick(given).clone(),
        };
        let (a, b) = (operand(), operand());
        let name = format!("t{i}");
        draft.add(&match random.below(8) {
            0 => format!("set {name} {a}"),
            1 | 2 => format!("xor {name} {a} {b}"),
            3 if !maps.is_empty() => format!("app {name} {} {a}", random.pick(&maps)),
            4 => {
                let count = *random.pick(&[0, 1, 2, 2, 3, 3, 4, 5, 6, 8, 10]);
                format!("let {name} {}", drawn(random, count, given, &maps))
            }
            _ => format!("mul {name} {a} {b}"),
        });
        given.push(name);
    }
}

/// A gadget with one operand or statement changed.
pub fn broken(random: &mut Random, most: usize) -> Draft {
    let mut draft = gadget(random, most);
    let statements: Vec<usize> = (0..draft.count())
        .filter(|at| draft.lines[*at].len() > 2 && draft.lines[*at][0] != "output")
        .collect();
    if statements.is_empty() {
        return draft;
    }
    let at = *random.pick(&statements);
    let other = random.pick(&statements);
    let other = draft.lines[*other].clone();
    let line = &mut draft.lines[at];
    let last = line.len() - 1;
    match random.below(6) {
        0 => line[last] = format!("#{:02x}", random.byte()),
        1 if line[0] == "xor" => {
            line.truncate(3);
            line[0] = "set".into();
        }
        2 | 3 if line[0] == "xor" => line[0] = "mul".into(),
        2 | 3 if line[0] == "mul" => line[0] = "xor".into(),
        4 => line.swap(last, last - (last > 2) as usize),
        _ => line[last] = random.pick(&other[1..]).clone(),
    }
    draft
}
