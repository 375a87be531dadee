//! Texts damaged in their bytes, their fields and their lines.

use crate::maps::FIPS;
use crate::random::Random;
use crate::texts::draft::{map_line, Draft};
use crate::texts::formulas;

/// Fields that are not of their form, or of another one's.
const FIELDS: [&str; 25] = [
    "",
    "x",
    "x.0",
    "x.7",
    "x.8",
    "x.",
    ".0",
    "#00",
    "#0",
    "#000",
    "#0g",
    "00",
    "0",
    "1",
    "8",
    "9",
    "f",
    "_a",
    "a_",
    "abcdefghijkl",
    "abcdefghijklm",
    "abcdefghijkl.3",
    "xor",
    "xor(x,x)",
    "mul(#02,xor(x,x.0)",
];

/// The words of records, and words that are none.
const WORDS: [&str; 15] = [
    "shares", "map", "input", "origin", "set", "xor", "mul", "app", "rand", "result", "masked",
    "output", "", "sets", "let",
];

/// A text with one to three faults, several of them often on one line.
pub fn damaged(random: &mut Random, mut draft: Draft) -> Vec<u8> {
    let at = random.below(draft.count().max(1));
    for _ in 0..random.between(1, 2) {
        let line = if random.one_in(3) {
            random.below(draft.count().max(1))
        } else {
            at
        };
        match random.below(10) {
            0 | 1 => damage_lines(random, &mut draft, line),
            2..=8 => damage_fields(random, &mut draft, line),
            _ => {}
        }
    }
    let mut text = draft.text();
    if random.one_in(4) {
        damage_bytes(random, &mut text);
    }
    if random.one_in(12) {
        text.pop();
    }
    text
}

/// A text with a formula nested too deep or broken, and often a second fault on its line.
pub fn damaged_let(random: &mut Random, mut draft: Draft) -> Vec<u8> {
    let is_let = |at: &usize| draft.lines[*at][0] == "let";
    let lets: Vec<usize> = (0..draft.count()).filter(is_let).collect();
    if lets.is_empty() {
        return draft.text();
    }
    let at = *random.pick(&lets);
    let line = &mut draft.lines[at];
    line[2] = match random.one_in(3) {
        true => formulas::broken(random, &line[2]),
        false => {
            let part = *random.pick(&["#00", "#00", "x", "not_given"]);
            let depth = random.between(4, 9);
            formulas::nested("xor(", &line[2], &format!(",{part})"), depth)
        }
    };
    match random.below(4) {
        0 => damage_lines(random, &mut draft, at),
        1 => damage_fields(random, &mut draft, at),
        2 => draft.lines[at][1] = random.pick(&draft.lines[at / 2]).clone(),
        _ => {}
    }
    draft.text()
}

/// A line dropped, doubled, swapped, moved, added behind the last, or a word alone added.
fn damage_lines(random: &mut Random, draft: &mut Draft, at: usize) {
    let count = draft.count();
    if at >= count {
        return;
    }
    let other = random.below(count);
    match random.below(7) {
        0 => {
            draft.lines.remove(at);
        }
        1 => draft.lines.insert(other, draft.lines[at].clone()),
        2 => draft.lines.swap(at, other),
        3 => {
            let line = draft.lines.remove(at);
            let to = random.below(draft.count() + 1);
            draft.lines.insert(to, line);
        }
        4 => draft.lines.truncate(at),
        5 => draft.lines.push(draft.lines[other].clone()),
        _ => draft
            .lines
            .insert(other, vec![random.pick(&WORDS).to_string()]),
    }
}

/// A field changed, dropped, doubled or taken from elsewhere.
fn damage_fields(random: &mut Random, draft: &mut Draft, at: usize) {
    if at >= draft.count() || draft.lines[at].is_empty() {
        return;
    }
    let other = random.below(draft.count());
    let foreign = match draft.lines[other].is_empty() {
        true => String::new(),
        false => random.pick(&draft.lines[other]).clone(),
    };
    let line = &mut draft.lines[at];
    let field = random.below(line.len());
    if line[0] == "let" && line.len() == 3 && random.one_in(2) {
        line[2] = formulas::broken(random, &line[2]);
        return;
    }
    match random.below(8) {
        0 => line[field] = random.pick(&FIELDS).to_string(),
        1 => line[0] = random.pick(&WORDS).to_string(),
        2 | 3 => line[field] = foreign,
        4 => {
            line.remove(field);
        }
        5 => line.insert(field, foreign),
        6 => line[field] = line[line.len() - 1].clone(),
        _ => {
            let last = line.len() - 1;
            line[last] = format!("{}.{}", line[last], random.below(10));
        }
    }
}

/// A byte changed, dropped, added or doubled, or the text cut.
fn damage_bytes(random: &mut Random, text: &mut Vec<u8>) {
    if text.is_empty() {
        return;
    }
    let at = random.below(text.len());
    match random.below(6) {
        0 => text[at] = random.byte(),
        1 => text[at] = *random.pick(b"\t\n\r #._(),az09AZ"),
        2 => {
            text.remove(at);
        }
        3 => text.insert(at, *random.pick(b"\t\n\r #._(),az09AZ")),
        4 => text.insert(at, text[at]),
        _ => text.truncate(at),
    }
}

/// A text whose statement, map, input, variable or output is one too many, or just not.
pub fn crowded(random: &mut Random) -> Draft {
    let shares = random.between(1, 8);
    let mut draft = Draft::of(&format!("shares {shares}"));
    let maps = *random.pick(&[0, 0, 7, 8, 9]);
    for i in 0..maps {
        let name = if random.one_in(16) { 0 } else { i };
        draft.add(&map_line(&format!("f{name}"), &FIPS));
    }
    let fit = (16 / shares).min(4);
    let inputs = random.below(fit + 1) + random.one_in(6) as usize;
    for i in 0..inputs {
        draft.add(&format!("input x{i}"));
    }
    draft.add_lines("origin\nset o #05\nresult o\nmasked");
    let free = 16usize.saturating_sub(inputs * shares);
    let rands = random.below(free + 1) + random.one_in(4) as usize;
    for i in 0..rands {
        draft.add(&format!("rand r{i}"));
    }
    let names = random.between(1, 8).max(shares * random.below(2));
    let names = if random.one_in(2) { shares } else { names };
    let mut output = "output".to_string();
    for i in 0..names {
        draft.add(&format!("set y{i} #{:02x}", if i == 0 { 5 } else { 0 }));
        let read = if random.one_in(24) {
            random.below(9)
        } else {
            i
        };
        output.push_str(&format!(" y{read}"));
    }
    draft.add(&output);
    draft
}
