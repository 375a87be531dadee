//! Formulas for the statement let: nested to a depth, of a number of operations, drawn, broken.

use crate::random::Random;

/// Words that begin no operation.
const WORDS: [&str; 9] = [
    "add", "set", "rand", "let", "xo", "xorr", "mul.0", "#05", "",
];

/// What may stand where an operand does, and is mostly none.
const PARTS: [&str; 16] = [
    "",
    "x",
    "#00",
    "#0",
    "#000",
    "#0g",
    "x.8",
    "x.",
    "_x",
    "7",
    "()",
    "(x)",
    "X",
    " x",
    "abcdefghijklm",
    "xor(x,x)",
];

/// A formula nested so deep around its core, by what stands before and behind it at each depth.
pub fn nested(before: &str, core: &str, behind: &str, depth: usize) -> String {
    format!("{}{core}{}", before.repeat(depth), behind.repeat(depth))
}

/// A formula of so many operations of one word on one operand, nested as little as can be.
pub fn balanced(word: &str, operand: &str, count: usize) -> String {
    if count == 0 {
        return operand.to_string();
    }
    let left = (count - 1) / 2;
    let right = count - 1 - left;
    format!(
        "{word}({},{})",
        balanced(word, operand, left),
        balanced(word, operand, right)
    )
}

/// A formula of so many operations; constants stand in it where no operand is given.
pub fn drawn(random: &mut Random, count: usize, operands: &[String], maps: &[String]) -> String {
    if count == 0 {
        return match operands.is_empty() || random.one_in(6) {
            true => format!("#{:02x}", random.byte()),
            false => random.pick(operands).clone(),
        };
    }
    if !maps.is_empty() && random.one_in(4) {
        let map = random.pick(maps).clone();
        return format!("app({map},{})", drawn(random, count - 1, operands, maps));
    }
    let word = *random.pick(&["xor", "xor", "mul"]);
    let left = random.below(count);
    let first = drawn(random, left, operands, maps);
    let second = drawn(random, count - 1 - left, operands, maps);
    format!("{word}({first},{second})")
}

/// How deep the parentheses of a formula are nested.
pub fn depth_of(formula: &str) -> usize {
    let (mut depth, mut most) = (0usize, 0);
    for byte in formula.bytes() {
        match byte {
            b'(' => depth += 1,
            b')' => depth = depth.saturating_sub(1),
            _ => {}
        }
        most = most.max(depth);
    }
    most
}

/// A formula changed in one place: mostly not well formed, or nested too deep.
pub fn broken(random: &mut Random, formula: &str) -> String {
    let mut text = formula.to_string();
    let marks: Vec<usize> = text.match_indices(['(', ')', ',']).map(|m| m.0).collect();
    let mark = if marks.is_empty() {
        0
    } else {
        *random.pick(&marks)
    };
    let at = random.below(text.len() + 1);
    match random.below(11) {
        0 | 1 if !marks.is_empty() => {
            text.remove(mark);
        }
        2 => text.insert(at, *random.pick(&['(', ')', ',', ' ', 'A', '\t', '.', '#'])),
        3 if !marks.is_empty() => text.insert(mark, ','),
        4 => text = with_word(random, &text),
        5 => text = with_dot(random, &text),
        6 | 7 => text = with_part(random, &text),
        8 => text.truncate(at),
        9 => text = text.to_uppercase(),
        _ => {
            let depth = random.between(1, 9);
            text = nested("xor(", &text, ",#00)", depth);
        }
    }
    text
}

/// The places of the words of a formula: what stands between two marks.
fn words_of(text: &str) -> Vec<(usize, usize)> {
    let mut words = vec![];
    let mut from = 0;
    for (at, byte) in text.bytes().chain([b',']).enumerate() {
        if b"(),".contains(&byte) {
            words.push((from, at));
            from = at + 1;
        }
    }
    words
}

/// The formula with a dot part at the name of its first map, or at one of its words.
fn with_dot(random: &mut Random, text: &str) -> String {
    let map = text.find("app(").and_then(|from| {
        let comma = text[from..].find(',')?;
        Some(from + comma)
    });
    let at = map.unwrap_or_else(|| random.pick(&words_of(text)).1);
    format!("{}.0{}", &text[..at], &text[at..])
}

/// The formula with the word of one operation changed.
fn with_word(random: &mut Random, text: &str) -> String {
    let (from, to) = *random.pick(&words_of(text));
    let word = match random.one_in(3) {
        true => *random.pick(&["xor", "mul", "app"]),
        false => *random.pick(&WORDS),
    };
    format!("{}{word}{}", &text[..from], &text[to..])
}

/// The formula with one word changed to what may stand for an operand, often nothing.
fn with_part(random: &mut Random, text: &str) -> String {
    let (from, to) = *random.pick(&words_of(text));
    let part = match random.one_in(3) {
        true => "",
        false => random.pick(&PARTS),
    };
    format!("{}{part}{}", &text[..from], &text[to..])
}
