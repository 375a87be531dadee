//! Texts with the statement let: every form, every depth, and the operations counted.

use crate::limits::MOST_STATEMENTS;
use crate::maps::FIPS;
use crate::random::Random;
use crate::texts::draft::{map_line, Draft};
use crate::texts::formulas::{balanced, nested};
use crate::texts::let_forms;

/// How a formula is nested: a name, and what stands before and behind the next depth.
pub const WAYS: [(&str, &str, &str); 3] = [
    ("left", "xor(", ",x)"),
    ("right", "mul(x,", ")"),
    ("image", "app(f,", ")"),
];

/// About as deep as a well-formed formula fits a text.
pub const MOST_LEVELS: usize = 2_300;

/// All stored texts, with a name and the refusal's number for each, 0 where it is taken.
pub fn cases() -> Vec<(String, Vec<u8>, u64)> {
    let mut all = let_forms::cases();
    all.extend(depth_cases());
    all.extend(count_cases());
    all
}

/// A text of lets alone with so many operations each.
pub fn counted(origin: &[usize], masked: &[usize]) -> Draft {
    let mut draft = Draft::of("shares 1\ninput x\norigin");
    let block = |draft: &mut Draft, counts: &[usize], first: &str| {
        for (at, count) in counts.iter().enumerate() {
            let word = ["mul", "xor"][at % 2];
            draft.add(&format!("let t{at} {}", balanced(word, first, *count)));
        }
        match counts.len() {
            0 => first.to_string(),
            count => format!("t{}", count - 1),
        }
    };
    let last = block(&mut draft, origin, "x");
    draft.add_lines(&format!("result {last}\nmasked"));
    let last = block(&mut draft, masked, "x.0");
    draft.add(&format!("output {last}"));
    draft
}

/// A text of one let of the most operations that its depth allows, with the longest names.
pub fn longest() -> Draft {
    let formula = balanced("xor", "longest_name.0", 255);
    let head = "shares 1\ninput longest_name\norigin\nset zero #00\nresult zero\nmasked";
    Draft::of(&format!(
        "{head}\nlet longest_sum_.7 {formula}\noutput longest_sum_.7"
    ))
}

/// A text of one let whose formula is x, so deep in it, and with bytes behind it.
pub fn deep(before: &str, behind: &str, depth: usize, end: &str) -> Vec<u8> {
    let formula = nested(before, "x", behind, depth);
    let mut draft = Draft::of("shares 1");
    draft.add(&map_line("f", &FIPS));
    draft.add_lines("input x\norigin");
    draft.add(&format!("let o {formula}{end}"));
    draft.add_lines("result o\nmasked\noutput x.0");
    draft.text()
}

/// A text of lets whose operations are together one less than allowed, as many, or one more.
pub fn near_count(random: &mut Random) -> Draft {
    let mut left = MOST_STATEMENTS - 1 + random.below(3);
    let mut counts = vec![];
    while left > 0 {
        let most = left.min(*random.pick(&[1, 3, 16, 255]));
        let count = random.between(1, most);
        left -= count;
        counts.push(count - (count == 1 && random.one_in(2)) as usize);
    }
    let (origin, masked) = counts.split_at(random.below(counts.len() + 1));
    counted(origin, masked)
}

/// Formulas up to 9 deep on each way in, some thousand deep, and broken at their end.
fn depth_cases() -> Vec<(String, Vec<u8>, u64)> {
    let mut all = vec![];
    for (way, before, behind) in WAYS {
        for (depth, number) in [(7, 0), (8, 0), (9, 13)] {
            let text = deep(before, behind, depth, "");
            all.push((format!("let_depth_{way}_{depth}"), text, number));
        }
        for depth in [8, 9] {
            let text = deep(before, behind, depth, ")");
            all.push((format!("let_depth_{way}_{depth}_broken"), text, 5));
        }
    }
    for (label, end, number) in [("", "", 13), ("_broken", ")", 5)] {
        let text = deep("xor(", ",x)", MOST_LEVELS, end);
        all.push((format!("let_depth_{MOST_LEVELS}{label}"), text, number));
    }
    let open = deep("xor(", "", 1_000, "");
    all.push(("let_depth_1000_open".into(), open, 5));
    all
}

/// 255, 256 and 257 statements by lets, in one block and in both.
fn count_cases() -> Vec<(String, Vec<u8>, u64)> {
    let case = |(origin, masked, number): (&[usize], &[usize], u64)| {
        let sum = |counts: &[usize]| counts.iter().map(|n| *n.max(&1)).sum::<usize>();
        let name = format!("let_statements_{}_{}", sum(origin), sum(masked));
        (name, counted(origin, masked).text(), number)
    };
    let counts: [(&[usize], &[usize], u64); 6] = [
        (&[255], &[], 0),
        (&[255], &[0], 0),
        (&[255], &[2], 9),
        (&[1], &[255], 0),
        (&[1, 0], &[255], 9),
        (&[100, 0, 27], &[60, 68], 0),
    ];
    counts.into_iter().map(case).collect()
}

#[cfg(test)]
mod tests {
    use super::*;
    use crate::judge::judge;

    #[test]
    fn each_has_its_number() {
        for (name, text, number) in cases() {
            assert!(text.len() <= 16_384, "{name}");
            assert_eq!(judge(&text).report.refusal, number, "{name}");
        }
    }
}
