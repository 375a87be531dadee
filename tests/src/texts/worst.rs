//! The slowest texts that could be built for one insertion at a time.

use crate::maps::{Map, FIPS, SQUARING};
use crate::texts::draft::{map_line, Draft};
use crate::texts::lets;

/// The variables of a text of 4 inputs at 4 shares, in their order.
const VARIABLES: [&str; 16] = [
    "a.0", "a.1", "a.2", "a.3", "b.0", "b.1", "b.2", "b.3", "c.0", "c.1", "c.2", "c.3", "d.0",
    "d.1", "d.2", "d.3",
];

/// A text of 16 variables under construction in its masked block.
struct Masked {
    draft: Draft,
    count: usize,
}

/// The line of the map that squares so many times.
fn squaring_line(name: &str, times: usize) -> String {
    let mut list = [0; 8];
    list[times] = 1;
    map_line(name, &Map::of_coefficients(0, &list))
}

impl Masked {
    /// The text up to its masked block, with maps for the powers 2, 4 and 16.
    fn new() -> Self {
        let mut draft = Draft::of("shares 4");
        for (name, times) in [("q2", 1), ("q4", 2), ("q16", 4)] {
            draft.add(&squaring_line(name, times));
        }
        let head = "input a\ninput b\ninput c\ninput d\norigin\nset z #00\nresult z\nmasked";
        draft.add_lines(head);
        Masked { draft, count: 0 }
    }

    /// Adds a statement; answers the name that it gives.
    fn give(&mut self, word: &str, operands: &str) -> String {
        self.count += 1;
        let name = format!("t{}", self.count);
        self.draft.add(&format!("{word} {name} {operands}"));
        name
    }

    /// The product of two values.
    fn product(&mut self, a: &str, b: &str) -> String {
        self.give("mul", &format!("{a} {b}"))
    }

    /// The sum of two values.
    fn sum(&mut self, a: &str, b: &str) -> String {
        self.give("xor", &format!("{a} {b}"))
    }

    /// The product of several values.
    fn product_of(&mut self, values: &[String]) -> String {
        let mut product = values[0].clone();
        for value in &values[1..] {
            product = self.product(&product, value);
        }
        product
    }

    /// A variable to the power 255, by x^3, x^15 and the maps.
    fn power_255(&mut self, variable: &str) -> String {
        let mut power = variable.to_string();
        for map in ["q2", "q4", "q16"] {
            let raised = self.give("app", &format!("{map} {power}"));
            power = self.product(&power, &raised);
        }
        power
    }

    /// Ends the text: #00 against the last four values.
    fn end(mut self) -> Draft {
        let names: Vec<String> = (0..4).map(|i| format!("t{}", self.count - i)).collect();
        self.draft.add(&format!("output {}", names.join(" ")));
        self.draft
    }
}

/// Statements of the masked block where the origin block has one.
const MOST_MASKED: usize = 255;

/// Products that cancel: p·q = 0 with p = A + x^255·B and q = x·h, where x is the last variable.
/// The first half of the rows arrives in falling order, each row before all others. The second
/// half takes the terms out again, from the front where `from_front`, else from the back.
pub fn falling_products(from_front: bool) -> Draft {
    let mut masked = Masked::new();
    let x = VARIABLES[15];
    let (mut upper, mut lower, mut values) = (vec![], vec![], vec![x.to_string()]);
    for (at, u) in VARIABLES[10..15].iter().enumerate() {
        let sum = masked.sum(u, "#01");
        upper.push(sum.clone());
        lower.push(sum);
        if from_front && at >= 3 {
            // u^255 stands before u once u is a factor of q, and behind it in p
            let high = masked.power_255(u);
            lower[at] = masked.sum(u, &high);
        }
        values.push(u.to_string());
    }
    let high = masked.power_255(x);
    let upper = masked.product_of(&upper);
    let upper = masked.product(&upper, &high);
    let lower = masked.product_of(&lower);
    let p = masked.sum(&lower, &upper);
    let q = wide_factor(&mut masked, &values);
    while masked.count < MOST_MASKED {
        masked.product(&p, &q);
    }
    masked.end()
}

/// A product of these values and of a polynomial of 54 terms in the first four variables.
fn wide_factor(masked: &mut Masked, values: &[String]) -> String {
    let mut wide = masked.product_of(values);
    for (at, w) in VARIABLES[..4].iter().enumerate() {
        let mut factor = masked.sum(w, "#01");
        if at > 0 {
            let square = masked.product(w, w);
            factor = masked.sum(&factor, &square);
        }
        wide = masked.product(&wide, &factor);
    }
    wide
}

/// Sums of a polynomial with itself, again and again.
pub fn cancelling_sums() -> Draft {
    let mut masked = Masked::new();
    let factors: Vec<String> = VARIABLES[6..16]
        .iter()
        .map(|v| masked.sum(v, "#01"))
        .collect();
    let p = masked.product_of(&factors[..9]);
    while masked.count < MOST_MASKED {
        masked.sum(&p, &p);
    }
    masked.end()
}

/// A dense polynomial in the first variable that is 0 at all bytes but ff, times a sum of `wide`
/// terms in the others.
pub fn dense(wide: usize) -> Draft {
    let mut masked = Masked::new();
    let mut s = masked.sum(VARIABLES[0], "#ff");
    let mut p = s.clone();
    for _ in 1..8 {
        s = masked.give("app", &format!("q2 {s}"));
        p = masked.product(&p, &s);
    }
    let p = masked.sum(&p, "#01");
    let mut sum = VARIABLES[4].to_string();
    for v in &VARIABLES[5..4 + wide] {
        sum = masked.sum(&sum, v);
    }
    for _ in 0..3 {
        masked.give("set", "#00");
    }
    masked.product(&p, &sum);
    masked.end()
}

/// 256 statements with the longest names, each reading names given late.
pub fn most_statements() -> Draft {
    let mut draft = Draft::of("shares 1");
    for i in 0..8 {
        draft.add(&map_line(&format!("longest_map{i}"), &FIPS));
    }
    draft.add_lines("input longest_name\norigin");
    draft.add_lines("result longest_name\nmasked");
    let name = |i: usize| match i {
        0 => "longest_name.0".to_string(),
        _ => format!("longest_n{:03}.{}", i / 8, i % 8),
    };
    for i in 1..=256 {
        let line = format!("xor {} {} {}", name(i), name(i - 1), name(i.max(2) - 2));
        draft.add(&line);
    }
    draft.add(&format!("output {}", name(256)));
    draft
}

/// Applications of a map with eight nonzero coefficients to a wide sum.
pub fn wide_image() -> Draft {
    let mut draft = Draft::of("shares 8");
    draft.add(&map_line("f", &FIPS));
    draft.add(&map_line("q", &SQUARING));
    draft.add_lines("input a\ninput b\norigin\nmul c a b");
    for i in 0..5 {
        draft.add(&format!("app d{i} f c"));
    }
    draft.add_lines("result d0\nmasked");
    draft.add("output a.0 a.1 a.2 a.3 a.4 a.5 a.6 a.7");
    draft
}

/// 256 statements of 16 variables that are given up at the third, and whose two results agree on
/// every trial.
pub fn most_trials() -> Draft {
    let mut draft = Draft::of("shares 8");
    draft.add(&map_line("f", &FIPS));
    draft.add_lines("input a\ninput b\norigin\nmul c a a\nmul d c a\nmul e d d\nset z #00");
    draft.add_lines("result z\nmasked\nset t0 b.0");
    (1..=243).for_each(|at| draft.add(&format!("app t{at} f t{}", at - 1)));
    (0..8).for_each(|share| draft.add(&format!("set o.{share} #00")));
    draft.add("output o.0 o.1 o.2 o.3 o.4 o.5 o.6 o.7");
    draft
}

/// All worst texts with their names.
pub fn all() -> Vec<(&'static str, Draft)> {
    vec![
        (
            "products that fall, then cancel from the front",
            falling_products(true),
        ),
        (
            "products that fall, then cancel from the back",
            falling_products(false),
        ),
        ("sums that cancel", cancelling_sums()),
        ("dense, one variable", dense(1)),
        ("dense, times five terms", dense(5)),
        ("256 statements", most_statements()),
        ("255 operations in one formula", lets::longest()),
        ("images of 64 terms", wide_image()),
        ("256 trials of 256 statements", most_trials()),
    ]
}

#[cfg(test)]
mod tests {
    use super::*;
    use crate::judge::judge;
    use crate::report::Verdict;

    #[test]
    fn all_but_the_trials_are_decided() {
        let mut all = all();
        let (name, tried) = all.pop().unwrap();
        assert_eq!(
            judge(&tried.text()).line(),
            "unknown\t0\t8\t0\t256\t0\n",
            "{name}"
        );
        for (name, draft) in all {
            let judgement = judge(&draft.text());
            let verdict = judgement.report.verdict;
            let decided = matches!(verdict, Verdict::Equal | Verdict::Differs);
            assert!(decided, "{name}: {}", judgement.line());
        }
    }

    #[test]
    fn the_dense_ones_need_ff() {
        assert_eq!(judge(&dense(5).text()).bytes[0], 0xff);
    }
}
