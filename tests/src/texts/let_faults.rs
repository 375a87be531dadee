//! Faults on the line of a let, in pairs that can meet there.

use crate::texts::draft::Draft;
use crate::texts::formulas::{balanced, nested};

/// A text up to its origin block.
const ORIGIN: &str = "shares 2\ninput x\norigin\nset o x";
/// A text up to its masked block.
const MASKED: &str = "shares 2\ninput x\norigin\nset o x\nresult o\nmasked\nset y x.0";

/// Two refusal numbers, that which counts first, the lines before the faulty one, and the faulty
/// line, in which D and E stand for formulas nested 9 deep on x and on q, and F for 8 deep on x.
type Pair = (u64, u64, &'static str, &'static str);

/// Faults of one let.
const PAIRS: [Pair; 44] = [
    (3, 5, ORIGIN, "let p xor(X,x"),
    (3, 13, ORIGIN, "let p xor(D,x;)"),
    (3, 13, ORIGIN, "let P D"),
    (5, 13, ORIGIN, "let p xor(D,x"),
    (5, 13, ORIGIN, "let p D)"),
    (5, 13, ORIGIN, "let p D,x"),
    (5, 13, ORIGIN, "let p D x"),
    (5, 13, ORIGIN, "let p.8 D"),
    (5, 13, ORIGIN, "let D"),
    (5, 13, ORIGIN, "let D D"),
    (5, 13, ORIGIN, "let p xor(D,app(f.0,x))"),
    (5, 13, ORIGIN, "let p xor(app(f.0,x),D)"),
    (5, 13, ORIGIN, "set p D"),
    (5, 13, ORIGIN, "xor p D x"),
    (5, 6, "shares 2\ninput x", "let p xor(x"),
    (5, 7, ORIGIN, "let o xor(x)"),
    (5, 8, ORIGIN, "let p xor(q,q,q)"),
    (13, 6, "shares 2\ninput x", "let p D"),
    (13, 6, "", "let p D"),
    (13, 6, "shares 2\ninput x\norigin\nresult x", "let p D"),
    (13, 7, ORIGIN, "let o D"),
    (13, 7, MASKED, "let x.0 D"),
    (13, 8, ORIGIN, "let p E"),
    (13, 8, ORIGIN, "let p app(f,D)"),
    (13, 8, MASKED, "let p D"),
    (13, 13, ORIGIN, "let p D"),
    (13, 13, ORIGIN, "let p xor(F,x)"),
    (13, 13, ORIGIN, "let p mul(x,F)"),
    (6, 7, "shares 2\ninput x", "let x #00"),
    (6, 8, "shares 2\ninput x", "let p xor(q,x)"),
    (6, 8, "shares 2\ninput x\norigin\nresult x", "let p q"),
    (7, 8, ORIGIN, "let o xor(q,x)"),
    (7, 8, MASKED, "let x.1 app(f,x.0)"),
    (7, 7, ORIGIN, "let x F"),
    (8, 8, ORIGIN, "let p p"),
    (8, 8, ORIGIN, "let p xor(p,x)"),
    (8, 8, ORIGIN, "let p xor(xor(x,x),mul(x,p))"),
    (8, 8, ORIGIN, "let p app(p,x)"),
    (8, 8, MASKED, "let p mul(x.0,o)"),
    (8, 8, MASKED, "let p xor(y,x.2)"),
    (8, 8, ORIGIN, "let p xor"),
    (8, 8, ORIGIN, "let p q0"),
    (6, 6, ORIGIN, "let p F"),
    (6, 6, MASKED, "let p xor(mul(x.0,x.1),y)"),
];

/// Faults of a let whose last operation is the 257th statement.
const AT_STATEMENTS: [(u64, u64, &str); 6] = [
    (5, 9, "let t xor(x,xor(x,x)"),
    (13, 9, "let t D"),
    (13, 9, "let t1 D"),
    (7, 9, "let t1 xor(x,xor(x,x))"),
    (8, 9, "let t xor(x,xor(t,x))"),
    (9, 9, "let t xor(x,xor(x,x))"),
];

/// Every pair: both numbers, the first of which counts, and the text.
pub fn pairs() -> Vec<(u64, u64, Vec<u8>)> {
    let mut all = vec![];
    for (first, second, before, line) in PAIRS {
        let draft = Draft::of(&format!("{before}\n{}", spelled(line)));
        all.push((first, second, draft.text()));
        if first == 13 {
            all.push((4, first, draft.unended()));
        }
    }
    for (first, second, line) in AT_STATEMENTS {
        all.push((first, second, after_statements("", &spelled(line))));
    }
    all.push((6, 6, after_statements("", "let t x")));
    all.push((9, 9, after_statements("set t2 x", "let t x")));
    let last = after_statements("set t2 x", "let t xor(x,xor(x,x))");
    all.push((9, 9, last));
    all
}

/// A text with 255 statements of its origin block, then these lines.
fn after_statements(more: &str, line: &str) -> Vec<u8> {
    let formula = balanced("xor", "x", 255);
    let head = "shares 1\ninput x\norigin";
    Draft::of(&format!("{head}\nlet t1 {formula}\n{more}\n{line}")).text()
}

/// The line with its formulas in their places.
fn spelled(line: &str) -> String {
    line.replace('D', &nested("xor(x,", "x", ")", 9))
        .replace('E', &nested("mul(", "q", ",x)", 9))
        .replace('F', &nested("xor(", "x", ",x)", 8))
}
