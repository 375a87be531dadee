//! The forms of the statement let: formulas that are taken, broken ones, and faulty lines.

use crate::maps::FIPS;
use crate::texts::draft::{map_line, Draft};

/// Formulas that are well formed, on the input x, the value xor and the maps f and app.
const TAKEN: [&str; 17] = [
    "x",
    "#05",
    "xor",
    "xor(x,#05)",
    "mul(x,x)",
    "app(f,x)",
    "app(f,#00)",
    "xor(#00,#ff)",
    "xor(mul(x,x),app(f,x))",
    "mul(xor(x,#01),xor(x,#02))",
    "app(f,app(f,x))",
    "xor(xor,xor)",
    "mul(xor,xor(xor,x))",
    "app(app,app(f,xor))",
    "xor(x,xor(x,xor(x,mul(x,x))))",
    "mul(mul(mul(mul(x,x),x),x),x)",
    "app(f,xor(app(f,mul(x,#02)),#63))",
];

/// Formulas that are not well formed.
const BROKEN: [&str; 69] = [
    "",
    "(",
    ")",
    ",",
    "()",
    "(x)",
    "(x,x)",
    "x(",
    "x)",
    "x()",
    "x,",
    ",x",
    "x,x",
    "xor(",
    "xor)",
    "xor()",
    "xor(x)",
    "xor(x,)",
    "xor(,x)",
    "xor(,)",
    "xor(x,x",
    "xor(x",
    "xor(x,",
    "xor(x,x))",
    "xor(x,x,x)",
    "xor(x,,x)",
    "xor(x,x)x",
    "xor(x,x),",
    "xor(x,x)(",
    "xor(x,x)xor(x,x)",
    "xor((x),x)",
    "xor((x,x)",
    "xor(x(x,x)",
    "(xor(x,x))",
    "xorx,x)",
    "xor(mul(x,x),x",
    "xor(mul(x,x,x)",
    "xor(mul(x),x,x)",
    "xor(x,mul(x,x)",
    "xor(x,mul(x,x)))",
    "xor(x,mulx,x))",
    "xor(mul,(x,x))",
    "add(x,x)",
    "set(x)",
    "rand()",
    "let(x)",
    "xo(x,x)",
    "xorr(x,x)",
    "xor.0(x,x)",
    "f(x)",
    "#05(x)",
    "app(x)",
    "app(f)",
    "app(f,)",
    "app(,x)",
    "app(f,x,x)",
    "app(f.0,x)",
    "app(#00,x)",
    "app(xor(x,x),x)",
    "app((f),x)",
    "app(abcdefghijklm,x)",
    "mul(x)",
    "mul(x,#0)",
    "mul(x,#0g)",
    "mul(x,#000)",
    "mul(x,x.8)",
    "mul(x,_x)",
    "mul(x,0)",
    "mul(abcdefghijklm,x)",
];

/// Lines of a let that are faulty elsewhere: the number that refuses each, and the line.
const LINES: [(u64, &str); 19] = [
    (5, "let"),
    (5, "let y"),
    (5, "let y x x"),
    (5, "let y xor x x"),
    (5, "let y xor(x, x)"),
    (5, "let  x"),
    (5, "let y.8 x"),
    (5, "let #05 x"),
    (5, "let xor(x,x) x"),
    (5, "let y,z x"),
    (5, "lets y x"),
    (3, "Let y x"),
    (3, "let y xor(x,~x)"),
    (3, "let y ~x"),
    (3, "let~y x"),
    (3, "let y Xor(x,x)"),
    (3, "let y xor[x,x]"),
    (3, "let y xor(x;x)"),
    (3, "let y mul(x,#0A)"),
];

/// A text up to its origin block, with the names that the formulas read.
fn head() -> Draft {
    let mut draft = Draft::of("shares 1");
    draft.add(&map_line("f", &FIPS));
    draft.add(&map_line("app", &FIPS));
    draft.add_lines("input x\norigin\nset xor x");
    draft
}

/// A text with a line that gives y in one of its blocks; the masked block has the names of the
/// origin block. In the line ~ stands for a blank.
fn with_line(line: &str, masked: bool) -> Vec<u8> {
    let mut draft = head();
    if masked {
        draft.add_lines("result xor\nmasked\nset x x.0\nset xor x.0");
    }
    let fields = line.split(' ').map(|field| field.replace('~', " "));
    draft.lines.push(fields.collect());
    draft.add_lines(match masked {
        true => "output y",
        false => "result y\nmasked\noutput x.0",
    });
    draft.text()
}

/// A text for each form, with a name and the refusal's number for each, 0 where it is taken.
pub fn cases() -> Vec<(String, Vec<u8>, u64)> {
    let mut all = vec![];
    for (at, formula) in TAKEN.iter().enumerate() {
        for (masked, block) in [(false, "origin"), (true, "masked")] {
            let text = with_line(&format!("let y {formula}"), masked);
            all.push((format!("let_taken_{block}_{at}"), text, 0));
        }
    }
    for (at, formula) in BROKEN.iter().enumerate() {
        let text = with_line(&format!("let y {formula}"), at % 2 == 1);
        all.push((format!("let_broken_{at}"), text, 5));
    }
    for (at, (number, line)) in LINES.iter().enumerate() {
        let text = with_line(line, at % 2 == 1);
        all.push((format!("let_line_{at}"), text, *number));
    }
    all
}
