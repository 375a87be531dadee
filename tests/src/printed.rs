//! What the program `vectors` must print: the published tables, coefficients, and for each text its
//! line, what run answers, and what judge leaves in its buffers; for the first texts more.

use crate::batch;
use crate::field::power;
use crate::judge::{judge_lent, judge_with, Judgement};
use crate::limits::{MOST_VARIABLES, WORK};
use crate::maps::{self, FIPS, SQUARING};
use crate::reading::{read, record_in};
use crate::texts::draft::{map_line, Draft};
use crate::texts::formulas::nested;
use crate::texts::lets::WAYS;
use crate::trials::{self, Trials, MOST_TRIALS};

/// What every lent byte is before a text is judged.
const BEFORE: u8 = 0xff;

/// How many texts, from the first on, are handed out record by record.
const HANDED: usize = 2;

/// More lines than each of them has.
const ENOUGH: usize = 40;

/// The bytes that the variables get, in order.
const BYTES: [u8; MOST_VARIABLES] = [
    0x53, 0xca, 0x01, 0xff, 0x80, 0x1b, 0x02, 0x63, 0xa5, 0x5a, 0x0e, 0xe5, 0x7d, 0x9c, 0x36, 0xc9,
];

/// The S-box as a text: x^254 by multiplications, then the map; masked, by squarings.
pub fn sbox_text() -> Vec<u8> {
    let mut draft = Draft::of("shares 1");
    draft.add(&map_line("f", &FIPS));
    draft.add(&map_line("sq", &SQUARING));
    draft.add_lines(
        "input x\norigin\nmul x2 x x\nmul x3 x2 x\nmul x6 x3 x3\nmul x12 x6 x6\nmul x15 x12 x3\n\
         mul x30 x15 x15\nmul x60 x30 x30\nmul x120 x60 x60\nmul x126 x120 x6\nmul x127 x126 x\n\
         mul x254 x127 x127\napp y f x254\nresult y\nmasked\napp x2 sq x.0\nmul x3 x2 x.0\n\
         app x6 sq x3\napp x12 sq x6\nmul x14 x12 x2\nmul x15 x12 x3\napp x30 sq x15\n\
         app x60 sq x30\napp x120 sq x60\napp x240 sq x120\nmul x254 x240 x14\napp y f x254\n\
         output y",
    );
    draft.text()
}

/// A text whose lines are refused by 3, 4, 5 and 13, with taken ones between them: lines with one
/// field not of its form, formulas nested 8 and 9 deep on each way in, whole and broken, and a last
/// line without its line feed.
pub fn handed_text() -> Vec<u8> {
    let mut draft = Draft::of("shares 1");
    draft.add(&map_line("f", &FIPS));
    draft.add_lines(
        "map g.0 63 1f 3e 7c f8 f1 e3 c7 8f\nmap g 6 1f 3e 7c f8 f1 e3 c7 8f\n\
         map g 63 1f 3e 7c f8 f1 e3 c7 8\ninput x\norigin\nset 1y x\nxor y 1x x\nxor y x 1x\n\
         app y f.0 x\napp y f 1x\nlet y x\nlet z xor(x,y",
    );
    for (way, before, behind) in WAYS {
        for (depth, end) in [(8, ""), (9, ""), (8, ")"), (9, ")"), (9, ")!")] {
            let formula = nested(before, "x", behind, depth);
            draft.add(&format!("let {way}{depth} {formula}{end}"));
        }
        draft.add(&format!("set {way} x"));
    }
    draft.add_lines("result y\nmasked\nlet y.0 xor(x.0,mul(#01,#00))\noutput y.0");
    draft.unended()
}

/// All that is printed before the texts.
pub fn tables() -> String {
    let nine = [&[FIPS.constant], &FIPS.columns[..]].concat();
    let ten = [&nine[..], &[0]].concat();
    let map = |name: &str, list: &[u8; 8]| format!("{name}{}\n", hexes(list));
    let mut lines = sbox_rows("sbox");
    lines += &map("fips_map", &FIPS.coefficients());
    lines += &map("square_map", &SQUARING.coefficients());
    lines += &list_line("eight_bytes", &nine[..8]);
    lines += &list_line("nine_bytes", &nine);
    lines + &list_line("ten_bytes", &ten)
}

/// What is printed for the text of this number, with these trials.
pub fn lines(at: usize, name: &str, text: &[u8], trials: Trials) -> String {
    let lent = [WORK + 1, WORK + 1, MOST_VARIABLES + 1];
    let mut lines = String::new();
    if at == 0 {
        lines += &sbox_rows("run");
        lines += &least_lists(text);
    }
    if at < HANDED {
        lines += &records(text);
    }
    lines += &format!("{name}\t{}", judge_with(text, trials).line());
    lines += &run_line(name, text);
    lines + &kept_line(name, text, trials, lent)
}

/// The answers with each buffer at its least length, and one below; and so with too many trials.
fn least_lists(text: &[u8]) -> String {
    let least = [WORK, WORK, MOST_VARIABLES];
    let short = |at: usize| {
        let mut lent = least;
        lent[at] -= 1;
        lent
    };
    let many = Trials {
        count: MOST_TRIALS + 1,
        start: 1,
    };
    [
        ("least", trials::DEFAULT, least),
        ("short_list", trials::DEFAULT, short(2)),
        ("short_left", trials::DEFAULT, short(0)),
        ("short_right", trials::DEFAULT, short(1)),
        ("many", many, least),
        ("many_short", many, short(2)),
    ]
    .map(|(name, trials, lent)| kept_line(name, text, trials, lent))
    .concat()
}

/// What is handed out at each place of a text: a line's number with its place and length, or with
/// the number that refuses it; then the end.
fn records(text: &[u8]) -> String {
    let (mut lines, mut from) = (vec![], 0);
    for bytes in text.split_inclusive(|byte| *byte == b'\n') {
        let number = lines.len() + 1;
        lines.push(match record_in(bytes) {
            Ok(_) => format!("record\t{number}\t{from}\t{}\n", bytes.len() - 1),
            Err(refusal) => format!("refused\t{number}\t{refusal}\n"),
        });
        from += bytes.len();
    }
    lines.resize(ENOUGH, "end\n".to_string());
    lines.concat()
}

/// The S-box of FIPS 197, a row for each high digit.
fn sbox_rows(name: &str) -> String {
    let at = |x| FIPS.value(power(x, 254));
    let row = |high: u8| {
        let bytes: Vec<u8> = (0..16).map(|low| at(high * 16 + low)).collect();
        format!("{name}_{high:x}{}\n", hexes(&bytes))
    };
    (0..16).map(row).collect()
}

/// What coefficients answers for a list of bytes: number, line and eight bytes.
fn list_line(name: &str, list: &[u8]) -> String {
    let (number, found) = match maps::coefficients(list) {
        Some(found) => (0, found),
        None => (12, [0; 8]),
    };
    format!("{name}\t{number}\t0{}\n", hexes(&found))
}

/// What run answers for a text, on a byte for each variable.
fn run_line(name: &str, text: &[u8]) -> String {
    let variables = read(text).map_or(0, |routine| routine.variables);
    let answer = batch::run(text, &BYTES[..variables]);
    let bytes = hexes(&[answer.original as u8, answer.joined as u8]);
    format!("{name}_run\t{}\t{}{bytes}\n", answer.refusal, answer.line)
}

/// The refusal's number, and how many bytes of each lent buffer are as they were.
fn kept_line(name: &str, text: &[u8], trials: Trials, lent: [usize; 3]) -> String {
    let Judgement { report, bytes } = judge_lent(text, trials, lent);
    let [left, right, list] = lent;
    let changed = bytes.iter().filter(|byte| **byte != BEFORE).count();
    let cleared = if report.refusal == 0 { WORK } else { 0 };
    let kept = [left - cleared, right - cleared, list - changed];
    let kept = kept.map(|count| count.to_string()).join("\t");
    format!("{name}_kept\t{}\t{kept}\n", report.refusal)
}

/// A tab and two hex digits for each byte.
fn hexes(bytes: &[u8]) -> String {
    bytes.iter().map(|byte| format!("\t{byte:02x}")).collect()
}
