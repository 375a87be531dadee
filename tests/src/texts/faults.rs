//! Two faults on one line, in every pair of numbers that can meet, and bytes of every value.

use crate::maps::FIPS;
use crate::texts::draft::{map_line, Draft};
use crate::texts::let_faults;

/// A text up to its origin block.
const ORIGIN: &str = "shares 2\ninput x\norigin\nset o x";
/// A text up to its masked block.
const MASKED: &str = "shares 2\ninput x\norigin\nset o x\nresult o\nmasked\nset y x.0";

/// Two refusal numbers, the lines before the faulty one, and the faulty line.
type Pair = (u64, u64, &'static str, &'static str);

/// Faults that meet on a line with its line feed.
const ENDED: [Pair; 29] = [
    (3, 5, ORIGIN, "set A.0"),
    (3, 6, ORIGIN, "rand R"),
    (3, 6, MASKED, "result O"),
    (3, 7, ORIGIN, "set o X"),
    (3, 8, ORIGIN, "xor p Q #00"),
    (3, 10, MASKED, "output Y"),
    (5, 6, ORIGIN, "rand r r"),
    (5, 6, "", "origin x"),
    (5, 7, ORIGIN, "set o #0g"),
    (5, 8, ORIGIN, "xor p q"),
    (5, 8, ORIGIN, "app p f.0 x"),
    (5, 10, MASKED, "output y y y y y y y y y"),
    (5, 10, MASKED, "output y.8"),
    (6, 7, ORIGIN, "input x"),
    (6, 7, ORIGIN, "rand o"),
    (6, 7, MASKED, "input x"),
    (6, 8, ORIGIN, "output q r"),
    (6, 8, MASKED, "result q"),
    (6, 10, ORIGIN, "output o"),
    (7, 8, ORIGIN, "xor o q #00"),
    (7, 8, MASKED, "set x.0 q"),
    (7, 8, MASKED, "output q q"),
    (7, 8, MASKED, "app y f x.0"),
    (7, 10, MASKED, "output y y x.0"),
    (8, 10, MASKED, "output q"),
    (8, 10, MASKED, "output y x.0 q"),
    (8, 8, MASKED, "xor q q p"),
    (10, 10, MASKED, "output y"),
    (10, 10, MASKED, "output y x.0 x.1"),
];

/// Faults that meet on a last line without its line feed.
const UNENDED: [Pair; 10] = [
    (3, 4, MASKED, "output y X"),
    (3, 4, "", "A"),
    (4, 5, MASKED, "output y #00"),
    (4, 5, MASKED, "outpu"),
    (4, 6, ORIGIN, "masked"),
    (4, 6, "shares 1", "shares 1"),
    (4, 7, MASKED, "output y y"),
    (4, 8, MASKED, "output y q"),
    (4, 10, MASKED, "output y"),
    (4, 4, MASKED, "output y x.0"),
];

/// Every pair, with a name for each and the number that counts: the lower one, but 13 comes just
/// after 5.
pub fn pairs() -> Vec<(String, Vec<u8>, u64)> {
    let mut all = vec![];
    let mut add = |low: u64, high: u64, text: Vec<u8>| {
        let name = format!("faults_{low}_{high}_{}", all.len());
        all.push((name, text, low));
    };
    for (low, high, before, line) in ENDED {
        add(low, high, Draft::of(&format!("{before}\n{line}")).text());
    }
    for (low, high, before, line) in UNENDED {
        let draft = Draft::of(&format!("{before}\n{line}"));
        add(low, high, draft.unended());
    }
    for (low, high, line) in AT_MAPS {
        let draft = with_line(eight_maps(), line);
        add(low, high, draft.text());
    }
    for (low, high, line) in AT_VARIABLES {
        let draft = with_line(Draft::of(SIXTEEN), line);
        add(low, high, draft.text());
        add(low.min(4), high, draft.unended());
    }
    for (low, high, line) in AT_STATEMENTS {
        add(low, high, with_line(most_statements(), line).text());
    }
    for (low, high, line) in AT_INPUTS {
        add(low, high, with_line(Draft::of(FOUR_INPUTS), line).text());
    }
    for (first, second, text) in let_faults::pairs() {
        add(first, second, text);
    }
    all
}

/// Faults of a ninth map.
const AT_MAPS: [(u64, u64, &str); 5] = [
    (3, 9, "map G 63 1f 3e 7c f8 f1 e3 c7 8f"),
    (5, 9, "map g 63 1f 3e 7c f8 f1 e3 c7"),
    (7, 9, "map f0 63 1f 3e 7c f8 f1 e3 c7 8f"),
    (9, 9, "map g 63 1f 3e 7c f8 f1 e3 c7 8f"),
    (5, 9, "map g.0 63 1f 3e 7c f8 f1 e3 c7 8f"),
];

/// A text of 16 variables up to its masked block.
const SIXTEEN: &str = "shares 8\ninput a\ninput b\norigin\nresult a\nmasked";
/// A text up to its fourth input.
const FOUR_INPUTS: &str = "shares 1\ninput a\ninput b\ninput c\ninput d";

/// Faults of a seventeenth variable.
const AT_VARIABLES: [(u64, u64, &str); 5] = [
    (3, 9, "rand R"),
    (5, 9, "rand r r"),
    (6, 9, "input c"),
    (7, 9, "rand a.0"),
    (9, 9, "rand r"),
];

/// Faults of a 257th statement.
const AT_STATEMENTS: [(u64, u64, &str); 6] = [
    (3, 9, "set T #00"),
    (5, 9, "set t #0"),
    (6, 9, "rand r"),
    (7, 9, "set t1 #00"),
    (8, 9, "set t t"),
    (9, 9, "set t x"),
];

/// Faults of a fifth input.
const AT_INPUTS: [(u64, u64, &str); 4] = [
    (3, 9, "input E"),
    (5, 9, "input e.0"),
    (7, 9, "input a"),
    (9, 9, "input e"),
];

/// The draft with one line more.
fn with_line(mut draft: Draft, line: &str) -> Draft {
    draft.add(line);
    draft
}

/// Eight maps, and no record after them.
fn eight_maps() -> Draft {
    let mut draft = Draft::of("shares 1");
    for i in 0..8 {
        draft.add(&map_line(&format!("f{i}"), &FIPS));
    }
    draft
}

/// 256 statements of the origin block, and no record after them.
fn most_statements() -> Draft {
    let mut draft = Draft::of("shares 1\ninput x\norigin");
    for i in 0..256 {
        draft.add(&format!("set t{i} x"));
    }
    draft
}

/// A text for each byte value, which stands in a name.
pub fn every_byte() -> Vec<(String, Vec<u8>)> {
    let mut all = vec![];
    for byte in 0..=255u8 {
        let head = b"shares\t1\norigin\nset\to\t#05\nresult\to\nmasked\nset\ty".to_vec();
        let text = [head, vec![byte], b"\t#05\noutput\ty\n".to_vec()].concat();
        all.push((format!("byte_{byte:02x}"), text));
    }
    all
}

/// Short texts: empty, blank lines, records alone, what stands before or in place of shares, and what follows the output line.
pub fn short_texts() -> Vec<(String, Vec<u8>)> {
    let whole = "shares\t1\norigin\nset\to\t#05\nresult\to\nmasked\nset\ty\t#05\noutput\ty\n";
    let mut all: Vec<(String, Vec<u8>)> = vec![];
    let mut add = |name: &str, text: String| all.push((name.into(), text.into_bytes()));
    add("empty", String::new());
    add("blank", "\n".into());
    add("blank_after_shares", "shares\t1\n\n".into());
    add("shares_twice", format!("shares\t1\n{whole}"));
    add("shares_missing", whole.replace("shares\t1\n", ""));
    add(
        "map_first",
        whole.replace(
            "shares\t1\n",
            "map\tf\t63\t1f\t3e\t7c\tf8\tf1\te3\tc7\t8f\n",
        ),
    );
    add("input_first", whole.replace("shares\t1\n", "input\tx\n"));
    add("blank_after_output", format!("{whole}\n"));
    add("record_after_output", format!("{whole}masked\n"));
    add("output_twice", format!("{whole}output\ty\n"));
    add("fault_after_output", format!("{whole}outputs\n"));
    add("byte_after_output", format!("{whole}A\n"));
    add("unended_after_output", format!("{whole}masked"));
    add("unended", whole.trim_end().into());
    add("return_line_feed", whole.replace('\n', "\r\n"));
    add("tab_at_end", whole.replace("origin\n", "origin\t\n"));
    add("tab_twice", whole.replace("set\to", "set\t\to"));
    add("tab_first", format!("\t{whole}"));
    add("blanks", whole.replace('\t', " "));
    add("own_name", whole.replace("set\ty\t#05", "set\ty\ty"));
    add("origin_name", whole.replace("set\ty\t#05", "set\ty\to"));
    add("capital_hex", whole.replace("y\t#05", "y\t#0A"));
    add("one_digit", whole.replace("y\t#05", "y\t#5"));
    add("three_digits", whole.replace("y\t#05", "y\t#005"));
    add("no_hash", whole.replace("y\t#05", "y\t05"));
    for (at, _) in whole.match_indices('\n') {
        add(&format!("ends_at_{at}"), whole[..at + 1].to_string());
        add(&format!("cut_at_{at}"), whole[..at].to_string());
    }
    all
}

#[cfg(test)]
mod tests {
    use super::*;
    use crate::judge::judge;

    #[test]
    fn the_number_that_comes_first_counts() {
        for (name, text, first) in pairs() {
            assert_eq!(judge(&text).report.refusal, first, "{name}");
        }
    }
}
