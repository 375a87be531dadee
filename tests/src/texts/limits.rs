//! Texts on both sides of each limit.

use crate::limits::*;
use crate::maps::FIPS;
use crate::texts::draft::{map_line, Draft};
use crate::texts::names;

/// The shortest blocks.
const ENDS: &str = "origin\nset o #05\nresult o\nmasked\nset y #05\noutput y";

/// A draft that begins with some lines and goes on as the shortest routine does.
fn ended(head: Draft) -> Draft {
    let mut draft = head;
    draft.add_lines(ENDS);
    draft
}

/// A text of so many maps.
pub fn maps(count: usize) -> Draft {
    let mut draft = Draft::of("shares 1");
    for i in 0..count {
        draft.add(&map_line(&format!("f{i}"), &FIPS));
    }
    ended(draft)
}

/// A text of so many inputs at k shares, and so many rands.
pub fn variables(shares: usize, inputs: usize, rands: usize) -> Draft {
    let mut draft = Draft::of(&format!("shares {shares}"));
    for i in 0..inputs {
        draft.add(&format!("input x{i}"));
    }
    draft.add_lines("origin\nset o #05\nresult o\nmasked");
    for i in 0..rands {
        draft.add(&format!("rand r{i}"));
    }
    let mut output = "output".to_string();
    for share in 0..shares {
        let value = if share == 0 { "#05" } else { "#00" };
        draft.add(&format!("set y.{share} {value}"));
        output.push_str(&format!(" y.{share}"));
    }
    draft.add(&output);
    draft
}

/// A text of so many statements in each block; the last one of the text is a rand where asked.
pub fn statements(origin: usize, masked: usize, rand_last: bool) -> Draft {
    let mut draft = Draft::of("shares 1\ninput x\norigin");
    let last = chain(&mut draft, origin, "x", 1);
    draft.add(&format!("result {last}"));
    draft.add("masked");
    let last = chain(&mut draft, masked - rand_last as usize, "x.0", 3);
    if rand_last {
        draft.add("rand r");
    }
    draft.add(&format!("output {last}"));
    draft
}

/// Adds so many statements, each of which reads the one above it and a constant of its own;
/// answers the last name.
fn chain(draft: &mut Draft, count: usize, first: &str, step: usize) -> String {
    let mut last = first.to_string();
    for i in 0..count {
        let byte = (i * step + 1) % 256;
        draft.add(&format!("xor t{i} {last} #{byte:02x}"));
        last = format!("t{i}");
    }
    last
}

/// A text of exactly so many bytes: statements with long names, the last line cut to fit.
pub fn length(bytes: usize) -> Vec<u8> {
    let name = |at: usize| format!("name_{at:07}.{}", at % 8);
    let mut text = format!("shares\t1\norigin\nset\t{}\t#05\n", name(0));
    let mut at = 1;
    while text.len() < bytes {
        let (new, read) = (name(at), name(at - 1));
        text.push_str(&format!("xor\t{new}\t{read}\t{read}\n"));
        at += 1;
    }
    let mut text = text.into_bytes();
    text.truncate(bytes);
    if let Some(last) = text.last_mut() {
        *last = b'\n';
    }
    text
}

/// Every limit from both sides, with a name for each.
pub fn both_sides() -> Vec<(String, Vec<u8>)> {
    let mut all = count_cases();
    all.extend(variable_cases());
    all.extend(share_cases());
    all.extend(names::cases());
    all.push(("length_16384".into(), length(MOST_TEXT)));
    all.push(("length_16385".into(), length(MOST_TEXT + 1)));
    all
}

/// Maps, inputs and statements.
fn count_cases() -> Vec<(String, Vec<u8>)> {
    let mut all = vec![];
    for count in [0, 1, 8, 9] {
        all.push((format!("maps_{count}"), maps(count).text()));
    }
    for count in [0, 1, 4, 5] {
        all.push((format!("inputs_{count}"), variables(1, count, 0).text()));
    }
    for (origin, masked) in [(128, 128), (128, 129), (257, 0)] {
        let name = format!("statements_{origin}_{masked}");
        all.push((name, statements(origin, masked, false).text()));
    }
    for masked in [256, 257] {
        let name = format!("statements_0_{masked}_rand");
        all.push((name, statements(0, masked, true).text()));
    }
    all
}

/// Variables by input and by rand, at each number of shares.
fn variable_cases() -> Vec<(String, Vec<u8>)> {
    let mut all = vec![];
    let mut add = |shares, inputs, rands| {
        let name = format!("variables_{shares}_{inputs}_{rands}");
        all.push((name, variables(shares, inputs, rands).text()));
    };
    for shares in 1..=MOST_SHARES {
        let most = (MOST_VARIABLES / shares).min(MOST_INPUTS);
        let free = MOST_VARIABLES - most * shares;
        add(shares, most + 1, 0);
        add(shares, most, free);
        add(shares, most, free + 1);
    }
    add(1, 0, MOST_VARIABLES);
    add(1, 0, MOST_VARIABLES + 1);
    all
}

/// Share counts 0 to 9, with as many output names.
fn share_cases() -> Vec<(String, Vec<u8>)> {
    let case = |count: usize| {
        let head = format!("shares {count}\norigin\nset o #00\nresult o\nmasked");
        let mut draft = Draft::of(&head);
        let names: Vec<String> = (0..count).map(|i| format!("y{i}")).collect();
        for name in &names {
            draft.add(&format!("set {name} #00"));
        }
        draft.add(&format!("output {}", names.join(" ")));
        (format!("shares_{count}"), draft.text())
    };
    (0..=9).map(case).collect()
}

#[cfg(test)]
mod tests {
    use super::*;
    use crate::judge::judge;

    /// The refusal number of a draft, 0 where it is accepted.
    fn refusal(draft: Draft) -> u64 {
        judge(&draft.text()).report.refusal
    }

    #[test]
    fn counts_end_at_their_limits() {
        assert_eq!([8, 9].map(|n| refusal(maps(n))), [0, 9]);
        assert_eq!([4, 5].map(|n| refusal(variables(1, n, 0))), [0, 9]);
        assert_eq!([0, 1].map(|n| refusal(variables(8, 2, n))), [0, 9]);
        assert_eq!([3, 4].map(|n| refusal(variables(5, n, 0))), [0, 9]);
        assert_eq!([16, 17].map(|n| refusal(variables(1, 0, n))), [0, 9]);
        assert_eq!([256, 257].map(|n| refusal(statements(n, 0, false))), [0, 9]);
        assert_eq!([256, 257].map(|n| refusal(statements(0, n, true))), [0, 9]);
    }

    #[test]
    fn shares_are_one_to_eight() {
        let taken: Vec<u64> = share_cases()
            .iter()
            .map(|(_, text)| judge(text).report.refusal)
            .collect();
        assert_eq!(taken, [5, 0, 0, 0, 0, 0, 0, 0, 0, 5]);
    }

    #[test]
    fn lengths_end_at_their_limit() {
        assert_eq!(length(MOST_TEXT).len(), MOST_TEXT);
        assert_ne!(judge(&length(MOST_TEXT)).report.refusal, 2);
        assert_eq!(judge(&length(MOST_TEXT + 1)).report.refusal, 2);
    }
}
