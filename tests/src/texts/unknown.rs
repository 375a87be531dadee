//! Texts that the count gives up, with the trials that are asked for.

use crate::limits::MOST_TEXT;
use crate::texts::draft::Draft;
use crate::trials::{Trials, MOST_TRIALS};

/// A name, a text, and the trials that are asked for.
pub type Tried = (String, Vec<u8>, Trials);

/// Eight shares whose results differ where x.0 is `byte` and nowhere else; the count is given up at
/// the square of a value of 64 terms.
pub fn differs_at(byte: u8) -> Vec<u8> {
    let mut draft = Draft::of(
        "shares 8\ninput x\norigin\nmul a x x\nmul b a x\nmul c b b\nset z #00\nresult z\nmasked",
    );
    draft.add(&format!("xor d x.0 #{byte:02x}"));
    draft.add_lines("set p0 d");
    for at in 1..8 {
        draft.add_lines(&format!("mul s{at} p{0} p{0}\nmul p{at} s{at} d", at - 1));
    }
    draft.add("xor y.0 p7 #01");
    (1..8).for_each(|share| draft.add(&format!("set y.{share} #00")));
    draft.add("output y.0 y.1 y.2 y.3 y.4 y.5 y.6 y.7");
    draft.text()
}

/// Sixteen variables, the last of which is left over in the outputs.
fn sixteen() -> Vec<u8> {
    let mut draft = Draft::of(
        "shares 5\ninput x\ninput y\ninput z\norigin\nmul a x y\nmul b a z\nmul c b b\n\
         set e #00\nresult e\nmasked\nrand r\nset o.0 r",
    );
    (1..5).for_each(|share| draft.add(&format!("set o.{share} #00")));
    draft.add("output o.0 o.1 o.2 o.3 o.4");
    draft.text()
}

/// Trials on both sides of what is found and of what may be asked for, and starts that wrap.
pub fn cases() -> Vec<Tried> {
    let text = differs_at(0xe3);
    let too_long = vec![b'a'; MOST_TEXT + 1];
    let mut all = vec![];
    let mut add = |name: &str, text: &[u8], count, start| {
        let name = format!("trials_{name}_{count}_{start}");
        all.push((name, text.to_vec(), Trials { count, start }));
    };
    for count in [
        0,
        1,
        31,
        32,
        33,
        256,
        MOST_TRIALS,
        MOST_TRIALS + 1,
        u32::MAX,
    ] {
        add("at_e3", &text, count, 1);
    }
    for start in [0, 2, 0x6186_c647, 0x61c8_8647, 0xffff_ffff] {
        add("at_e3", &text, 256, start);
    }
    add("at_9e", &differs_at(0x9e), 1, 0);
    add("at_9e", &differs_at(0x9e), 1, 0xffff_ffff);
    add("at_00", &differs_at(0x00), 1, 0x61c8_8647);
    add("sixteen", &sixteen(), 256, 1);
    add("sixteen", &sixteen(), 0, 1);
    add("too_long", &too_long, MOST_TRIALS, 1);
    add("too_long", &too_long, MOST_TRIALS + 1, 1);
    all
}

#[cfg(test)]
mod tests {
    use super::*;
    use crate::judge::judge_with;
    use crate::report::Verdict;

    /// What a text with these trials gives: verdict, refusal, tried and listed bytes.
    fn told(text: &[u8], count: u32, start: u32) -> (Verdict, u64, u64, Vec<u8>) {
        let judged = judge_with(text, Trials { count, start });
        let report = judged.report;
        (report.verdict, report.refusal, report.tried, judged.bytes)
    }

    #[test]
    fn the_trial_of_e3_is_the_thirty_second() {
        let text = differs_at(0xe3);
        assert_eq!(told(&text, 31, 1), (Verdict::Unknown, 0, 31, vec![]));
        let (verdict, _, tried, bytes) = told(&text, 32, 1);
        assert_eq!((verdict, tried, bytes[0]), (Verdict::Found, 32, 0xe3));
        assert_eq!(bytes.len(), 8);
    }

    #[test]
    fn more_than_65535_are_refused() {
        let text = differs_at(0xe3);
        assert_eq!(told(&text, 65_535, 1).0, Verdict::Found);
        assert_eq!(told(&text, 65_536, 1), (Verdict::Refused, 14, 0, vec![]));
        let too_long = vec![b'a'; MOST_TEXT + 1];
        assert_eq!(told(&too_long, 65_535, 1).1, 2);
        assert_eq!(told(&too_long, 65_536, 1).1, 14);
    }

    #[test]
    fn sixteen_variables_have_sixteen_bytes() {
        let (verdict, _, tried, bytes) = told(&sixteen(), 256, 1);
        assert_eq!((verdict, tried, bytes.len()), (Verdict::Found, 1, 16));
    }
}
