//! The mix of texts that the fuzzer draws from.

use crate::examples::examples;
use crate::limits::{MOST_STATEMENTS, MOST_TEXT};
use crate::random::Random;
use crate::texts::damage::{crowded, damaged, damaged_let};
use crate::texts::draft::Draft;
use crate::texts::folding::folded;
use crate::texts::gadgets::{broken, gadget, unplanned};
use crate::texts::roots::{roots, single_byte};
use crate::texts::standing::{far_above, near_limit};
use crate::texts::{faults, lets, limits};

/// Values of ordinary gadgets stay below about so many terms.
const ORDINARY: usize = 40;
/// Values of wide gadgets stay below about so many terms.
const WIDE: usize = 1_000;

/// Draws texts of every kind.
pub struct Mix {
    random: Random,
    stored: Vec<Vec<u8>>,
}

impl Mix {
    /// The mix that a seed begins.
    pub fn new(seed: u64) -> Self {
        let mut stored: Vec<Vec<u8>> = vec![];
        stored.extend(examples().into_iter().map(|example| example.text));
        stored.extend(faults::pairs().into_iter().map(|(_, text, _)| text));
        stored.extend(faults::short_texts().into_iter().map(|(_, text)| text));
        let small = limits::both_sides().into_iter().map(|(_, text)| text);
        let small = small.chain(lets::cases().into_iter().map(|(_, text, _)| text));
        stored.extend(small.filter(|text| text.len() < 1_000));
        Mix {
            random: Random::new(seed),
            stored,
        }
    }

    /// The next text.
    pub fn draw(&mut self) -> Vec<u8> {
        let random = &mut self.random;
        let draft = match random.below(1_000) {
            0..=149 => gadget(random, ORDINARY),
            150..=349 => broken(random, ORDINARY),
            350..=489 => unplanned(random),
            490..=519 => roots(random),
            520..=594 => far_above(random),
            595..=604 => near_limit(random),
            605..=606 => single_byte(high_byte(random)),
            607..=616 => gadget(random, WIDE),
            617..=623 => return self.long(),
            624..=701 => crowded(random),
            702..=737 => return damaged_stored(random, &self.stored),
            738..=767 => {
                let draft = crowded(random);
                return damaged(random, draft);
            }
            768..=787 => return random.pick(&self.stored).clone(),
            788..=817 => {
                let draft = gadget(random, ORDINARY);
                let draft = folded(random, &draft);
                return damaged_let(random, draft);
            }
            _ => {
                let draft = gadget(random, ORDINARY);
                let draft = often_folded(random, draft);
                return damaged(random, draft);
            }
        };
        often_folded(random, draft).text()
    }

    /// A text near the limit of statements or of bytes.
    fn long(&mut self) -> Vec<u8> {
        let random = &mut self.random;
        let near = random.below(3) + MOST_STATEMENTS - 1;
        match random.below(6) {
            0 => {
                let origin = random.below(near);
                let rand = random.one_in(2);
                limits::statements(origin, near - origin, rand).text()
            }
            1 => {
                let draft = limits::statements(random.below(near), 1, false);
                damaged(random, draft)
            }
            2 => limits::length(MOST_TEXT - 1 + random.below(3)),
            3 => lets::near_count(random).text(),
            4 => {
                let (_, before, behind) = *random.pick(&lets::WAYS);
                let depth = random.between(9, lets::MOST_LEVELS);
                let end = *random.pick(&["", ")", ",x", "x"]);
                lets::deep(before, behind, depth, end)
            }
            _ => {
                let mut text = gadget(random, ORDINARY).text();
                let more = random.below(4_000);
                text.resize(MOST_TEXT + 1 + more, *random.pick(b"\na\tZ"));
                text
            }
        }
    }
}

/// The draft as it is, or with statements in formulas.
fn often_folded(random: &mut Random, draft: Draft) -> Draft {
    match random.one_in(3) {
        true => folded(random, &draft),
        false => draft,
    }
}

/// A byte, often one of the last.
fn high_byte(random: &mut Random) -> u8 {
    match random.below(4) {
        0 | 1 => 0xff,
        2 => 0xfe,
        _ => random.byte(),
    }
}

/// A stored text, damaged.
fn damaged_stored(random: &mut Random, stored: &[Vec<u8>]) -> Vec<u8> {
    let text: &Vec<u8> = random.pick(stored);
    let text = String::from_utf8_lossy(text).replace('\t', " ");
    damaged(random, Draft::of(&text))
}
