//! Gadgets whose difference is 0 at many bytes, so that the first differing ones are high.

use crate::maps::{Map, SQUARING};
use crate::random::Random;
use crate::texts::draft::{map_line, Draft};

/// One input against itself plus a product of factors with roots.
pub fn roots(random: &mut Random) -> Draft {
    let shares = random.between(1, 3);
    let mut draft = Draft::of(&format!("shares {shares}"));
    draft.add(&map_line("f", &vanishing_map(random)));
    draft.add_lines("input x\norigin\nresult x\nmasked");
    let mut product = format!("#{:02x}", random.between(1, 255));
    let mut count = 0;
    let mut times = |draft: &mut Draft, factor: &str| {
        count += 1;
        draft.add(&format!("mul p{count} {product} {factor}"));
        product = format!("p{count}");
    };
    let mut room = 60;
    for share in 0..shares {
        let most = random.below(room.min(40) + 1);
        room /= most + 1;
        if random.one_in(4) {
            draft.add(&format!("app l{share} f x.{share}"));
            times(&mut draft, &format!("l{share}"));
            room /= 8;
        }
        let first = random.one_in(4) as usize * random.below(4);
        for root in first..first + most {
            draft.add(&format!("xor t{share}_{root} x.{share} #{root:02x}"));
            times(&mut draft, &format!("t{share}_{root}"));
        }
    }
    let at = random.below(shares);
    draft.add(&format!("xor y x.{at} {product}"));
    let names: Vec<String> = (0..shares).map(|i| format!("x.{i}")).collect();
    let output = format!("output {}", names.join(" "));
    draft.add(&output.replace(&format!("x.{at}"), "y"));
    draft
}

/// A linear map that is 0 at all bytes below a power of two.
fn vanishing_map(random: &mut Random) -> Map {
    let zeros = random.below(8);
    let mut columns = [(); 8].map(|_| random.byte());
    columns[..zeros].fill(0);
    Map {
        constant: 0,
        columns,
    }
}

/// One share, #00 against (x XOR byte)^255 XOR #01, squared by the map: differs at that byte
/// alone, with up to 255 terms.
pub fn single_byte(byte: u8) -> Draft {
    let mut draft = Draft::of("shares 1");
    draft.add(&map_line("q", &SQUARING));
    let head = "input x\norigin\nset z #00\nresult z\nmasked";
    draft.add_lines(head);
    draft.add(&format!("xor s0 x.0 #{byte:02x}"));
    draft.add("set p0 s0");
    for i in 1..8 {
        draft.add(&format!("app s{i} q s{}", i - 1));
        draft.add(&format!("mul p{i} p{} s{i}", i - 1));
    }
    draft.add_lines("xor y p7 #01\noutput y");
    draft
}
