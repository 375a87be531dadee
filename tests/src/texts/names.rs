//! Names at the limits of their form, in each place of a text.

use crate::maps::FIPS;
use crate::texts::draft::{map_line, Draft};

/// How a text is made of four names.
type With = fn(&str, &str, &str, &str) -> Draft;

/// A text with these names for its map, its input, its origin value and its masked value.
fn with_names(map: &str, input: &str, origin: &str, masked: &str) -> Draft {
    let mut draft = Draft::of("shares 1");
    draft.add(&map_line(map, &FIPS));
    let rest = format!(
        "input {input}\norigin\napp {origin} {map} {input}\nresult {origin}\nmasked\n\
        app {masked} {map} {input}.0\noutput {masked}"
    );
    draft.add_lines(&rest);
    draft
}

/// The same by lets, the origin value and the masked value also read in a formula.
fn with_names_in_lets(map: &str, input: &str, origin: &str, masked: &str) -> Draft {
    let mut draft = Draft::of("shares 1");
    draft.add(&map_line(map, &FIPS));
    let rest = format!(
        "input {input}\norigin\nlet {origin} app({map},{input})\nlet p xor({origin},#01)\n\
        result p\nmasked\nlet {masked} app({map},{input}.0)\nlet p xor(#01,{masked})\noutput p"
    );
    draft.add_lines(&rest);
    draft
}

/// Names of 12 and of 13 characters, and dot parts on both sides, in each place.
pub fn cases() -> Vec<(String, Vec<u8>)> {
    let stems = [
        ("n1", "n"),
        ("n12", "abc_45678_01"),
        ("n13", "abc_45678_012"),
        ("digit", "7up"),
        ("underscore", "_up"),
        ("dot0", "up.0"),
        ("dot7", "up.7"),
        ("dot8", "up.8"),
        ("dot_twice", "up.0.0"),
        ("dot_two_digits", "up.00"),
        ("dot_alone", "up."),
        ("n12dot7", "abc_45678_01.7"),
        ("n13dot7", "abc_45678_012.7"),
        ("hash", "#05"),
    ];
    let mut all = vec![];
    let ways: [(&str, With); 2] = [("name", with_names), ("name_let", with_names_in_lets)];
    for (way, with) in ways {
        for (label, name) in stems {
            let drafts = [
                ("map", with(name, "x", "o", "y")),
                ("input", with("f", name, "o", "y")),
                ("origin", with("f", "x", name, "y")),
                ("masked", with("f", "x", "o", name)),
            ];
            for (place, draft) in drafts {
                all.push((format!("{way}_{place}_{label}"), draft.text()));
            }
        }
    }
    all
}

#[cfg(test)]
mod tests {
    use super::*;
    use crate::judge::judge;

    #[test]
    fn names_end_at_their_limits() {
        for (name, text) in cases() {
            let place_takes_dot = name.contains("origin") || name.contains("masked");
            let fits = ["_n1", "_n12"].iter().any(|end| name.ends_with(end));
            let dotted = ["_dot0", "_dot7", "_n12dot7"];
            let fits_dotted = dotted.iter().any(|end| name.ends_with(end));
            let expected = fits || fits_dotted && place_takes_dot;
            assert_eq!(judge(&text).report.refusal == 0, expected, "{name}");
        }
    }
}
