//! The words of a command line: flags, each followed by its value.

use std::collections::BTreeMap;

/// The values by their flags; None where a flag is unknown or lacks its value.
pub fn flags(words: Vec<String>, known: &[&str]) -> Option<BTreeMap<String, String>> {
    let mut values = BTreeMap::new();
    for pair in words.chunks(2) {
        match pair {
            [flag, value] if known.contains(&flag.as_str()) => {
                values.insert(flag.clone(), value.clone());
            }
            _ => return None,
        }
    }
    Some(values)
}
