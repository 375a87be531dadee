//! Compares the product with the independent judge on every one-byte change and every cut of the
//! examples.

#[path = "../product.rs"]
mod product;

use bench_tests::arguments::flags;
use bench_tests::compare::{Comparison, Side};
use bench_tests::examples::examples;
use bench_tests::tally::Tally;
use std::process::ExitCode;

/// How the program is called.
const USAGE: &str = "usage: damage [--product outside|plain]";

fn main() -> ExitCode {
    let Some(values) = flags(std::env::args().skip(1).collect(), &["--product"]) else {
        eprintln!("{USAGE}");
        return ExitCode::from(2);
    };
    let word = values.get("--product").map_or("outside", String::as_str);
    match product::side_of(word) {
        Ok(side) => damage(side.as_ref()),
        Err(reason) => {
            eprintln!("damage: {reason}");
            ExitCode::from(2)
        }
    }
}

/// The examples' texts, all their cuts and all their one-byte changes.
fn texts() -> impl Iterator<Item = Vec<u8>> {
    examples().into_iter().flat_map(|example| {
        let length = example.text.len();
        let text = example.text.clone();
        let cuts = (0..=length).map(move |cut| text[..cut].to_vec());
        let changes = (0..length).flat_map(move |at| {
            let text = example.text.clone();
            (1..=255).map(move |change| {
                let mut changed = text.clone();
                changed[at] ^= change;
                changed
            })
        });
        cuts.chain(changes)
    })
}

/// Compares on all of them; stops at the first difference and shows its text.
fn damage(side: &dyn Side) -> ExitCode {
    let whole = texts().count() as u64;
    let mut comparison = Comparison::new(side, 1);
    let mut tally = Tally::new();
    for text in texts() {
        match comparison.check(&text) {
            Ok(outcome) => tally.count(&outcome),
            Err(wrong) => {
                println!("{wrong}");
                println!("{}", text.escape_ascii());
                tally.show(1);
                return ExitCode::FAILURE;
            }
        }
        tally.show_progress(whole);
    }
    tally.show(0);
    ExitCode::SUCCESS
}
