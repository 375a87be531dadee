//! Compares the product with the independent judge on random texts.

#[path = "../product.rs"]
mod product;

use bench_tests::arguments::flags;
use bench_tests::compare::{Comparison, Side};
use bench_tests::tally::Tally;
use bench_tests::texts::mix::Mix;
use std::process::ExitCode;

/// How the program is called.
const USAGE: &str = "usage: fuzz --texts N --seed S [--product outside|plain]";

fn main() -> ExitCode {
    let words = std::env::args().skip(1).collect();
    let asked = flags(words, &["--texts", "--seed", "--product"]).and_then(|values| {
        let texts = values.get("--texts")?.parse::<u64>().ok()?;
        let seed = values.get("--seed")?.parse::<u64>().ok()?;
        let side = values.get("--product").map_or("outside", String::as_str);
        Some((texts, seed, side.to_string()))
    });
    let Some((texts, seed, side)) = asked else {
        eprintln!("{USAGE}");
        return ExitCode::from(2);
    };
    match product::side_of(&side) {
        Ok(side) => fuzz(side.as_ref(), texts, seed),
        Err(reason) => {
            eprintln!("fuzz: {reason}");
            ExitCode::from(2)
        }
    }
}

/// Compares on so many texts; stops at the first difference and shows its text.
fn fuzz(side: &dyn Side, texts: u64, seed: u64) -> ExitCode {
    let mut mix = Mix::new(seed);
    let mut comparison = Comparison::new(side, !seed);
    let mut tally = Tally::new();
    for at in 0..texts {
        let text = mix.draw();
        match comparison.check(&text) {
            Ok(outcome) => tally.count(&outcome),
            Err(wrong) => {
                println!("text {at} of seed {seed}: {wrong}");
                println!("{}", text.escape_ascii());
                println!("{}", String::from_utf8_lossy(&text));
                tally.show(1);
                return ExitCode::FAILURE;
            }
        }
        tally.show_progress(texts);
    }
    tally.show(0);
    ExitCode::SUCCESS
}
