//! `text-compare SEED TEXTS`: the reader of .sm and .ssc text against the original.

use std::process::ExitCode;
use text_compare::{compare, reader};

fn main() -> ExitCode {
    let words: Vec<u64> =
        std::env::args().skip(1).map(|word| word.parse().expect("SEED and TEXTS are numbers")).collect();
    let (seed, texts) = (words.first().copied().unwrap_or(1), words.get(1).copied().unwrap_or(20_000));
    let (counts, shown) = compare(seed, texts, reader);
    for line in &shown {
        println!("{line}");
    }
    println!(
        "{} texts with {} timings: {} refused by both, {} with entries passed over, {} with tempos out of order on one row; {} times and {} rows of notes",
        counts.texts, counts.timings, counts.refused, counts.passed_over, counts.unsorted, counts.times, counts.rows
    );
    println!("{} compared, {} different", counts.texts, shown.len());
    if shown.is_empty() { ExitCode::SUCCESS } else { ExitCode::FAILURE }
}
