//! `soak SECONDS [SEED]`: rounds of the comparison, each with a seed of its own, until the time is
//! over. A difference stops it; the seed of its round is printed before.

use std::env;
use std::process::ExitCode;
use std::time::{Duration, Instant};

use differential::{
    damage, decimals, degrees, drive, histories, kernels, long_numbers, orientations, parts, radii,
    strings, texts, unread, Random, Tally,
};

/// One kind of comparison: its name, what it runs, and how much of it in a round.
type Kind = (&'static str, fn(&mut Random, usize) -> Tally, usize);

const KINDS: [Kind; 16] = [
    ("generated texts", texts::run, 20_000),
    ("texts cut at every byte", parts::run_cuts, 20),
    ("calls on texts in parts", parts::run, 1_000),
    ("texts of megabytes", parts::run_long, 4),
    ("calls of histories", histories::run, 1_000),
    ("orientations by pools", orientations::run_on_pools, 20_000),
    (
        "orientations by the table",
        orientations::run_on_table,
        20_000,
    ),
    ("systems of a degree", degrees::run, 2_000),
    ("decimal strings", decimals::run, 20_000),
    ("long numbers", long_numbers::run, 200_000),
    ("strings in quotes", strings::run, 10_000),
    ("radii that are replaced", radii::run, 2_000),
    ("texts that are not read", unread::run, 1_000),
    ("positions and moves", drive::run, 2_000),
    ("calls on changed pools", damage::run, 1_000),
    ("calls on kernels", kernels::run, 10),
];

fn main() -> ExitCode {
    let numbers: Option<Vec<u64>> = env::args().skip(1).map(|word| word.parse().ok()).collect();
    let (seconds, first) = match numbers.as_deref() {
        Some([seconds]) => (*seconds, 1),
        Some([seconds, seed]) => (*seconds, *seed),
        _ => {
            eprintln!("usage: soak SECONDS [SEED]");
            return ExitCode::FAILURE;
        }
    };
    let end = Instant::now() + Duration::from_secs(seconds);
    let mut tallies = [Tally::default(); KINDS.len()];
    let mut seed = first;
    while Instant::now() < end {
        println!("seed {seed}");
        for ((_, run, amount), tally) in KINDS.iter().zip(&mut tallies) {
            tally.join(&run(&mut Random::new(seed), *amount));
        }
        seed += 1;
    }
    for ((name, _, _), tally) in KINDS.iter().zip(&tallies) {
        println!("{name}: {tally}");
    }
    println!("no difference in {} rounds", seed - first);
    ExitCode::SUCCESS
}
