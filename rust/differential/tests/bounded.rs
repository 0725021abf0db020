//! The bounded comparison: the same inputs at every run, each kind of answer met often enough.

use std::fs;
use std::io::{self, Write};
use std::path::Path;

use differential::{
    damage, decimals, degrees, drive, histories, kernels, long_numbers, orientations, parts, radii,
    strings, texts, unread, Random, Tally,
};

const SEED: u64 = 2000;

/// The least that each refusal is met where it belongs, and any refusal elsewhere.
const LEAST_AT_HOME: u64 = 500;
const LEAST: u64 = 100;

/// The refusals that tell where a text is faulty.
const PLACED: [u32; 8] = [3, 4, 6, 17, 18, 19, 20, 21];

/// Prints the counts, also where the test harness keeps what tests print.
fn report(what: &str, tally: &Tally) {
    writeln!(io::stdout(), "{what}: {tally}").expect("standard output is open");
}

#[test]
fn generated_texts() {
    let tally = texts::run(&mut Random::new(SEED), 200_000);
    report("generated texts", &tally);
    tally.expect([0, 1, 2, 7].into_iter().chain(PLACED), LEAST_AT_HOME);
}

#[test]
fn call_histories() {
    let tally = histories::run(&mut Random::new(SEED), 20_000);
    report("calls of 20000 histories", &tally);
    tally.expect(
        (0..=2).chain(7..=14).chain([16, 22, 24]).chain(PLACED),
        LEAST,
    );
    tally.expect([8, 13, 14, 16], LEAST_AT_HOME);
}

#[test]
fn texts_cut_at_every_byte() {
    let tally = parts::run_cuts(&mut Random::new(SEED), 400);
    report("texts cut at every byte", &tally);
    tally.expect([0, 7].into_iter().chain(PLACED), 2);
}

#[test]
fn texts_in_parts() {
    let tally = parts::run(&mut Random::new(SEED), 8_000);
    report("calls on texts in parts", &tally);
    tally.expect([0, 22].into_iter().chain(PLACED), 30);
    tally.expect([7], LEAST);
}

#[test]
fn texts_of_megabytes() {
    let tally = parts::run_long(&mut Random::new(SEED), 12);
    report("texts of megabytes", &tally);
    tally.expect([0, 2, 3], 1);
}

#[test]
fn orientations_by_pools() {
    let tally = orientations::run_on_pools(&mut Random::new(SEED), 300_000);
    report("orientations by pools", &tally);
    tally.expect([0], 100_000);
    tally.expect([9, 10, 11, 12, 16, 23], LEAST_AT_HOME);
}

#[test]
fn orientations_by_the_table() {
    let tally = orientations::run_on_table(&mut Random::new(SEED), 200_000);
    report("orientations by the table", &tally);
    tally.expect([0], 100_000);
    tally.expect([9, 10], LEAST);
}

#[test]
fn systems_of_a_degree() {
    let tally = degrees::run_marked(&mut Random::new(SEED));
    report("systems of every degree", &tally);
    tally.expect([0, 11, 12, 23], LEAST_AT_HOME);
    let tally = degrees::run(&mut Random::new(SEED), 10_000);
    report("systems of any degree", &tally);
    tally.expect([0, 11, 12, 23], LEAST_AT_HOME);
    degrees::compare_with_none(&mut Random::new(SEED), 2_000);
}

#[test]
fn decimal_strings() {
    let tally = decimals::run(&mut Random::new(SEED), 200_000);
    report("decimal strings", &tally);
    tally.expect([0, 6, 19], LEAST);
}

#[test]
fn numbers_of_16_to_19_digits() {
    let tally = long_numbers::run(&mut Random::new(SEED), 1_000_000);
    report("numbers of 16 to 19 digits", &tally);
    tally.expect([0], 1_000_000);
}

#[test]
fn strings_in_quotes() {
    let tally = strings::run(&mut Random::new(SEED), 50_000);
    report("strings in quotes", &tally);
    tally.expect([0, 13, 14, 16, 19, 21], LEAST_AT_HOME);
}

#[test]
fn radii_that_are_replaced() {
    let tally = radii::run(&mut Random::new(SEED), 20_000);
    report("radii that are replaced", &tally);
    tally.expect([0, 12, 24], LEAST_AT_HOME);
}

#[test]
fn texts_that_are_not_read() {
    let tally = unread::run(&mut Random::new(SEED), 1_500);
    report(
        "answers while texts that are not read come, go and move",
        &tally,
    );
    tally.expect([0, 9, 10, 11, 12, 16, 23, 24], LEAST);
    tally.expect([0], LEAST_AT_HOME);
}

#[test]
fn positions_and_moves() {
    let tally = drive::run_marked(&mut Random::new(SEED));
    report("positions and moves on every ring", &tally);
    tally.expect([0], 60_000);
    let tally = drive::run_multiples(&mut Random::new(SEED));
    report("positions and moves at every multiple", &tally);
    tally.expect([0], 100_000);
    let tally = drive::run(&mut Random::new(SEED), 10_000);
    report("positions and moves", &tally);
    tally.expect([0, 9, 10, 15, 25, 26], LEAST_AT_HOME);
}

#[test]
fn damaged_pools() {
    let tally = damage::run(&mut Random::new(SEED), 20_000);
    report("calls on 20000 changed pools", &tally);
    tally.expect([0, 15], LEAST_AT_HOME);
}

#[test]
fn kernels_of_the_source_documents() {
    let tally = kernels::run(&mut Random::new(SEED), 200);
    report("calls on kernels", &tally);
    kernels::compare_with_built_in(&mut Random::new(SEED), 1_000);
}

#[test]
fn phobos_with_its_square_term() {
    kernels::compare_square_term(&mut Random::new(SEED), 20_000);
}

#[test]
fn every_kernel_is_compared_and_described() {
    let examples = Path::new(env!("CARGO_MANIFEST_DIR")).join("../../examples");
    let described = fs::read_to_string(examples.join("README.md")).expect("the list is read");
    let files = fs::read_dir(examples.join("kernels")).expect("the kernels are there");
    let names: Vec<String> = files
        .map(|file| file.expect("a kernel is there").file_name())
        .map(|name| name.to_string_lossy().into_owned())
        .collect();
    assert_eq!(names.len(), kernels::KERNELS.len());
    for name in names {
        let stem = name.strip_suffix(".tpc").expect("kernels end in .tpc");
        assert!(kernels::KERNELS.iter().any(|(kernel, _)| *kernel == stem));
        assert!(
            described.contains(&format!("| `kernels/{name}` |")),
            "{name}"
        );
    }
}
