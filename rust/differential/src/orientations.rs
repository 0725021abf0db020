//! Orientations by pools and by the built-in table, asked of both sides, radii beside them.

use twin::layout::WORDS;

use crate::bodies::{code, table_code, text};
use crate::call::Call;
use crate::epochs::epoch;
use crate::pair::Pair;
use crate::random::Random;
use crate::tally::Tally;

/// How often a pool is asked before the next one is made.
const QUESTIONS: usize = 64;

/// Asks pools for so many orientations and tells how they were answered.
pub fn run_on_pools(random: &mut Random, orientations: usize) -> Tally {
    let mut tally = Tally::default();
    let mut pair = Pair::new(&vec![random.bits(); WORDS]);
    for question in 0..orientations {
        if question % QUESTIONS == 0 {
            fill(&mut pair, random);
        }
        let (body, epoch) = (code(random), epoch(random));
        pair.ask(&Call::Radii { body });
        tally.add(pair.ask(&Call::Orientation { body, epoch }).number);
    }
    tally
}

/// Asks the built-in table for so many orientations and tells how they were answered.
pub fn run_on_table(random: &mut Random, orientations: usize) -> Tally {
    let mut tally = Tally::default();
    let mut pair = Pair::new(&[]);
    for _ in 0..orientations {
        let (body, epoch) = (table_code(random), epoch(random));
        pair.ask(&Call::BuiltinRadii { body });
        tally.add(pair.ask(&Call::BuiltinOrientation { body, epoch }).number);
    }
    tally
}

/// Texts about bodies; one that finds no room is left out.
fn fill(pair: &mut Pair, random: &mut Random) {
    pair.ask(&Call::MakeEmpty);
    for label in 0..random.between(8, 16) as u32 {
        let text = text(random);
        pair.ask(&Call::Load { label, text: &text });
    }
}
