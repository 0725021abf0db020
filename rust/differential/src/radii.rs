//! Radii of pools: both sides against what was written, 24 for such as no globe has, as long as no
//! later text replaces them. Such texts are loaded, and their values fetched, as any are.

use twin::layout::WORDS;
use twin::refusal::Refusal;

use crate::bodies::legal_code;
use crate::call::{Answer, Call};
use crate::pair::{Pair, ROOM};
use crate::random::Random;
use crate::tally::Tally;

/// What no radius is: zeros of both signs and of any power, and numbers below them.
const BAD: [&str; 9] = [
    "0",
    "-0",
    "0.0E5",
    "-0.000E-19",
    "0E22",
    "-1",
    "-1E-22",
    "-3397.5",
    "-9999999999999999999E22",
];

/// A radius as a text has it, and whether a globe may have it.
type Radius = (String, bool);

/// Makes so many short histories of a body's radii and tells how the calls for them were answered.
pub fn run(random: &mut Random, histories: usize) -> Tally {
    let mut tally = Tally::default();
    let words: Vec<u64> = (0..WORDS).map(|_| random.bits()).collect();
    let mut pair = Pair::new(&words);
    for _ in 0..histories {
        pair.ask(&Call::MakeEmpty);
        replace(&mut pair, random, &mut tally);
    }
    tally
}

/// Radii, others in a later text, one value more, and back again.
fn replace(pair: &mut Pair, random: &mut Random, tally: &mut Tally) {
    let body = legal_code(random);
    let (first, later) = (three(random), three(random));
    load(pair, 1, body, "=", &first);
    tally.add(compare(pair, body, &first));
    load(pair, 2, body, "=", &later);
    tally.add(compare(pair, body, &later));
    load(pair, 3, body, "+=", &first[..1]);
    let crowded = pair.ask(&Call::Radii { body });
    assert_eq!(crowded, Answer::of(Refusal::WrongCount.number(), 0, 0));
    tally.add(crowded.number);
    for label in [3, 2] {
        pair.ask(&Call::Remove { label });
    }
    tally.add(compare(pair, body, &first));
}

/// Asks for the radii, which are those that were written, or are refused for a bad one; the number.
/// A fetch gives them in any case.
fn compare(pair: &mut Pair, body: u32, radii: &[Radius]) -> u32 {
    let values: Vec<f64> = radii.iter().map(|(written, _)| value(written)).collect();
    let expected = if radii.iter().all(|(_, good)| *good) {
        Answer::default().with_doubles(&values)
    } else {
        Answer::of(Refusal::BadRadius.number(), 0, 0)
    };
    let answer = pair.ask(&Call::Radii { body });
    assert_eq!(answer, expected, "{radii:?}");
    let name = format!("BODY{body}_RADII");
    let name = name.as_bytes();
    let fetched = pair.ask(&Call::Fetch { name, room: ROOM });
    assert_eq!(fetched.number, 0, "{radii:?}");
    let bits = |values: &[f64]| values.iter().map(|x| x.to_bits()).collect::<Vec<u64>>();
    assert_eq!(bits(pair.fetched(&fetched)), bits(&values), "{radii:?}");
    answer.number
}

fn load(pair: &mut Pair, label: u32, body: u32, operator: &str, radii: &[Radius]) {
    let values: Vec<&str> = radii.iter().map(|(written, _)| &written[..]).collect();
    let values = values.join("\n");
    let text = format!("\\begindata\nBODY{body}_RADII {operator} (\n{values} )");
    let text = text.as_bytes();
    assert_eq!(pair.ask(&Call::Load { label, text }).number, 0);
}

/// Three radii, now and then with a bad one at any place.
fn three(random: &mut Random) -> [Radius; 3] {
    let times = random.one(&[1, 3, 1000]);
    [(); 3].map(|_| {
        if random.once_in(times) {
            (bad(random), false)
        } else {
            (good(random), true)
        }
    })
}

/// A number above zero: a length as tables print them, or one near an end of the class.
pub fn good(random: &mut Random) -> String {
    match random.below(8) {
        0 => String::from(random.one(&["1E-22", "0.0000000000000000000001", "1", "+0.5"])),
        1 => String::from(random.one(&["9999999999999999999E22", "1E22", "1.0E23"])),
        _ => format!("{:.3}", 0.001 + random.fraction() * 80_000.0),
    }
}

/// Any of the numbers that no radius is.
pub fn bad(random: &mut Random) -> String {
    random.one(&BAD).to_string()
}

fn value(written: &str) -> f64 {
    written.parse().expect("numbers as Rust writes them")
}
