//! The kernels of the source documents, loaded by both sides: every variable, and every body at
//! many epochs.

use twin::angle::{sine_cosine, wrap};
use twin::layout::WORDS;
use twin::text::read;

use crate::bodies::TABLE;
use crate::call::Call;
use crate::epochs::{admitted, epoch};
use crate::pair::{Pair, ROOM, STRING_ROOM};
use crate::random::Random;
use crate::tally::Tally;

/// A kernel's name and its bytes.
macro_rules! kernel {
    ($name:literal) => {
        (
            $name,
            include_bytes!(concat!("../../../examples/kernels/", $name, ".tpc")),
        )
    };
}

/// The kernels of `examples/kernels`, by name.
pub const KERNELS: [(&str, &[u8]); 9] = [
    kernel!("planets"),
    kernel!("radii"),
    kernel!("moon"),
    kernel!("mars-moons"),
    kernel!("triton"),
    kernel!("mars-example"),
    kernel!("mars-example-short"),
    kernel!("museum"),
    // After all others that have angles of Mars, since it says their degree too.
    kernel!("mars-moons-square"),
];

/// More strings than a variable of a kernel has.
const STRINGS: usize = 9;

/// All legal codes.
const CODES: [std::ops::RangeInclusive<u32>; 2] = [1..=10, 100..=999];

/// Loads each kernel alone, then all that agree together, compares every variable and asks each
/// body at so many epochs.
pub fn run(random: &mut Random, epochs: usize) -> Tally {
    let mut tally = Tally::default();
    let mut pair = Pair::new(&vec![random.bits(); WORDS]);
    for (label, (_, text)) in KERNELS.iter().enumerate() {
        pair.ask(&Call::MakeEmpty);
        load(&mut pair, label as u32, text, &mut tally);
        ask_bodies(&mut pair, random, epochs, &mut tally);
    }
    pair.ask(&Call::MakeEmpty);
    for (label, (_, text)) in KERNELS.iter().enumerate() {
        load(&mut pair, label as u32, text, &mut tally);
    }
    ask_bodies(&mut pair, random, epochs, &mut tally);
    tally
}

/// Table I and the radii as texts answer as the built-in source does, on both sides.
pub fn compare_with_built_in(random: &mut Random, epochs: usize) {
    let mut pair = Pair::new(&vec![random.bits(); WORDS]);
    pair.ask(&Call::MakeEmpty);
    for (label, (_, text)) in KERNELS[..2].iter().enumerate() {
        let label = label as u32;
        assert_eq!(pair.ask(&Call::Load { label, text }).number, 0);
    }
    for body in TABLE {
        let by_pool = pair.ask(&Call::Radii { body });
        assert_eq!(by_pool, pair.ask(&Call::BuiltinRadii { body }));
        for _ in 0..epochs {
            let epoch = epoch(random);
            let by_pool = pair.ask(&Call::Orientation { body, epoch });
            let built_in = pair.ask(&Call::BuiltinOrientation { body, epoch });
            assert_eq!(by_pool, built_in, "{body} at {epoch:?}");
        }
    }
}

/// Constant and rate of Phobos' second angle, and its square term, by centuries.
const M2: [f64; 2] = [192.93, 41215163.19675];
const SQUARE: f64 = 8.864;

/// What the sine of the second angle is multiplied with in Phobos' meridian.
const PHOBOS: f64 = -0.78;

/// The seconds of a century, within which a meridian is good to this many degrees.
const CENTURY: f64 = 3_155_760_000.0;
const GOOD: f64 = 1e-7;

/// With the square term announced, Phobos' meridian differs from the cut one by what the term does
/// to the sine, on both sides; its pole does not, and Deimos keeps every bit.
pub fn compare_square_term(random: &mut Random, epochs: usize) {
    let mut pairs = ["mars-moons", "mars-moons-square"].map(|name| with_kernel(random, name));
    for _ in 0..epochs {
        let epoch = (2.0 * random.fraction() - 1.0) * CENTURY;
        let [cut, square] = pairs
            .each_mut()
            .map(|pair| pair.ask(&Call::Orientation { body: 401, epoch }));
        assert_eq!((cut.number, square.number), (0, 0));
        assert_eq!(cut.bits[..2], square.bits[..2], "the pole at {epoch:?}");

        let [before, after] = [cut, square].map(|answer| f64::from_bits(answer.bits[2]));
        let difference = wrap(after - before + 180.0) - 180.0;
        let expected = term(epoch, SQUARE) - term(epoch, 0.0);
        assert!(
            (difference - expected).abs() < GOOD,
            "{difference} in place of {expected} at {epoch:?}"
        );
        let [cut, square] = pairs
            .each_mut()
            .map(|pair| pair.ask(&Call::Orientation { body: 402, epoch }));
        assert_eq!(cut, square, "Deimos at {epoch:?}");
    }
}

/// What the second angle adds to Phobos' meridian, with a square term.
fn term(epoch: f64, square: f64) -> f64 {
    let t = epoch / CENTURY;
    let [constant, rate] = M2;
    PHOBOS * sine_cosine(constant + t * (rate + t * square)).0
}

/// A pool with one kernel.
fn with_kernel(random: &mut Random, name: &str) -> Pair {
    let mut pair = Pair::new(&vec![random.bits(); WORDS]);
    pair.ask(&Call::MakeEmpty);
    let kernel = KERNELS.iter().find(|(kernel, _)| *kernel == name);
    let (_, text) = kernel.expect("a kernel of this name");
    let label = 1;
    assert_eq!(pair.ask(&Call::Load { label, text }).number, 0);
    pair
}

/// Loads a kernel and fetches every variable that it names.
fn load(pair: &mut Pair, label: u32, text: &[u8], tally: &mut Tally) {
    tally.add(pair.ask(&Call::Load { label, text }).number);
    for statement in read(text).unwrap_or_default() {
        let name = &statement.name;
        let fetched = pair.ask(&Call::Fetch { name, room: ROOM });
        tally.add(fetched.number);
        let count = fetched.counts[0] as usize;
        for room in [count.saturating_sub(1), count] {
            tally.add(pair.ask(&Call::Fetch { name, room }).number);
        }
        fetch_strings(pair, name, tally);
    }
}

/// Fetches the strings of a variable, from place 0 to past its end, with enough room and with too
/// little.
fn fetch_strings(pair: &mut Pair, name: &[u8], tally: &mut Tally) {
    for place in 0..=STRINGS {
        let room = STRING_ROOM;
        let fetched = pair.ask(&Call::FetchString { name, place, room });
        tally.add(fetched.number);
        let length = fetched.counts[0] as usize;
        for room in [length.saturating_sub(1), length] {
            tally.add(pair.ask(&Call::FetchString { name, place, room }).number);
        }
    }
}

/// Asks for every legal code: radii, an orientation, and more of them if there is one.
fn ask_bodies(pair: &mut Pair, random: &mut Random, epochs: usize, tally: &mut Tally) {
    for body in CODES.into_iter().flatten() {
        tally.add(pair.ask(&Call::Radii { body }).number);
        let first = pair.ask(&Call::Orientation { body, epoch: 0.0 }).number;
        tally.add(first);
        if first == 0 {
            for _ in 0..epochs {
                let epoch = admitted(random);
                tally.add(pair.ask(&Call::Orientation { body, epoch }).number);
            }
        }
    }
}
