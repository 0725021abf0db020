//! The globe drive: positions and moves by pools and by the built-in table. A body's meridian at
//! epoch 0 is its PM, to the last bit; so a pool's meridian is put at an angle by writing the word
//! of that value.

use twin::layout::{VALUES_AT, WORDS};
use twin::limits::{FEWEST_POSITIONS, MOST_POSITIONS};
use twin::pool::{load, make_empty};
use twin::refusal::Refusal;

use crate::bodies::table_code;
use crate::buffers::Buffers;
use crate::call::{Answer, Call};
use crate::epochs::epoch;
use crate::random::Random;
use crate::tally::Tally;
use crate::{library, twin_side};

/// The body whose meridian is put at an angle, and the text that has it; its PM is the third value.
const BODY: u32 = 399;
const TEXT: &[u8] = b"\\begindata
BODY399_POLE_RA = 0
BODY399_POLE_DEC = 90
BODY399_PM = 0
";
const PM_AT: usize = VALUES_AT + 2;

/// The last double before a turn is whole.
const LAST: f64 = 359.99999999999994;

/// Beside the rings of up to so many positions, those that are tried at every multiple.
const WHOLE_TO: u32 = 128;
const WHOLE: [u32; 4] = [360, 1000, MOST_POSITIONS - 1, MOST_POSITIONS];

/// Numbers that no ring has.
const NO_RINGS: [u32; 5] = [0, 1, MOST_POSITIONS + 1, 1 << 16, u32::MAX];

/// One pool, only read, that both sides are asked about.
struct Globe {
    words: Vec<u64>,
    buffers: Buffers,
}

impl Globe {
    fn new() -> Globe {
        let mut words = vec![0; WORDS];
        make_empty(&mut words).expect("memory of a pool's size");
        load(&mut words, 1, TEXT).expect("a right text");
        Globe {
            words,
            buffers: Buffers::default(),
        }
    }

    /// Puts the meridian at an angle.
    fn put(&mut self, angle: f64) {
        self.words[PM_AT] = angle.to_bits();
    }

    fn ask(&mut self, call: &Call) -> Answer {
        let answer = library::answer(call, &mut self.words, &mut self.buffers);
        let expected = twin_side::answer(call, &mut self.words, &mut self.buffers);
        assert_eq!(answer, expected, "the library and the twin differ: {call}");
        answer
    }

    /// Asks for a position and a move by the pool, and counts them; the position.
    fn drive(&mut self, (body, epoch): Asked, ring: u32, present: u32, tally: &mut Tally) -> u32 {
        let position = Call::Position { body, epoch, ring };
        let motion = Call::Move {
            body,
            epoch,
            ring,
            present,
        };
        self.ask_both([position, motion], ring, present, tally)
    }

    /// The same by the table.
    fn drive_by_table(&mut self, (body, epoch): Asked, ring: u32, present: u32, tally: &mut Tally) {
        let position = Call::BuiltinPosition { body, epoch, ring };
        let motion = Call::BuiltinMove {
            body,
            epoch,
            ring,
            present,
        };
        self.ask_both([position, motion], ring, present, tally);
    }

    fn ask_both(&mut self, calls: [Call; 2], ring: u32, present: u32, tally: &mut Tally) -> u32 {
        let [placed, moved] = calls.map(|call| self.ask(&call));
        check(&placed, &moved, ring, present);
        tally.add(placed.number);
        tally.add(moved.number);
        placed.counts[0]
    }
}

/// A body and an epoch.
type Asked = (u32, f64);

/// Every ring: at 0, at the last angle, and at multiples of its spacing, each with the angles next
/// to it. The answers are the twin's, and those of the sentence.
pub fn run_marked(random: &mut Random) -> Tally {
    let mut tally = Tally::default();
    let mut globe = Globe::new();
    for ring in FEWEST_POSITIONS..=MOST_POSITIONS {
        let multiple = random.between(1, ring as usize - 1) as u32;
        for n in [ring - 1, multiple] {
            compare_around(&mut globe, random, n, ring, &mut tally);
        }
        for angle in [0.0, 216.0, LAST] {
            compare(&mut globe, random, angle, ring, &mut tally);
        }
    }
    tally
}

/// Every multiple of a ring's spacing, with the angles next to it, on all small rings and some large
/// ones.
pub fn run_multiples(random: &mut Random) -> Tally {
    let mut tally = Tally::default();
    let mut globe = Globe::new();
    for ring in (FEWEST_POSITIONS..=WHOLE_TO).chain(WHOLE) {
        for n in 0..ring {
            compare_around(&mut globe, random, n, ring, &mut tally);
        }
    }
    tally
}

/// Compares at a multiple of a ring's spacing, and at the angles next to it.
fn compare_around(globe: &mut Globe, random: &mut Random, n: u32, ring: u32, tally: &mut Tally) {
    for angle in around(f64::from(n) * (360.0 / f64::from(ring))) {
        compare(globe, random, angle, ring, tally);
    }
}

/// An angle, and the ones before and after it, as far as they are in the turn.
fn around(angle: f64) -> impl Iterator<Item = f64> {
    let all = [angle.next_down(), angle, angle.next_up()];
    all.into_iter().filter(|angle| (0.0..360.0).contains(angle))
}

/// Asks both calls at an angle, and compares with the sentence.
fn compare(globe: &mut Globe, random: &mut Random, angle: f64, ring: u32, tally: &mut Tally) {
    globe.put(angle);
    let present = random.below(ring as usize) as u32;
    let n = globe.drive((BODY, 0.0), ring, present, tally);
    let reached = |n: u32| f64::from(n) * (360.0 / f64::from(ring)) <= angle;
    assert!(reached(n), "{n} of {ring} at {angle}");
    let next = n + 1;
    assert!(next == ring || !reached(next), "{n} of {ring} at {angle}");
}

/// Any rings and present positions, good and bad: by the table, and by a pool that is now and then
/// damaged.
pub fn run(random: &mut Random, rounds: usize) -> Tally {
    let mut tally = Tally::default();
    let mut globe = Globe::new();
    for _ in 0..rounds {
        let ring = any_ring(random);
        let present = any_present(random, ring);
        let by_table = (table_code(random), epoch(random));
        globe.drive_by_table(by_table, ring, present, &mut tally);

        globe.put(random.fraction() * 360.0);
        let count = globe.words[0];
        globe.words[0] ^= u64::from(random.once_in(8)) << 5;
        let by_pool = (
            random.one(&[BODY, BODY, 10]),
            random.one(&[0.0, 1e9, f64::NAN]),
        );
        globe.drive(by_pool, ring, present, &mut tally);
        globe.words[0] = count;
    }
    tally
}

/// What holds of every position and move: 25 and 26 come first, positions are the ring's, and a
/// move leads to the target by at most half the ring, forward where it is half.
fn check(placed: &Answer, moved: &Answer, ring: u32, present: u32) {
    let bad = |refusal: Refusal| Answer::of(refusal.number(), 0, 0);
    if !(FEWEST_POSITIONS..=MOST_POSITIONS).contains(&ring) {
        assert_eq!(*placed, bad(Refusal::BadRing));
        assert_eq!(*moved, bad(Refusal::BadRing));
    } else if present >= ring {
        assert_eq!(*moved, bad(Refusal::BadPosition));
    } else {
        assert_eq!(moved.number, placed.number);
        assert_eq!(moved.counts, placed.counts);
        if moved.number == 0 {
            let (ring, target) = (i64::from(ring), i64::from(moved.counts[0]));
            let steps = i64::from(moved.steps);
            assert!(target < ring && -ring < 2 * steps && 2 * steps <= ring);
            assert_eq!((i64::from(present) + steps).rem_euclid(ring), target);
        }
    }
}

/// A ring, or a number that is none.
fn any_ring(random: &mut Random) -> u32 {
    if random.once_in(16) {
        random.one(&NO_RINGS)
    } else {
        random.between(FEWEST_POSITIONS as usize, MOST_POSITIONS as usize) as u32
    }
}

/// A position of a ring, or a number that is none.
fn any_present(random: &mut Random, ring: u32) -> u32 {
    match random.below(8) {
        0 => random.one(&[ring, ring.wrapping_add(1), u32::MAX]),
        1 => ring / 2,
        _ => random.below(ring.max(1) as usize) as u32,
    }
}
