//! The globe drive: K13 of document 02.

use twin::builtin::builtin_orientation;
use twin::drive::{motion, position, position_of, steps_between, Motion, Source};
use twin::layout::WORDS;
use twin::pool::{load, make_empty};
use twin::refusal::Refusal;

/// The last double before a turn is whole.
const LAST: f64 = 359.99999999999994;

/// A pool in which the meridian of body 399 is an angle at epoch 0.
fn pool_at(angle: f64) -> Vec<u64> {
    let mut pool = vec![u64::MAX; WORDS];
    make_empty(&mut pool).unwrap();
    let text = format!(
        "\\begindata\nBODY399_POLE_RA = 0\nBODY399_POLE_DEC = 90\nBODY399_PM = {angle:e}\n"
    );
    load(&mut pool, 1, text.as_bytes()).unwrap();
    pool
}

fn asked(angle: f64, ring: u32) -> u32 {
    position(Source::Pool(&pool_at(angle)), 399, 0.0, ring).unwrap()
}

/// The sentence, word for word: the largest whole n below the ring whose product is not above.
fn largest(angle: f64, ring: u32) -> u32 {
    let not_above = |n: &u32| f64::from(*n) * (360.0 / f64::from(ring)) <= angle;
    (0..ring).filter(not_above).max().unwrap()
}

#[test]
fn the_product_decides_and_no_quotient() {
    assert_eq!(asked(216.0, 35), 20);
    assert_eq!((216.0_f64 / (360.0 / 35.0)).floor(), 21.0);
}

#[test]
fn a_position_is_below_the_ring() {
    assert!(39.0 * (360.0 / 39.0) <= LAST);
    assert_eq!(asked(LAST, 39), 38);
    for ring in 2..=4_096 {
        assert_eq!(position_of(LAST, ring), ring - 1);
        assert_eq!(position_of(0.0, ring), 0);
    }
}

#[test]
fn positions_are_the_largest_that_are_not_above() {
    for ring in (2..=4_096).step_by(7).chain([35, 39, 4_095, 4_096]) {
        let spacing = 360.0 / f64::from(ring);
        for n in [1, ring / 3, ring / 2, ring - 1] {
            let product = f64::from(n) * spacing;
            for angle in [product.next_down(), product, product.next_up()] {
                if (0.0..360.0).contains(&angle) {
                    assert_eq!(position_of(angle, ring), largest(angle, ring));
                }
            }
        }
    }
}

#[test]
fn every_multiple_is_a_position_and_what_is_below_it_is_not() {
    for ring in 2..=4_096 {
        let spacing = 360.0 / f64::from(ring);
        for n in 1..ring {
            let product = f64::from(n) * spacing;
            assert_eq!(position_of(product, ring), n);
            assert_eq!(position_of(product.next_down(), ring), n - 1);
        }
    }
}

/// Every move there is, told by its definition: the shortest that arrives, forward before back.
#[test]
fn moves_are_the_shortest_way_round() {
    for ring in (2..=24).chain([35, 64, 101]) {
        for present in 0..ring {
            for target in 0..ring {
                let arrives = |steps: &i32| (present as i32 + steps - target as i32) % ring as i32;
                let ways = (0..=ring as i32).flat_map(|length| [length, -length]);
                let first = ways.into_iter().find(|steps| arrives(steps) == 0);
                assert_eq!(Some(steps_between(ring, present, target)), first);
            }
        }
    }
}

#[test]
fn half_way_is_forward() {
    assert_eq!(steps_between(360, 0, 180), 180);
    assert_eq!(steps_between(360, 180, 0), 180);
    assert_eq!(steps_between(360, 0, 181), -179);
    assert_eq!(steps_between(360, 359, 0), 1);
    assert_eq!(steps_between(2, 1, 0), 1);
    assert_eq!(steps_between(3, 0, 2), -1);
    assert_eq!(steps_between(4_096, 7, 7), 0);
}

#[test]
fn a_move_tells_its_target() {
    let pool = pool_at(90.0);
    let moved = |present| motion(Source::Pool(&pool), 399, 0.0, 360, present);
    let to = |steps| Ok(Motion { target: 90, steps });
    assert_eq!(moved(0), to(90));
    assert_eq!(moved(90), to(0));
    assert_eq!(moved(270), to(180));
    assert_eq!(moved(271), to(179));
    assert_eq!(moved(269), to(-179));
}

#[test]
fn the_built_in_source_has_positions_too() {
    let w = builtin_orientation(399, 1e9).unwrap().w;
    let answered = position(Source::Builtin, 399, 1e9, 4_096);
    assert_eq!(answered, Ok(largest(w, 4_096)));
}

/// 25, then 26, then whatever the library refuses.
#[test]
fn refusals_stand_in_their_order() {
    let damaged = vec![0; 3];
    let source = Source::Pool(&damaged);
    for ring in [0, 1, 4_097, u32::MAX] {
        assert_eq!(position(source, 0, f64::NAN, ring), Err(Refusal::BadRing));
        let moved = motion(source, 0, f64::NAN, ring, u32::MAX);
        assert_eq!(moved, Err(Refusal::BadRing));
    }
    for present in [2, 3, u32::MAX] {
        let moved = motion(source, 0, f64::NAN, 2, present);
        assert_eq!(moved, Err(Refusal::BadPosition));
    }
    let damage = Err(Refusal::DamagedPool);
    assert_eq!(position(source, 0, f64::NAN, 2), damage);
    let moved = motion(source, 0, f64::NAN, 2, 1);
    assert_eq!(moved, Err(Refusal::DamagedPool));
    let builtin = Source::Builtin;
    assert_eq!(position(builtin, 0, f64::NAN, 2), Err(Refusal::Epoch));
    assert_eq!(position(builtin, 0, 0.0, 2), Err(Refusal::UnknownBody));
    let moved = motion(builtin, 0, 0.0, 2, 2);
    assert_eq!(moved, Err(Refusal::BadPosition));
}
