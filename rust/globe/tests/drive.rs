//! The globe drive, asked of the library: what decides a position, and which way a motor goes.

use globe::{Motion, Pool, Ring, Source};

/// A pool in which the meridian of body 1 is an angle at epoch 0.
fn pool_at(angle: &str) -> Pool {
    let mut pool = Pool::new();
    let text = format!("\\begindata\nBODY1_POLE_RA = 0\nBODY1_POLE_DEC = 90\nBODY1_PM = {angle}\n");
    pool.load(1, text).unwrap();
    pool
}

fn position(angle: &str, ring: u32) -> u32 {
    let ring = Ring::new(ring).unwrap();
    ring.position(&pool_at(angle), 1, 0.0).unwrap()
}

#[test]
fn the_double_product_decides() {
    assert_eq!(position("216", 35), 20);
    assert_eq!(position("216.00000000000003", 35), 21);
    assert_eq!(position("180", 2), 1);
    assert_eq!(position("179.99999999999997", 2), 0);
    assert_eq!(position("0", 4_096), 0);
}

#[test]
fn a_position_is_below_the_ring() {
    for ring in [2, 3, 35, 38, 39, 40, 113, 360, 4_095, 4_096] {
        assert_eq!(position("359.99999999999994", ring), ring - 1);
    }
}

#[test]
fn the_shorter_way_and_half_way_forward() {
    let pool = pool_at("90");
    let ring = Ring::new(360).unwrap();
    for (present, steps) in [
        (0, 90),
        (90, 0),
        (91, -1),
        (269, -179),
        (270, 180),
        (271, 179),
    ] {
        let motion = ring.step_from(present, &pool, 1, 0.0);
        assert_eq!(motion, Ok(Motion { target: 90, steps }));
    }
}

/// Half a day in steps of a minute: no planet's shell ever jumps.
#[test]
fn no_shell_jumps() {
    let ring = Ring::new(4_096).unwrap();
    for body in [199, 299, 399, 499, 599, 699, 799, 899, 999] {
        let mut shell = ring.position(Source::Builtin, body, 0.0).unwrap();
        for minute in 0..720 {
            let epoch = f64::from(minute) * 60.0;
            let motion = ring.step_from(shell, Source::Builtin, body, epoch).unwrap();
            assert!(motion.steps.abs() <= 8, "{body} at {epoch}: {motion:?}");
            let reached = shell.checked_add_signed(motion.steps + 4_096).unwrap();
            assert_eq!(reached % 4_096, motion.target);
            shell = motion.target;
        }
    }
}
