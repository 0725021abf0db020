//! Angles, evaluation and the built-in source: document 01's sentences and marked cases.

use twin::angle::{sine_cosine, wrap};
use twin::builtin::{builtin_orientation, builtin_radii};
use twin::refusal::Refusal;
use twin::rotation::{evaluate, Elements, Nutation, EPOCH_LIMIT};

fn same(a: f64, b: f64) -> bool {
    a.to_bits() == b.to_bits()
}

#[test]
fn marked_case_8_wrap() {
    assert!(same(wrap(-90.0), 270.0));
    assert!(same(wrap(-0.0), 0.0));
    assert!(same(wrap(360.0), 0.0));
    assert!(same(wrap(-1e-20), 0.0));
}

#[test]
fn wrap_stays_in_the_circle() {
    assert!(same(wrap(-360.0), 0.0));
    assert!(same(wrap(725.5), 5.5));
    assert!(same(wrap(-725.5), 354.5));
    assert!(same(wrap(360.0f64.next_down()), 360.0f64.next_down()));
    assert!(same(wrap(-5e-324), 0.0));
    assert!(same(wrap(5e-324), 5e-324));
    for x in [f64::NAN, f64::INFINITY, f64::NEG_INFINITY] {
        assert!(same(wrap(x), 0.0));
    }
    for x in [1e300, -1e300, f64::MAX, f64::MIN] {
        assert!((0.0..360.0).contains(&wrap(x)));
    }
}

#[test]
fn quarters_take_their_signs() {
    let expected = [
        (0.0, (0.0, 1.0)),
        (90.0, (1.0, -0.0)),
        (180.0, (-0.0, -1.0)),
        (270.0, (-1.0, 0.0)),
        (360.0, (0.0, 1.0)),
        (-90.0, (-1.0, 0.0)),
    ];
    for (x, (sine, cosine)) in expected {
        let (s, c) = sine_cosine(x);
        assert!(same(s, sine) && same(c, cosine), "at {x}: {s} {c}");
    }
}

#[test]
fn each_limit_belongs_to_the_next_quarter() {
    let (_, cosine) = sine_cosine(45.0);
    let (sine, _) = sine_cosine(-45.0);
    assert!(same(cosine, -sine));
    for limit in [45.0, 135.0, 225.0, 315.0f64] {
        let (s, c) = sine_cosine(limit);
        let (s0, c0) = sine_cosine(limit.next_down());
        assert!((s - s0).abs() < 1e-14 && (c - c0).abs() < 1e-14);
    }
}

#[test]
fn marked_case_9_the_earth_at_the_epoch() {
    let o = builtin_orientation(399, 0.0).unwrap();
    assert!(same(o.ra, 0.0) && same(o.dec, 90.0) && same(o.w, 190.147));
    assert!(same(o.m31, -0.0) && same(o.m32, -0.0) && same(o.m33, 1.0));
}

#[test]
fn marked_case_10_the_last_epoch() {
    for code in [10, 399, 899] {
        for epoch in [EPOCH_LIMIT, -EPOCH_LIMIT] {
            assert!(builtin_orientation(code, epoch).is_ok());
            let beyond = epoch + epoch.signum() * 0.00003;
            assert_ne!(beyond, epoch);
            assert_eq!(builtin_orientation(code, beyond), Err(Refusal::Epoch));
        }
        for epoch in [f64::NAN, f64::INFINITY, f64::NEG_INFINITY, f64::MAX] {
            assert_eq!(builtin_orientation(code, epoch), Err(Refusal::Epoch));
        }
    }
}

#[test]
fn marked_case_11_no_row_no_body() {
    for code in [0, 1, 9, 11, 99, 100, 301, 998, 1000, u32::MAX] {
        assert_eq!(builtin_orientation(code, 0.0), Err(Refusal::UnknownBody));
        assert_eq!(builtin_radii(code), Err(Refusal::UnknownBody));
        assert_eq!(builtin_orientation(code, f64::NAN), Err(Refusal::Epoch));
    }
}

#[test]
fn the_sun_turns_and_has_no_radii() {
    assert!(builtin_orientation(10, 0.0).is_ok());
    assert_eq!(builtin_radii(10), Err(Refusal::UnknownBody));
    assert_eq!(builtin_radii(399), Ok([6378.14, 6378.14, 6356.75]));
}

#[test]
fn a_rate_per_day_never_meets_centuries() {
    let elements = Elements {
        ra: [1.0, 2.0, 3.0],
        dec: [4.0, 5.0, 6.0],
        pm: [7.0, 8.0, 9.0],
    };
    let century = 3155760000.0;
    let o = evaluate(&elements, &Nutation::NONE, 2.0 * century);
    assert!(same(o.ra, 1.0 + 2.0 * (2.0 + 2.0 * 3.0)));
    assert!(same(o.dec, 4.0 + 2.0 * (5.0 + 2.0 * 6.0)));
    let days = 73050.0;
    assert!(same(o.w, wrap(7.0 + days * (8.0 + days * 9.0))));
}

#[test]
fn terms_add_sines_to_ra_and_w_and_cosines_to_dec() {
    let elements = Elements {
        ra: [10.0, 0.0, 0.0],
        dec: [20.0, 0.0, 0.0],
        pm: [30.0, 0.0, 0.0],
    };
    let nutation = Nutation {
        degree: 1,
        angles: &[30.0, 90.0, 60.0, 0.0, 77.0, 1.0],
        ra: &[1.0],
        dec: &[2.0, 3.0],
        pm: &[],
    };
    let o = evaluate(&elements, &nutation, 3155760000.0);
    let (s1, c1) = sine_cosine(120.0);
    let (_, c2) = sine_cosine(60.0);
    assert!(same(o.ra, 10.0 + 1.0 * s1));
    assert!(same(o.dec, (20.0 + 2.0 * c1) + 3.0 * c2));
    assert!(same(o.w, 30.0));
}

#[test]
fn angles_are_nested_from_the_highest_inward() {
    let elements = Elements {
        ra: [10.0, 0.0, 0.0],
        dec: [20.0, 0.0, 0.0],
        pm: [30.0, 0.0, 0.0],
    };
    let angles = [0.1, 30.7, 1e-3, 7.3, -0.2, 3e5, 2.9, -11.0];
    for epoch in [0.0, 1e9, -3.3e10, EPOCH_LIMIT, -EPOCH_LIMIT] {
        let t = epoch / 86400.0 / 36525.0;
        let [a, b, c, d, e, f, g, h] = angles;
        for (degree, first, second) in [
            (1, a + t * b, c + t * d),
            (2, a + t * (b + t * c), d + t * (e + t * f)),
            (
                3,
                a + t * (b + t * (c + t * d)),
                e + t * (f + t * (g + t * h)),
            ),
        ] {
            let nutation = Nutation {
                degree,
                angles: &angles,
                ra: &[1.0, 2.0],
                dec: &[-1.0, 2.0],
                pm: &[3.0],
            };
            let o = evaluate(&elements, &nutation, epoch);
            let (s1, c1) = sine_cosine(first);
            let (s2, c2) = sine_cosine(second);
            assert!(same(o.ra, (10.0 + 1.0 * s1) + 2.0 * s2), "{degree}");
            assert!(same(o.dec, (20.0 + -1.0 * c1) + 2.0 * c2), "{degree}");
            assert!(same(o.w, 30.0 + 3.0 * s1), "{degree}");
        }
    }
}

#[test]
fn declination_is_answered_as_it_stands() {
    let elements = Elements {
        ra: [-10.0, 0.0, 0.0],
        dec: [-0.0, -0.0, -0.0],
        pm: [-370.0, 0.0, 0.0],
    };
    let o = evaluate(&elements, &Nutation::NONE, 86400.0);
    assert!(same(o.ra, 350.0) && same(o.dec, -0.0) && same(o.w, 350.0));
    let steep = Elements {
        dec: [-450.0, 0.0, 0.0],
        ..elements
    };
    assert!(same(evaluate(&steep, &Nutation::NONE, 0.0).dec, -450.0));
}
