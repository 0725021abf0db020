//! The kernels: what the source documents give as a text is what the built-in source has.

use twin::angle::{sine_cosine, wrap};
use twin::answers::{orientation, radii};
use twin::builtin::{builtin_orientation, builtin_radii};
use twin::layout::WORDS;
use twin::pool::{fetch, fetch_string, load, make_empty};
use twin::refusal::Refusal;

const PLANETS: &[u8] = include_bytes!("../../../examples/kernels/planets.tpc");
const RADII: &[u8] = include_bytes!("../../../examples/kernels/radii.tpc");
const MOON: &[u8] = include_bytes!("../../../examples/kernels/moon.tpc");
const MARS_MOONS: &[u8] = include_bytes!("../../../examples/kernels/mars-moons.tpc");
const MARS_MOONS_SQUARE: &[u8] = include_bytes!("../../../examples/kernels/mars-moons-square.tpc");
const TRITON: &[u8] = include_bytes!("../../../examples/kernels/triton.tpc");
const EXAMPLE: &[u8] = include_bytes!("../../../examples/kernels/mars-example.tpc");
const EXAMPLE_SHORT: &[u8] = include_bytes!("../../../examples/kernels/mars-example-short.tpc");
const MUSEUM: &[u8] = include_bytes!("../../../examples/kernels/museum.tpc");

const BODIES: [u32; 10] = [10, 199, 299, 399, 499, 599, 699, 799, 899, 999];
const EPOCHS: [f64; 6] = [
    0.0,
    -0.0,
    1.0,
    123456789.125,
    -98765432109.875,
    157788000000.0,
];

fn pool_of(texts: &[&[u8]]) -> Vec<u64> {
    let mut pool = vec![0; WORDS];
    make_empty(&mut pool).unwrap();
    for (label, text) in texts.iter().enumerate() {
        load(&mut pool, label as u32, text).unwrap();
    }
    pool
}

#[test]
fn table_i_gives_the_built_in_orientations() {
    // Triton's angles begin with Neptune's, so they may stand after them.
    for texts in [&[PLANETS][..], &[PLANETS, MOON, MARS_MOONS, TRITON, RADII]] {
        let pool = pool_of(texts);
        for code in BODIES {
            for epoch in EPOCHS {
                let from_pool = orientation(&pool, code, epoch).unwrap().doubles();
                let built_in = builtin_orientation(code, epoch).unwrap().doubles();
                assert_eq!(from_pool.map(f64::to_bits), built_in.map(f64::to_bits));
            }
        }
    }
}

#[test]
fn the_radii_are_the_built_in_ones() {
    let pool = pool_of(&[PLANETS, RADII]);
    for code in BODIES {
        assert_eq!(radii(&pool, code), builtin_radii(code));
    }
}

#[test]
fn captions_stand_beside_numbers() {
    let pool = pool_of(&[MUSEUM]);
    let mut caption = [0; 60];
    for (body, place, expected) in [
        (499, 1, "Mars"),
        (499, 2, ""),
        (
            499,
            5,
            "Schiaparelli's \"canali\" turned out to be an illusion.",
        ),
        (499, 7, "Lent by the Observatory's Friends (until 30 May)."),
        (301, 3, "The far side is the one without 'seas'."),
        (399, 1, "The Earth"),
    ] {
        let name = format!("BODY{body}_CAPTION");
        let length = fetch_string(&pool, name.as_bytes(), place, &mut caption).unwrap();
        assert_eq!(&caption[..length], expected.as_bytes());
    }
    let past = fetch_string(&pool, b"BODY499_CAPTION", 8, &mut caption);
    assert_eq!(past, Err(Refusal::NoVariable.into()));
    let numbers = fetch(&pool, b"BODY499_CAPTION", &mut [0.0; 9]);
    assert_eq!(numbers, Err(Refusal::MixedKind.into()));
    assert_eq!(radii(&pool, 499), builtin_radii(499));
    assert_eq!(
        orientation(&pool, 499, 1e9).unwrap().doubles(),
        builtin_orientation(499, 1e9).unwrap().doubles()
    );
}

#[test]
fn moons_turn_too() {
    let pool = pool_of(&[MOON, MARS_MOONS, TRITON]);
    for code in [301, 401, 402, 801] {
        for epoch in EPOCHS {
            assert!(orientation(&pool, code, epoch).is_ok());
        }
    }
    assert_eq!(radii(&pool, 301), Ok([1737.4; 3]));
    assert_eq!(radii(&pool, 801), Err(Refusal::UnknownBody));
}

/// Phobos' second angle with a square term.
fn m2(t: f64, square: f64) -> f64 {
    192.93 + t * (41215163.19675 + t * square)
}

#[test]
fn phobos_differs_by_the_sine_of_its_square_term() {
    let cut = pool_of(&[MARS_MOONS]);
    let square = pool_of(&[MARS_MOONS_SQUARE]);
    for epoch in EPOCHS {
        let [before, after] = [&cut, &square].map(|pool| orientation(pool, 401, epoch).unwrap());
        let days = epoch / 86400.0;
        let t = days / 36525.0;
        let sine = |angle| sine_cosine(angle).0;

        let term = -0.78 * (sine(m2(t, 8.864)) - sine(m2(t, 0.0)));
        let difference = wrap(after.w - before.w + 180.0) - 180.0;
        assert!((difference - term).abs() < 1e-5, "{difference} {term}");
        assert_eq!(term.abs() > 1e-4, epoch.abs() > 1.0, "{term}");

        let turned = 35.06 + days * (1128.8445850 + days * 6.6443009930565e-9);
        let w = (turned + -1.42 * sine(169.51 + t * -15916.2801)) + -0.78 * sine(m2(t, 8.864));
        assert_eq!(after.w.to_bits(), wrap(w).to_bits());
        assert_eq!((after.ra, after.dec), (before.ra, before.dec));
        assert_eq!(
            orientation(&square, 402, epoch),
            orientation(&cut, 402, epoch)
        );
    }
    assert_eq!(radii(&square, 401), radii(&cut, 401));
}

#[test]
fn a_degree_stays_when_only_the_angles_are_replaced() {
    let pool = pool_of(&[MARS_MOONS_SQUARE, MARS_MOONS]);
    assert_eq!(orientation(&pool, 401, 0.0), Err(Refusal::WrongCount));
    let said = b"\\begindata\nBODY4_MAX_PHASE_DEGREE = 1";
    let pool = pool_of(&[MARS_MOONS_SQUARE, MARS_MOONS, said]);
    let cut = pool_of(&[MARS_MOONS]);
    assert_eq!(orientation(&pool, 401, 1e9), orientation(&cut, 401, 1e9));
}

#[test]
fn the_example_kernel_has_one_number_outside_the_class() {
    let mut pool = pool_of(&[]);
    let value = b"6.6443009930565219D-09 )";
    let lines = EXAMPLE.split(|b| *b == b'\n');
    let (place, line) = lines
        .enumerate()
        .find(|(_, line)| line.ends_with(value))
        .unwrap();
    let column = line.len() - value.len() + 1;
    assert_eq!(
        load(&mut pool, 1, EXAMPLE),
        Err(Refusal::Number.at(place as u64 + 1, column as u64))
    );
    load(&mut pool, 1, EXAMPLE_SHORT).unwrap();
    assert_eq!(radii(&pool, 499), Ok([3397.0, 3397.0, 3375.0]));
    for code in [499, 401, 402] {
        assert!(orientation(&pool, code, 1e9).is_ok());
    }
}
