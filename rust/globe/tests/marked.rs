//! The marked cases of document 01, the fourth as document 02 has it, asked of the library.

use globe::{builtin_orientation, builtin_radii, Pool, Refusal, Refused};

fn pool_of(lines: &str) -> Pool {
    let mut pool = Pool::new();
    pool.load(1, format!("\\begindata\n{lines}")).unwrap();
    pool
}

/// What a data section is refused with, and where.
fn refused(lines: &str) -> Refused {
    Pool::new()
        .load(1, format!("\\begindata\n{lines}"))
        .unwrap_err()
}

fn x(pool: &Pool) -> Vec<f64> {
    pool.fetch("X", &mut [0.0; 8]).unwrap().to_vec()
}

#[test]
fn an_empty_text_is_accepted() {
    let mut pool = Pool::new();
    pool.load(1, "").unwrap();
    let totals = pool.totals().unwrap();
    assert_eq!((totals.texts, totals.statements, totals.values), (1, 0, 0));
}

#[test]
fn before_any_delimiter_there_is_no_statement() {
    let mut pool = Pool::new();
    pool.load(1, "X = 1").unwrap();
    assert_eq!(pool.totals().unwrap().statements, 0);
}

#[test]
fn values_have_their_bits() {
    assert_eq!(
        x(&pool_of("X = 270.000"))[0].to_bits(),
        0x4070_E000_0000_0000
    );
}

#[test]
fn the_class_ends_at_19_digits() {
    for rounded in ["9007199254740992", "9007199254740993"] {
        let pool = pool_of(&format!("X = {rounded}"));
        assert_eq!(x(&pool), [9007199254740992.0]);
    }
    assert_eq!(x(&pool_of("X = 9999999999999999999")), [1E19]);
    let number = Refused {
        refusal: Refusal::Number,
        line: 2,
        column: 5,
    };
    assert_eq!(refused("X = 10000000000000000000"), number);
    assert_eq!(x(&pool_of("X = ( 1E22 1.0E23 )")), [1E22, 1E23]);
    assert_eq!(refused("X = 1E23"), number);
}

#[test]
fn assignments_replace_and_append() {
    assert_eq!(x(&pool_of("X = 1\nX += 2")), [1.0, 2.0]);
    assert_eq!(x(&pool_of("X += 2\nX = 1")), [1.0]);
}

#[test]
fn a_removal_brings_back_what_was_replaced() {
    let mut pool = Pool::new();
    pool.load(7, "\\begindata\nX = 1").unwrap();
    pool.load(8, "\\begindata\nX = 2").unwrap();
    assert_eq!(x(&pool), [2.0]);
    pool.remove(8).unwrap();
    assert_eq!(x(&pool), [1.0]);
}

#[test]
fn angles_are_wrapped() {
    for (angle, wrapped) in [("-90", 270.0), ("-0", 0.0), ("360", 0.0), ("-1E-20", 0.0)] {
        let pool = pool_of(&format!(
            "BODY1_POLE_RA = {angle}\nBODY1_POLE_DEC = 0\nBODY1_PM = {angle}"
        ));
        let orientation = pool.orientation(1, 0.0).unwrap();
        assert_eq!(orientation.ra.to_bits(), f64::to_bits(wrapped), "{angle}");
        assert_eq!(orientation.w.to_bits(), f64::to_bits(wrapped), "{angle}");
    }
}

#[test]
fn the_earth_at_j2000() {
    let earth = builtin_orientation(399, 0.0).unwrap();
    let bits = [earth.ra, earth.dec, earth.w].map(f64::to_bits);
    assert_eq!(bits, [0.0, 90.0, 190.147].map(f64::to_bits));
    let third = earth.matrix[2].map(f64::to_bits);
    assert_eq!(third, [-0.0, -0.0, 1.0].map(f64::to_bits));
}

#[test]
fn the_last_epoch() {
    let last = 157_788_000_000.0_f64;
    for epoch in [last, -last] {
        assert!(builtin_orientation(10, epoch).is_ok());
        let next = f64::from_bits(epoch.to_bits() + 1);
        let refused = builtin_orientation(10, next).unwrap_err();
        assert_eq!(refused.refusal, Refusal::Epoch);
    }
}

#[test]
fn the_built_in_source_does_not_ask_for_a_pool() {
    let mut words: Box<[u64]> = Pool::new().words().into();
    words.fill(u64::MAX);
    let pool = Pool::from_words(words);
    let by_pool = pool.orientation(11, 0.0).unwrap_err();
    assert_eq!(by_pool.refusal, Refusal::DamagedPool);
    let built_in = builtin_orientation(11, 0.0).unwrap_err();
    assert_eq!(built_in.refusal, Refusal::UnknownBody);
    assert_eq!(builtin_radii(11).unwrap_err(), built_in);
}

#[test]
fn a_list_has_a_number() {
    let empty = Refused {
        refusal: Refusal::OpenList,
        line: 2,
        column: 7,
    };
    assert_eq!(refused("X = ( )"), empty);
}
