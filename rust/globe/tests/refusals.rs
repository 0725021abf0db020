//! Each refusal, met through the safe crate: its number, its line and column, its words, and that a
//! refused call changes nothing.

use globe::{builtin_orientation, Pool, Refusal, Refused, Ring, Source};

const BODY: &str = "\\begindata\nBODY1_POLE_RA = 1\nBODY1_POLE_DEC = 2\n";

fn at(refusal: Refusal, line: u32, column: u32) -> Refused {
    Refused {
        refusal,
        line,
        column,
    }
}

/// A refusal that has no place in a text.
fn alone(refusal: Refusal) -> Refused {
    at(refusal, 0, 0)
}

/// What a load of a text is refused with; the pool keeps every word.
fn refused(pool: &mut Pool, label: u32, text: &str) -> Refused {
    let before = pool.words().to_vec();
    let refused = pool.load(label, text).unwrap_err();
    assert_eq!(pool.words(), before);
    refused
}

#[test]
fn of_loads() {
    let mut pool = Pool::new();
    pool.load(1, "").unwrap();
    let long = format!("{}\\begindata", " ".repeat(123));
    assert_eq!(refused(&mut pool, 1, ""), alone(Refusal::LabelHeld));
    let over = "\n".repeat(65_537);
    assert_eq!(refused(&mut pool, 2, &over), alone(Refusal::TextTooLong));
    assert_eq!(
        refused(&mut pool, 2, &long),
        at(Refusal::LineTooLong, 1, 133)
    );
    let bad = "\\begindata\n\nX = 1\u{7f}";
    assert_eq!(refused(&mut pool, 2, bad), at(Refusal::BadByte, 3, 6));
    let number = "\\begindata\nX = ( 1E23";
    assert_eq!(refused(&mut pool, 2, number), at(Refusal::Number, 2, 7));
    let zero = "\\begindata\nX = 0E-23";
    assert_eq!(refused(&mut pool, 2, zero), at(Refusal::Number, 2, 5));
    let many = format!("\\begindata\n{}", "X = 1\n".repeat(513));
    assert_eq!(refused(&mut pool, 2, &many), alone(Refusal::NoRoom));
}

#[test]
fn of_statements() {
    use Refusal::{BadName, BadValue, NoOperator, OpenList, RestOfLine};
    let mut pool = Pool::new();
    let long = format!(" {} = 1", "N".repeat(33));
    for (lines, refused_at) in [
        ("\t'X' = 1", at(BadName, 2, 2)),
        (long.as_str(), at(BadName, 2, 2)),
        ("X-Y = 1", at(NoOperator, 2, 2)),
        ("X + = 1", at(NoOperator, 2, 3)),
        ("X  \r\n= 1", at(NoOperator, 2, 4)),
        ("X = 1.2.3", at(BadValue, 2, 5)),
        ("X =   ", at(BadValue, 2, 7)),
        ("X = ( 1\n (2))", at(BadValue, 3, 2)),
        ("X = )", at(BadValue, 2, 5)),
        ("X = (,)", at(OpenList, 2, 7)),
        ("X = ( 1\n \\begintext", at(OpenList, 3, 1)),
        ("X = ( 1\n", at(OpenList, 2, 8)),
        ("X = ( 1\n\n", at(OpenList, 3, 1)),
        ("X = 1 \t, 2", at(RestOfLine, 2, 8)),
        ("X = 1(", at(RestOfLine, 2, 6)),
    ] {
        let text = format!("\\begindata\n{lines}");
        assert_eq!(refused(&mut pool, 1, &text), refused_at, "{lines}");
    }
}

#[test]
fn of_loads_with_strings() {
    let mut pool = Pool::new();
    let caption = |bytes| format!("X += '{}'\n", "c".repeat(bytes));
    let too_long = caption(61);
    for (lines, line, column) in [
        ("X = 'a", 2, 5),
        ("X = 'a''", 2, 5),
        ("X = 'a'b", 2, 5),
        ("X = ( 1\n 'a' )", 3, 2),
        ("X = ( 'a'\n\n1E99 )", 4, 1),
        (too_long.as_str(), 2, 6),
    ] {
        let text = format!("\\begindata\n{lines}");
        let expected = at(Refusal::BadValue, line, column);
        assert_eq!(refused(&mut pool, 1, &text), expected);
    }
    let two = "\\begindata\nX = 'a' 'b'";
    assert_eq!(refused(&mut pool, 1, two), at(Refusal::RestOfLine, 2, 9));
    // 136 strings of 60 bytes and one of 32 are 8,192.
    let most = format!("\\begindata\n{}", caption(60).repeat(136));
    let over = format!("{most}{}", caption(33));
    assert_eq!(refused(&mut pool, 1, &over), alone(Refusal::NoRoom));
    pool.load(1, format!("{most}{}", caption(32))).unwrap();
    let one = "\\begindata\nY = 'c'";
    assert_eq!(refused(&mut pool, 2, one), alone(Refusal::NoRoom));
    pool.load(2, "\\begindata\nY = ''").unwrap();
}

#[test]
fn of_removals_and_fetches() {
    let mut pool = Pool::new();
    pool.load(1, "\\begindata\nX = ( 1 2 )").unwrap();
    let before = pool.words().to_vec();
    assert_eq!(pool.remove(2), Err(alone(Refusal::NotHeld)));
    assert_eq!(pool.words(), before);
    let mut buffer = [7.0; 1];
    let fetched = pool.fetch("Y", &mut buffer).unwrap_err();
    assert_eq!(fetched, alone(Refusal::NoVariable));
    let fetched = pool.fetch(b"X", &mut buffer).unwrap_err();
    assert_eq!(fetched, alone(Refusal::ShortBuffer));
    assert_eq!(buffer, [7.0]);
}

#[test]
fn of_fetches_of_strings() {
    let mut pool = Pool::new();
    let text = "\\begindata\nX = ( 'ab' '' )\nY = ( 1 2 )\nZ = 'a'\nZ += 1";
    pool.load(1, text).unwrap();
    let mut buffer = *b"-----";
    for (name, place, room, refusal) in [
        ("W", 1, 5, Refusal::NoVariable),
        ("X", 0, 5, Refusal::NoVariable),
        ("X", 3, 0, Refusal::NoVariable),
        ("X", usize::MAX, 5, Refusal::NoVariable),
        ("Y", 3, 5, Refusal::NoVariable),
        ("Y", 1, 0, Refusal::MixedKind),
        ("Z", 1, 0, Refusal::MixedKind),
        ("Z", 2, 5, Refusal::MixedKind),
        ("X", 1, 1, Refusal::ShortBuffer),
    ] {
        let fetched = pool.fetch_string(name, place, &mut buffer[..room]);
        assert_eq!(fetched, Err(alone(refusal)), "{name} {place} {room}");
    }
    assert_eq!(&buffer, b"-----");
    assert_eq!(pool.fetch_string("X", 2, &mut []), Ok(&b""[..]));
    assert_eq!(pool.fetch_string("X", 1, &mut buffer), Ok(&b"ab"[..]));
    assert_eq!(&buffer, b"ab---");
    for name in ["X", "Z"] {
        let fetched = pool.fetch(name, &mut []).unwrap_err();
        assert_eq!(fetched, alone(Refusal::MixedKind));
    }
}

#[test]
fn of_orientations_and_radii() {
    let mut pool = Pool::new();
    pool.load(1, BODY).unwrap();
    let orientation = |pool: &Pool, epoch| pool.orientation(1, epoch).unwrap_err();
    assert_eq!(orientation(&pool, f64::NAN), alone(Refusal::Epoch));
    let unknown = pool.orientation(2, 0.0).unwrap_err();
    assert_eq!(unknown, alone(Refusal::UnknownBody));
    assert_eq!(orientation(&pool, 0.0), alone(Refusal::Incomplete));
    pool.load(2, "\\begindata\nBODY1_PM = ( 1 2 3 4 )").unwrap();
    assert_eq!(orientation(&pool, 0.0), alone(Refusal::WrongCount));
    assert_eq!(pool.radii(1), Err(alone(Refusal::UnknownBody)));
    pool.load(3, "\\begindata\nBODY1_RADII = 1").unwrap();
    assert_eq!(pool.radii(1), Err(alone(Refusal::WrongCount)));
    pool.load(4, "\\begindata\nBODY1_RADII = 'a'\nBODY1_POLE_RA += 'a'")
        .unwrap();
    assert_eq!(pool.radii(1), Err(alone(Refusal::MixedKind)));
    pool.load(5, "\\begindata\nBODY1_RADII = ( 1 1 -0 )")
        .unwrap();
    assert_eq!(pool.radii(1), Err(alone(Refusal::BadRadius)));
    pool.load(6, "\\begindata\nBODY1_RADII = ( 1 1 2 )")
        .unwrap();
    assert_eq!(pool.radii(1), Ok([1.0, 1.0, 2.0]));
    assert_eq!(orientation(&pool, 0.0), alone(Refusal::MixedKind));
    pool.load(7, "\\begindata\nBODY1_NUT_PREC_PM = 'a'")
        .unwrap();
    assert_eq!(orientation(&pool, 0.0), alone(Refusal::Incomplete));
    pool.load(8, "\\begindata\nBODY1_NUT_PREC_ANGLES = ( 1 2 3 )")
        .unwrap();
    assert_eq!(orientation(&pool, 0.0), alone(Refusal::MixedKind));
    pool.load(9, "\\begindata\nBODY1_MAX_PHASE_DEGREE = 4")
        .unwrap();
    assert_eq!(orientation(&pool, 0.0), alone(Refusal::BadDegree));
    let negative = builtin_orientation(-31_i32 as u32, 0.0);
    assert_eq!(negative, Err(alone(Refusal::UnknownBody)));
}

#[test]
fn of_every_call_on_a_damaged_pool() {
    let mut words: Box<[u64]> = Pool::new().words().into();
    words[0] = 17;
    let mut pool = Pool::from_words(words);
    let damaged = alone(Refusal::DamagedPool);
    assert_eq!(pool.load(1, ""), Err(damaged));
    assert_eq!(pool.open(1).unwrap_err(), damaged);
    assert_eq!(pool.resume().unwrap_err(), damaged);
    assert_eq!(pool.remove(1), Err(damaged));
    assert_eq!(pool.clear(), Err(damaged));
    assert_eq!(pool.fetch("X", &mut []), Err(damaged));
    assert_eq!(pool.fetch_string("X", 0, &mut []), Err(damaged));
    assert_eq!(pool.totals(), Err(damaged));
    assert_eq!(pool.orientation(1, f64::NAN), Err(damaged));
    assert_eq!(pool.radii(11), Err(damaged));
    assert_eq!(pool.words()[0], 17);
    assert_eq!(pool.make_empty(), Ok(()));
    let short = pool.words().len() - 1;
    let mut short = Pool::from_words(vec![0; short].into());
    assert_eq!(short.make_empty(), Err(damaged));
}

/// 25, then 26, then those of the orientation.
#[test]
fn of_the_drive() {
    for positions in [0, 1, 4_097, u32::MAX] {
        assert_eq!(Ring::new(positions), Err(alone(Refusal::BadRing)));
    }
    let ring = Ring::new(2).unwrap();
    let damaged = Pool::from_words(Box::new([0; 3]));
    for present in [2, 3, u32::MAX] {
        let moved = ring.step_from(present, &damaged, 0, f64::NAN);
        assert_eq!(moved, Err(alone(Refusal::BadPosition)));
    }
    let asked = ring.position(&damaged, 0, f64::NAN);
    assert_eq!(asked, Err(alone(Refusal::DamagedPool)));
    let moved = ring.step_from(1, &damaged, 0, f64::NAN);
    assert_eq!(moved, Err(alone(Refusal::DamagedPool)));
    let moved = ring.step_from(1, Source::Builtin, 0, f64::NAN);
    assert_eq!(moved, Err(alone(Refusal::Epoch)));
    let asked = ring.position(&Pool::new(), 399, 0.0);
    assert_eq!(asked, Err(alone(Refusal::UnknownBody)));
}

#[test]
fn numbers_and_words() {
    let numbers = (1..=26).filter(|number| *number != 5);
    assert!(Refusal::ALL.map(Refusal::number).into_iter().eq(numbers));
    for refusal in Refusal::ALL {
        let shown = alone(refusal).to_string();
        let (number, name) = (refusal.number(), refusal.name());
        assert_eq!(shown, format!("refused {number} ({name}): {refusal}"));
        assert!(refusal.to_string().contains(';'), "{refusal}: what to do?");
    }
    let shown = at(Refusal::OpenList, 12, 7).to_string();
    assert!(shown.starts_with("refused 20 (OPEN LIST) at line 12, column 7: "));
}
