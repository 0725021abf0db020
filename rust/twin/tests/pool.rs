//! The pool: each call, each refusal, and every word of the memory.

use twin::layout::WORDS;
use twin::pool::{clear, fetch, fetch_string, load, make_empty, remove, totals, Totals};
use twin::refusal::{Refusal, Refused};

/// What memory holds before it is a pool.
const GARBAGE: u64 = 0xA5A5_A5A5_A5A5_A5A5;

fn data(lines: &str) -> Vec<u8> {
    format!("\\begindata\n{lines}").into_bytes()
}

fn empty_pool() -> Vec<u64> {
    let mut pool = vec![GARBAGE; WORDS];
    make_empty(&mut pool).unwrap();
    pool
}

fn pool_of(texts: &[(u32, &str)]) -> Vec<u64> {
    let mut pool = empty_pool();
    for (label, lines) in texts {
        load(&mut pool, *label, &data(lines)).unwrap();
    }
    pool
}

fn values(pool: &[u64], name: &str) -> Result<Vec<f64>, Refusal> {
    let mut buffer = vec![0.0; 3072];
    match fetch(pool, name.as_bytes(), &mut buffer) {
        Ok(count) => Ok(buffer[..count].to_vec()),
        Err(refused) => Err(refused.refusal),
    }
}

/// The string at a place of a variable.
fn string_at(pool: &[u64], name: &str, place: usize) -> Result<String, Refusal> {
    let mut buffer = [0; 60];
    match fetch_string(pool, name.as_bytes(), place, &mut buffer) {
        Ok(length) => Ok(String::from_utf8(buffer[..length].to_vec()).unwrap()),
        Err(refused) => Err(refused.refusal),
    }
}

fn held(texts: usize, statements: usize, values: usize) -> Result<Totals, Refused> {
    Ok(Totals {
        texts,
        statements,
        values,
    })
}

fn at(refusal: Refusal, line: u64, column: u64) -> Result<(), Refused> {
    Err(refusal.at(line, column))
}

/// A refusal that has no place in a text.
fn alone(refusal: Refusal) -> Result<(), Refused> {
    Err(refusal.into())
}

/// A call is refused, and every word stays.
#[track_caller]
fn refuses(
    pool: &mut [u64],
    call: impl Fn(&mut [u64]) -> Result<(), Refused>,
    expected: Result<(), Refused>,
) {
    let before = pool.to_vec();
    assert_eq!(call(pool), expected);
    assert_eq!(pool, before);
}

#[test]
fn marked_case_1_the_empty_text() {
    let mut pool = empty_pool();
    assert_eq!(load(&mut pool, 1, b""), Ok(()));
    assert_eq!(totals(&pool), held(1, 0, 0));
}

#[test]
fn marked_case_6_direct_and_append() {
    let pool = pool_of(&[(1, "X = 1\nX += 2")]);
    assert_eq!(values(&pool, "X"), Ok(vec![1.0, 2.0]));
    let pool = pool_of(&[(1, "X += 2\nX = 1")]);
    assert_eq!(values(&pool, "X"), Ok(vec![1.0]));
}

#[test]
fn marked_case_7_removal_gives_back() {
    let mut pool = pool_of(&[(7, "X = 1"), (8, "X = 2")]);
    assert_eq!(values(&pool, "X"), Ok(vec![2.0]));
    remove(&mut pool, 8).unwrap();
    assert_eq!(values(&pool, "X"), Ok(vec![1.0]));
}

#[test]
fn the_words_of_a_load() {
    let mut pool = empty_pool();
    let name = "ABCDEFGHIJKLMNOPQRSTUVWXYZ_12345";
    load(&mut pool, 7, &data(&format!("X = ( 1 -2 )\n{name} += 0.5"))).unwrap();
    load(&mut pool, u32::MAX, b"text").unwrap();
    let mut expected = vec![GARBAGE; WORDS];
    expected[..5].copy_from_slice(&[2, 2, 3, 0, 0]);
    expected[34..36].copy_from_slice(&[7 << 32 | 2, 0xFFFF_FFFF << 32]);
    expected[51] = 2;
    expected[52] = 1 << 32 | 1;
    expected[563..567].copy_from_slice(&[0x58 << 56, 0, 0, 0]);
    for (i, chunk) in name.as_bytes().chunks(8).enumerate() {
        expected[567 + i] = u64::from_be_bytes(chunk.try_into().unwrap());
    }
    expected[2611] = 1.0f64.to_bits();
    expected[2612] = (-2.0f64).to_bits();
    expected[2613] = 0.5f64.to_bits();
    assert_eq!(pool, expected);
}

#[test]
fn the_words_of_a_load_with_strings() {
    let mut pool = empty_pool();
    load(
        &mut pool,
        7,
        &data("X = ( 'Mars' '' 'it''s red' )\nY = 1\nX += 'a'"),
    )
    .unwrap();
    let mut expected = vec![GARBAGE; WORDS];
    expected[..5].copy_from_slice(&[1, 3, 5, 13, 0]);
    expected[34] = 7 << 32 | 3;
    expected[51..54].copy_from_slice(&[2 << 32 | 3, 1, 3 << 32 | 1]);
    for (place, name) in [0x58, 0x59, 0x58].into_iter().enumerate() {
        expected[563 + 4 * place..][..4].copy_from_slice(&[name << 56, 0, 0, 0]);
    }
    expected[2611..2616].copy_from_slice(&[4, 0, 8, 1.0f64.to_bits(), 1]);
    expected[5683] = u64::from_be_bytes(*b"Marsit's");
    expected[5684] = u64::from_be_bytes(*b" reda\xA5\xA5\xA5");
    assert_eq!(pool, expected);
}

#[test]
fn emptying_writes_the_totals_only() {
    let mut pool = pool_of(&[(1, "X = ( 1 2 )\nY = 'a'")]);
    let mut expected = pool.clone();
    expected[..4].fill(0);
    clear(&mut pool).unwrap();
    assert_eq!(pool, expected);
    let mut memory = vec![GARBAGE; WORDS];
    make_empty(&mut memory).unwrap();
    assert_eq!(memory[..5], [0; 5]);
    assert!(memory[5..].iter().all(|word| *word == GARBAGE));
}

#[test]
fn a_removal_closes_the_gaps_and_leaves_the_ends() {
    let mut pool = pool_of(&[(1, "X = ( 1 2 )"), (2, "Y = 3\nZ = ( 4 5 )"), (3, "X += 6")]);
    let mut expected = pool.clone();
    remove(&mut pool, 2).unwrap();
    expected[..4].copy_from_slice(&[2, 2, 3, 0]);
    expected[35] = expected[36];
    expected[52] = expected[54];
    expected.copy_within(563 + 12..563 + 16, 567);
    expected[2613] = expected[2616];
    assert_eq!(pool, expected);
    assert_eq!(values(&pool, "X"), Ok(vec![1.0, 2.0, 6.0]));
    assert_eq!(values(&pool, "Y"), Err(Refusal::NoVariable));
}

#[test]
fn a_removal_closes_the_gap_between_strings_too() {
    let mut pool = pool_of(&[
        (1, "X = ( 'one' 'two' )"),
        (2, "N = ( 1 2 )\nY = ( 'gone' '' 'gone too' )"),
        (3, "X += ( 'the third' 'text' )"),
    ]);
    let mut expected = pool.clone();
    remove(&mut pool, 2).unwrap();
    expected[..4].copy_from_slice(&[2, 2, 4, 19]);
    expected[35] = expected[36];
    expected[52] = expected[54];
    expected.copy_within(563 + 12..563 + 16, 567);
    expected.copy_within(2611 + 7..2611 + 9, 2613);
    // The bytes from the 20th on are what they were.
    let words = [*b"onetwoth", *b"e thirdt", *b"exthe th", *b"irdtext\xA5"];
    expected[5683..5687].copy_from_slice(&words.map(u64::from_be_bytes));
    assert_eq!(pool, expected);
    for (place, string) in ["one", "two", "the third", "text"].into_iter().enumerate() {
        assert_eq!(string_at(&pool, "X", place + 1), Ok(string.to_string()));
    }
    assert_eq!(string_at(&pool, "Y", 1), Err(Refusal::NoVariable));
}

#[test]
fn a_text_loaded_again_stands_last() {
    let mut pool = pool_of(&[(1, "X = 1"), (2, "X = 2")]);
    remove(&mut pool, 1).unwrap();
    load(&mut pool, 1, &data("X = 1")).unwrap();
    assert_eq!(values(&pool, "X"), Ok(vec![1.0]));
}

#[test]
fn a_fetch_writes_the_buffer_s_start_only() {
    let pool = pool_of(&[(1, "X = ( 1 2 3 )")]);
    let mut buffer = [9.0; 5];
    assert_eq!(fetch(&pool, b"X", &mut buffer), Ok(3));
    assert_eq!(buffer, [1.0, 2.0, 3.0, 9.0, 9.0]);
    let mut short = [9.0; 2];
    assert_eq!(
        fetch(&pool, b"X", &mut short),
        Err(Refusal::ShortBuffer.into())
    );
    assert_eq!(short, [9.0; 2]);
    assert_eq!(fetch(&pool, b"X", &mut [0.0; 3]), Ok(3));
}

#[test]
fn a_string_is_written_to_the_buffer_s_start_only() {
    let pool = pool_of(&[(1, "X = ( 'ab' '' 'it''s' )")]);
    let mut buffer = *b"------";
    assert_eq!(fetch_string(&pool, b"X", 3, &mut buffer), Ok(4));
    assert_eq!(&buffer, b"it's--");
    assert_eq!(fetch_string(&pool, b"X", 1, &mut buffer[..2]), Ok(2));
    assert_eq!(&buffer, b"ab's--");
    assert_eq!(fetch_string(&pool, b"X", 2, &mut buffer), Ok(0));
    assert_eq!(fetch_string(&pool, b"X", 2, &mut []), Ok(0));
    for (place, room, refusal) in [
        (1, 1, Refusal::ShortBuffer),
        (3, 3, Refusal::ShortBuffer),
        (3, 0, Refusal::ShortBuffer),
        (0, 6, Refusal::NoVariable),
        (4, 6, Refusal::NoVariable),
        (4, 0, Refusal::NoVariable),
        (usize::MAX, 6, Refusal::NoVariable),
    ] {
        let fetched = fetch_string(&pool, b"X", place, &mut buffer[..room]);
        assert_eq!(fetched, Err(refusal.into()), "{place} {room}");
    }
    assert_eq!(
        fetch_string(&pool, b"Y", 1, &mut buffer),
        Err(Refusal::NoVariable.into())
    );
    assert_eq!(&buffer, b"ab's--");
}

#[test]
fn both_kinds_under_one_name() {
    let mut pool = pool_of(&[(1, "X = 1"), (2, "X += ( 'a' 'b' )"), (3, "X += 2")]);
    assert_eq!(totals(&pool), held(3, 3, 4));
    for (name, place) in [("X", 1), ("X", 2), ("X", 4)] {
        assert_eq!(string_at(&pool, name, place), Err(Refusal::MixedKind));
    }
    // 13 is asked before 16, and 16 before 14.
    assert_eq!(string_at(&pool, "X", 0), Err(Refusal::NoVariable));
    assert_eq!(string_at(&pool, "X", 5), Err(Refusal::NoVariable));
    assert_eq!(
        fetch_string(&pool, b"X", 2, &mut []),
        Err(Refusal::MixedKind.into())
    );
    assert_eq!(fetch(&pool, b"X", &mut []), Err(Refusal::MixedKind.into()));
    assert_eq!(values(&pool, "X"), Err(Refusal::MixedKind));
    remove(&mut pool, 2).unwrap();
    assert_eq!(values(&pool, "X"), Ok(vec![1.0, 2.0]));
    assert_eq!(string_at(&pool, "X", 1), Err(Refusal::MixedKind));
    assert_eq!(string_at(&pool, "X", 3), Err(Refusal::NoVariable));
    load(&mut pool, 4, &data("X = 'now a string'")).unwrap();
    assert_eq!(string_at(&pool, "X", 1), Ok("now a string".to_string()));
    assert_eq!(values(&pool, "X"), Err(Refusal::MixedKind));
    load(&mut pool, 5, &data("X = 7")).unwrap();
    assert_eq!(values(&pool, "X"), Ok(vec![7.0]));
    remove(&mut pool, 5).unwrap();
    assert_eq!(string_at(&pool, "X", 1), Ok("now a string".to_string()));
}

/// Strings of so many bytes together, one a statement.
fn captions(bytes: usize) -> Vec<u8> {
    let lines: String = (0..bytes.div_ceil(60))
        .map(|i| format!("C += '{}'\n", "c".repeat(60.min(bytes - 60 * i))))
        .collect();
    data(&lines)
}

#[test]
fn the_room_of_strings() {
    let mut pool = empty_pool();
    refuses(
        &mut pool,
        |p| load(p, 1, &captions(8193)),
        alone(Refusal::NoRoom),
    );
    load(&mut pool, 1, &captions(8192)).unwrap();
    refuses(
        &mut pool,
        |p| load(p, 2, &captions(1)),
        alone(Refusal::NoRoom),
    );
    load(&mut pool, 2, &data("E = ( '' '' )\nN = 1")).unwrap();
    assert_eq!(string_at(&pool, "C", 137), Ok("c".repeat(32)));
    remove(&mut pool, 1).unwrap();
    load(&mut pool, 1, &captions(8191)).unwrap();
    refuses(
        &mut pool,
        |p| load(p, 3, &data("C = ''''''")),
        alone(Refusal::NoRoom),
    );
    // What is shadowed takes room too, and a doubled quote takes one byte of it.
    load(&mut pool, 3, &data("C = ''''")).unwrap();
    refuses(
        &mut pool,
        |p| load(p, 4, &data("C = 'c'")),
        alone(Refusal::NoRoom),
    );
    assert_eq!(string_at(&pool, "C", 1), Ok("'".to_string()));
    // A fault of the text comes first.
    let faulty = [&captions(2)[..], b"?"].concat();
    refuses(
        &mut pool,
        |p| load(p, 4, &faulty),
        at(Refusal::BadName, 3, 1),
    );
}

#[test]
fn strings_count_as_values() {
    let mut pool = empty_pool();
    let list = |n: usize| data(&format!("A = (\n{})", "''\n".repeat(n)));
    refuses(
        &mut pool,
        |p| load(p, 1, &list(3073)),
        alone(Refusal::NoRoom),
    );
    load(&mut pool, 1, &list(3071)).unwrap();
    refuses(
        &mut pool,
        |p| load(p, 2, &data("B = ( 1 2 )")),
        alone(Refusal::NoRoom),
    );
    load(&mut pool, 2, &data("B = 1")).unwrap();
    assert_eq!(totals(&pool), held(2, 2, 3072));
    assert_eq!(string_at(&pool, "A", 3071), Ok(String::new()));
}

#[test]
fn a_name_is_any_bytes_and_only_held_ones_are_found() {
    let long = "N".repeat(32);
    let pool = pool_of(&[(1, &format!("X = 1\n{long} = 2"))]);
    assert_eq!(values(&pool, &long), Ok(vec![2.0]));
    for name in [
        "",
        "x",
        "X ",
        "X\0",
        "XX",
        "\0",
        "\u{ff}",
        &"N".repeat(33),
        &"N".repeat(31),
    ] {
        assert_eq!(values(&pool, name), Err(Refusal::NoVariable), "{name:?}");
    }
}

#[test]
fn refusals_of_a_load_come_in_order() {
    let mut pool = pool_of(&[(1, "X = 1")]);
    let too_long = vec![b'?'; 65_537];
    refuses(
        &mut pool,
        |p| load(p, 1, &too_long),
        alone(Refusal::LabelHeld),
    );
    refuses(
        &mut pool,
        |p| load(p, 2, &too_long),
        alone(Refusal::TextTooLong),
    );
    let long_line = data(&"?".repeat(133));
    refuses(
        &mut pool,
        |p| load(p, 2, &long_line),
        at(Refusal::LineTooLong, 2, 133),
    );
    let many = "A=1\n".repeat(512);
    refuses(
        &mut pool,
        |p| load(p, 2, &data(&many)),
        alone(Refusal::NoRoom),
    );
    let many_and_faulty = many + "?";
    refuses(
        &mut pool,
        |p| load(p, 2, &data(&many_and_faulty)),
        at(Refusal::BadName, 514, 1),
    );
    refuses(
        &mut pool,
        |p| load(p, 2, &data("X = 1 \u{1}")),
        at(Refusal::BadByte, 2, 7),
    );
    refuses(
        &mut pool,
        |p| load(p, 2, &data("\nX = 1E99")),
        at(Refusal::Number, 3, 5),
    );
    refuses(&mut pool, |p| remove(p, 2), alone(Refusal::NotHeld));
}

#[test]
fn each_limit_of_the_room() {
    let mut pool = empty_pool();
    for label in 0..16 {
        load(&mut pool, label, b"").unwrap();
    }
    refuses(&mut pool, |p| load(p, 16, b""), alone(Refusal::NoRoom));
    remove(&mut pool, 3).unwrap();
    assert_eq!(load(&mut pool, 16, b""), Ok(()));

    let mut pool = empty_pool();
    let statements = |n: usize| data(&"A=1\n".repeat(n));
    refuses(
        &mut pool,
        |p| load(p, 1, &statements(513)),
        alone(Refusal::NoRoom),
    );
    load(&mut pool, 1, &statements(511)).unwrap();
    refuses(
        &mut pool,
        |p| load(p, 2, &statements(2)),
        alone(Refusal::NoRoom),
    );
    load(&mut pool, 2, &statements(1)).unwrap();
    assert_eq!(totals(&pool), held(2, 512, 512));

    let mut pool = empty_pool();
    let list = |n: usize| data(&format!("A = (\n{})", "1\n".repeat(n)));
    refuses(
        &mut pool,
        |p| load(p, 1, &list(3073)),
        alone(Refusal::NoRoom),
    );
    load(&mut pool, 1, &list(3071)).unwrap();
    refuses(&mut pool, |p| load(p, 2, &list(2)), alone(Refusal::NoRoom));
    load(&mut pool, 2, &list(1)).unwrap();
    assert_eq!(totals(&pool), held(2, 2, 3072));
}

#[test]
fn a_text_of_the_limit_s_length_is_loaded() {
    let mut pool = empty_pool();
    let text = vec![b'\n'; 65_536];
    assert_eq!(load(&mut pool, 1, &text), Ok(()));
}

/// Every call but make empty refuses, and nothing changes.
#[track_caller]
fn is_damaged(pool: &mut [u64]) {
    let damaged = alone(Refusal::DamagedPool);
    refuses(pool, |p| load(p, 1, b"?"), damaged);
    refuses(pool, |p| remove(p, 1), damaged);
    refuses(pool, clear, damaged);
    assert_eq!(totals(pool), Err(Refusal::DamagedPool.into()));
    let mut buffer = [9.0; 4];
    assert_eq!(
        fetch(pool, b"X", &mut buffer),
        Err(Refusal::DamagedPool.into())
    );
    assert_eq!(buffer, [9.0; 4]);
    let mut buffer = [9; 4];
    assert_eq!(
        fetch_string(pool, b"X", 0, &mut buffer),
        Err(Refusal::DamagedPool.into())
    );
    assert_eq!(buffer, [9; 4]);
}

#[test]
fn memory_of_another_size_is_damaged() {
    for size in [0, 1, 4, 5682, 6676, 6706, 6708, 10_000] {
        let mut pool = vec![0; size];
        is_damaged(&mut pool);
        refuses(&mut pool, make_empty, alone(Refusal::DamagedPool));
    }
}

#[test]
fn each_damage_and_its_neighbour() {
    const TWO_200: u64 = 0x4C70_0000_0000_0000;
    const SIGN: u64 = 1 << 63;
    const X: u64 = 0x58 << 56;
    let base = pool_of(&[(7, "X = ( 1 2 3 )"), (8, ""), (9, "Y += 4")]);
    let damages: &[&[(usize, u64)]] = &[
        &[(0, 17)],
        &[(0, 2)],
        &[(0, 3 + (1 << 32))],
        &[(0, u64::MAX)],
        &[(1, 513)],
        &[(1, 1)],
        &[(1, 2 + (1 << 32))],
        &[(2, 3073)],
        &[(2, 3)],
        &[(2, 5)],
        &[(2, 4 + (1 << 32))],
        &[(3, 1)],
        &[(3, 8193)],
        &[(3, 1 << 32)],
        &[(3, u64::MAX)],
        &[(35, 7 << 32)],
        &[(35, 9 << 32)],
        &[(34, 7 << 32)],
        &[(34, 7 << 32 | 2)],
        &[(34, 7 << 32 | 0xFFFF_FFFF), (35, 8 << 32 | 2)],
        &[(51, 4 << 32 | 3)],
        &[(51, 2 << 32 | 3)],
        &[(51, 2)],
        &[(51, 4), (52, 1 << 32)],
        &[(51, 0xFFFF_FFFF), (52, 1 << 32 | 5)],
        &[(563, 0)],
        &[(563, X >> 8)],
        &[(563, X | 1)],
        &[(564, X)],
        &[(566, 1)],
        &[(563, 0x2D << 56)],
        &[(563, X | 0x80 << 48)],
        &[(2611, TWO_200)],
        &[(2611, TWO_200 | SIGN)],
        &[(2614, 0x7FF0_0000_0000_0000)],
        &[(2614, 0x7FF8_0000_0000_0001)],
        &[(2614, u64::MAX)],
    ];
    are_damages(&base, damages);
    let neighbours: &[&[(usize, u64)]] = &[
        &[(35, 0)],
        &[(35, 0xFFFF_FFFF << 32)],
        &[(34, 7 << 32), (35, 8 << 32 | 1)],
        &[(51, 1 << 32 | 3)],
        &[(51, 1), (52, 3)],
        &[(563, u64::from_be_bytes(*b"azAZ09_x")), (564, X)],
        &[(2611, TWO_200 - 1), (2612, (TWO_200 - 1) | SIGN)],
        &[(2611, SIGN), (2612, 1), (2613, 1 | SIGN)],
        &[
            (37, 7 << 32),
            (53, u64::MAX),
            (571, 0),
            (2615, u64::MAX),
            (5682, u64::MAX),
            (5683, 0),
            (6706, 1),
        ],
    ];
    are_none(&base, neighbours, held(3, 2, 4));
}

/// Each set of words makes a damaged pool, which can be made empty again.
#[track_caller]
fn are_damages(base: &[u64], damages: &[&[(usize, u64)]]) {
    for changes in damages {
        let mut pool = changed(base, changes);
        is_damaged(&mut pool);
        make_empty(&mut pool).unwrap();
        assert_eq!(totals(&pool), held(0, 0, 0));
    }
}

/// No set of words makes a damaged pool.
#[track_caller]
fn are_none(base: &[u64], neighbours: &[&[(usize, u64)]], expected: Result<Totals, Refused>) {
    for changes in neighbours {
        assert_eq!(totals(&changed(base, changes)), expected, "{changes:X?}");
    }
}

fn changed(base: &[u64], changes: &[(usize, u64)]) -> Vec<u64> {
    let mut pool = base.to_vec();
    for (index, word) in changes {
        pool[*index] = *word;
    }
    pool
}

fn word(bytes: &[u8; 8]) -> u64 {
    u64::from_be_bytes(*bytes)
}

/// A pool of the strings "Mars", "", "red" and "caption", and of a number.
fn pool_of_strings() -> Vec<u64> {
    let pool = pool_of(&[(7, "X = ( 'Mars' '' 'red' )\nN = 1"), (9, "X += 'caption'")]);
    assert_eq!(pool[..4], [2, 3, 5, 14]);
    assert_eq!(
        pool[5683..5685],
        [word(b"Marsredc"), word(b"aption\xA5\xA5")]
    );
    pool
}

#[test]
fn each_damage_of_strings() {
    are_damages(
        &pool_of_strings(),
        &[
            &[(3, 13)],
            &[(3, 15)],
            &[(3, 0)],
            &[(3, 14 + (1 << 32))],
            &[(3, 8193), (2611, 8183)],
            &[(2611, 3)],
            &[(2611, 61), (3, 71)],
            &[(2611, u64::MAX), (2612, 5)],
            &[(2611, (1 << 63) + 4), (2612, 1 << 63)],
            &[(2615, 6)],
            &[(2615, 8)],
            // The heads: strings that are numbers, and numbers that are strings.
            &[(51, 3)],
            &[(51, 1 << 32 | 3)],
            &[(51, 4 << 32 | 3)],
            &[(51, 6 << 32 | 3)],
            &[(52, 2 << 32 | 1)],
            &[(53, 4 << 32 | 1)],
            &[(53, 2 << 32)],
            &[(53, 1 << 34 | 1)],
            // The bytes: the first, one within, the last in use.
            &[(5683, word(b"\narsredc"))],
            &[(5683, word(b"Mar\x7Fredc"))],
            &[(5683, word(b"Marsred\x80"))],
            &[(5683, word(b"Marsred\0"))],
            &[(5684, word(b"aptio\x1F\xA5\xA5"))],
            &[(5684, word(b"aptio\xFF\xA5\xA5"))],
        ],
    );
}

#[test]
fn neighbours_of_damages_of_strings() {
    let spaces = word(b"        ");
    let mut longest = vec![(2611, 60), (3, 70), (5684, word(b"aption  "))];
    longest.extend((5685..=5691).map(|index| (index, spaces)));
    are_none(
        &pool_of_strings(),
        &[
            &[(51, 3 << 32 | 3)],
            &[(53, 2 << 32 | 1)],
            &[(52, 1 << 32 | 1)],
            &[(2611, 0), (2612, 0), (2613, 7)],
            &[(2611, 5), (2615, 6)],
            &longest,
            &[(5683, word(b"\t ~'\"(),"))],
            &[(5684, word(b"aption\0\xFF"))],
            &[(5685, 0), (6706, 0)],
            // Numbers and strings change places with the bytes that belong to them.
            &[
                (52, 2 << 32 | 1),
                (2614, 2),
                (3, 16),
                (5684, word(b"aption: ")),
            ],
            &[(53, 1 << 32 | 1), (3, 7), (2615, 7)],
        ],
        held(2, 3, 5),
    );
}
