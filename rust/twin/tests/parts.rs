//! A text in parts: cut anywhere, it is what one load of the joined bytes is; and every word of an
//! open text.

mod common;

use common::Random;
use twin::answers::{orientation, radii};
use twin::layout::{pack_name, Held, WORDS};
use twin::limits::{PARTS_BYTES, TEXT_BYTES};
use twin::parts::{close, drop, feed, open};
use twin::pool::{clear, fetch, fetch_string, load, make_empty, remove, totals};
use twin::refusal::{Refusal, Refused};
use twin::text::read;

/// What memory holds before it is a pool.
const GARBAGE: u64 = 0xA5A5_A5A5_A5A5_A5A5;

/// The label under which texts are opened.
const LABEL: u32 = 9;

fn data(lines: &str) -> Vec<u8> {
    format!("\\begindata\n{lines}").into_bytes()
}

fn empty_pool() -> Vec<u64> {
    let mut pool = vec![GARBAGE; WORDS];
    make_empty(&mut pool).unwrap();
    pool
}

fn pool_of(texts: &[(u32, &str)]) -> Vec<u64> {
    let mut pool = empty_pool();
    for (label, lines) in texts {
        load(&mut pool, *label, &data(lines)).unwrap();
    }
    pool
}

/// A pool with some numbers and strings.
fn some_pool() -> Vec<u64> {
    pool_of(&[(7, "X = ( 1 2 )\nY = 'caption'"), (8, "X += 3")])
}

fn alone(refusal: Refusal) -> Result<(), Refused> {
    Err(refusal.into())
}

/// The words in use by held texts, area by area, and the bytes of their strings.
fn in_use(pool: &[u64]) -> (Vec<u64>, Vec<u8>) {
    let held = Held::of(pool).unwrap();
    let names: Vec<u64> = held.names.iter().flatten().copied().collect();
    let words = [&pool[..4], held.texts, held.heads, &names, held.values].concat();
    let bytes = (0..held.strings.length)
        .map(|place| held.strings.byte(place))
        .collect();
    (words, bytes)
}

/// The pool after a text was opened and fed with these parts; it is never damaged.
fn fed<'a>(pool: &[u64], parts: impl IntoIterator<Item = &'a [u8]>) -> Vec<u64> {
    let mut pool = pool.to_vec();
    open(&mut pool, LABEL).unwrap();
    for part in parts {
        assert_eq!(feed(&mut pool, part), Ok(()));
    }
    assert!(totals(&pool).is_ok());
    pool
}

/// Closing answers as a load of the whole text does, and leaves the same texts; refused, it leaves
/// every word but the one that says whether a text is open.
#[track_caller]
fn closes_as_a_load(before: &[u64], opened: &[u64], text: &[u8]) {
    let mut loaded = before.to_vec();
    let expected = load(&mut loaded, LABEL, text);
    let mut closed = opened.to_vec();
    let answer = close(&mut closed);
    assert_eq!(answer, expected, "{}", text.escape_ascii());
    assert_eq!(in_use(&closed), in_use(&loaded), "{}", text.escape_ascii());
    if answer.is_err() {
        let mut ended = opened.to_vec();
        ended[4] = 0;
        assert!(closed == ended, "{}", text.escape_ascii());
    }
    assert_eq!(close(&mut closed), alone(Refusal::NotHeld));
}

/// Right texts and faulty ones, with each thing that may be cut.
fn samples() -> Vec<Vec<u8>> {
    let mut samples: Vec<Vec<u8>> = [
        "",
        "\n",
        "\r",
        "\r\n",
        "\r\r\n",
        "\n\r",
        "X = 1",
        "a note\n\\begindata\nX = 1\n",
        "\\begindata",
        "\\begindata\r",
        "\\begindata\r\n",
        " \t\\begindata\t \nX = ( 1 2,\n3 )\n \\begintext \nX = 4\n\\begindata\nY += 5",
        "\\begindata\r\nX = ( 1\r\n 2 )\r\nY = 'it''s'\r\n",
        "\\begindata\nX = 1\r\r\n",
        "\\begindata\nX = (\n\n \n'a' '' 'caption' )\nZ = 2",
        "\\begindata\nX += (\n\n0\n0 )\nX = ( -0 )",
        "\\begindata\nX = (\n)\nY = 2",
        "\\begindata\nX = (\n1\n)\nY = ( ",
        "\\begindata\nX = ( 'a'\n 1 )",
        "\\begindata\nX = ( 1\n\\begintext\nnote",
        "\\begindata\nX = ( 1\n",
        "\\begindata\nX = ( 1\n\n",
        "\\begindata\nX = ( 1\r",
        "\\begindata\nX = (",
        "\\begindata\nX = 1E23\nX = ?",
        "\\begindata\nX = ?\nX = 1E23\n",
        "\\begindata\nX = 1 \u{1}\n",
        "\\begindata\n 'X'\n",
        "\\begindata\nX\n= 1",
        "\\begindata\nX = 1 2",
        "\\begindata\nX = \n",
        "\\begintext\n\\begindata\n\\begindata\nX=1\n\\begintext\n\\begin",
    ]
    .iter()
    .map(|text| text.as_bytes().to_vec())
    .collect();
    // A blank within the word, where the kept line is full: no delimiter, however it is cut.
    let torn = format!("{}\\begin data\n?", " ".repeat(127));
    samples.push(torn.into_bytes());
    let word = "\\begindata";
    for length in [131, 132, 133, 134, 160] {
        let blanks = length - word.len();
        for (before, after) in [(blanks, 0), (0, blanks), (7, blanks - 7), (blanks - 7, 7)] {
            let padded = format!("{}{word}{}", " ".repeat(before), "\t".repeat(after));
            samples.push(format!("{padded}\r\nX = 1").into_bytes());
            samples.push(format!("{padded}x\nX = 1").into_bytes());
            samples.push(format!("{padded}\r").into_bytes());
        }
        let line = format!("X = 1{}", " ".repeat(length - 5));
        samples.push(data(&format!("{line}\nY = 2")));
        samples.push(data(&format!("X = ( 1\n{} )\r\n", " ".repeat(length - 2))));
        samples.push(data(&format!("{line}\r")));
    }
    samples
}

#[test]
fn cut_at_every_byte() {
    for before in [empty_pool(), some_pool()] {
        for text in samples() {
            let whole = fed(&before, [&text[..]]);
            closes_as_a_load(&before, &whole, &text);
            for cut in 0..=text.len() {
                let (first, second) = text.split_at(cut);
                let opened = fed(&before, [first, second]);
                assert!(opened == whole, "{} at {cut}", text.escape_ascii());
            }
        }
    }
}

#[test]
fn byte_by_byte_no_pool_is_damaged() {
    let before = some_pool();
    for text in samples() {
        let mut pool = fed(&before, []);
        for byte in &text {
            assert_eq!(feed(&mut pool, &[*byte]), Ok(()));
            assert_eq!(feed(&mut pool, b""), Ok(()));
            assert_eq!(totals(&pool), totals(&before));
        }
        assert!(pool == fed(&before, [&text[..]]));
        closes_as_a_load(&before, &pool, &text);
    }
}

/// A line of blanks and pieces of delimiters, about as long as what is kept of it or longer.
fn hostile_line(random: &mut Random) -> Vec<u8> {
    let mut line = Vec::new();
    for _ in 0..=random.below(4) {
        let blanks = random.one(&[0, 0, 1, 2, 100, 122, 123, 124, 133, 400]);
        line.extend(vec![random.one(b" \t"); blanks]);
        let word = random.one(&[
            "\\begindata",
            "\\begintext",
            "\\begin",
            "data",
            "x",
            "\r",
            "",
        ]);
        line.extend(word.bytes());
    }
    line
}

#[test]
fn a_kept_line_tells_what_the_whole_one_does() {
    let mut random = Random(5);
    let before = empty_pool();
    for _ in 0..4_000 {
        let mut text = Vec::new();
        for _ in 0..=random.below(3) {
            text.extend(hostile_line(&mut random));
            text.extend(random.one(&["\n", "\r\n", "\n\\begintext\n"]).bytes());
        }
        text.truncate(text.len() - random.below(3) as usize);
        let size = random.one(&[1, 2, 7, 60, 133]);
        let opened = fed(&before, text.chunks(size));
        assert!(opened == fed(&before, [&text[..]]));
        closes_as_a_load(&before, &opened, &text);
    }
}

/// What closing answers after a text was fed in parts of a length.
fn answer_in_parts(text: &[u8], length: usize) -> (Result<(), Refused>, Vec<u64>) {
    let mut pool = fed(&empty_pool(), text.chunks(length));
    (close(&mut pool), pool)
}

#[test]
fn lines_of_a_megabyte() {
    let note = "x".repeat(1 << 20);
    let blanks = " ".repeat(1 << 20);
    for (text, expected) in [
        (format!("{note}\n\\begindata\nX = 1"), Ok(())),
        (format!("{note}\\begindata\n'X' = 1"), Ok(())),
        (format!("{blanks}\\begindata x\n?"), Ok(())),
        (format!("\\begindata{blanks}x\n?"), Ok(())),
        (
            format!("{blanks}\\begindata{blanks}"),
            Err(Refusal::LineTooLong.at(1, 133)),
        ),
        (
            format!("note\r\n\\begindata{blanks}\r\n"),
            Err(Refusal::LineTooLong.at(2, 133)),
        ),
        (
            format!("\\begindata\n{blanks}"),
            Err(Refusal::LineTooLong.at(2, 133)),
        ),
    ] {
        for length in [512, 65_536, text.len()] {
            assert_eq!(answer_in_parts(text.as_bytes(), length).0, expected);
        }
        assert_eq!(
            read(text.as_bytes()).map(|_| ()),
            expected,
            "{}",
            text.len()
        );
    }
}

#[test]
fn a_kernel_of_megabytes() {
    let note = format!("{}\n", "note ".repeat(15)).repeat(20_000);
    let text = format!("{note}\\begindata\nX = ( 1\n 2 )\n\\begintext\n{note}\\begindata\nX += 3");
    assert!((2 << 20..PARTS_BYTES).contains(&text.len()));
    for length in [512, 4096, text.len()] {
        let (answer, pool) = answer_in_parts(text.as_bytes(), length);
        assert_eq!(answer, Ok(()));
        let mut buffer = [0.0; 3];
        assert_eq!(fetch(&pool, b"X", &mut buffer), Ok(3));
        assert_eq!(buffer, [1.0, 2.0, 3.0]);
    }
    let faulty = text + "\nX = 1,";
    let refused = Refusal::RestOfLine.at(40_007, 6);
    assert_eq!(answer_in_parts(faulty.as_bytes(), 512).0, Err(refused));
}

#[test]
fn the_limit_of_parts() {
    let most = vec![b'\n'; PARTS_BYTES];
    let mut pool = fed(&empty_pool(), [&most[..]]);
    assert_eq!(pool[16], PARTS_BYTES as u64);
    assert_eq!(pool[12], PARTS_BYTES as u64);
    let full = pool.clone();
    assert_eq!(close(&mut pool), Ok(()));

    // One byte more is 2, whatever else is wrong, and no further byte is read.
    let mut pool = full;
    feed(&mut pool, b"x").unwrap();
    let over = pool.clone();
    assert_eq!(pool[16], PARTS_BYTES as u64 + 1);
    for part in [&b"y\n"[..], &most] {
        feed(&mut pool, part).unwrap();
        assert!(pool == over);
    }
    assert_eq!(close(&mut pool), alone(Refusal::TextTooLong));

    let faulty = [&data("?\n")[..], &most].concat();
    for length in [512, 1 << 20, faulty.len()] {
        let (answer, _) = answer_in_parts(&faulty, length);
        assert_eq!(answer, alone(Refusal::TextTooLong));
    }
    let (answer, _) = answer_in_parts(&faulty[..PARTS_BYTES], 4096);
    assert_eq!(answer, Err(Refusal::BadName.at(2, 1)));
}

#[test]
fn a_text_over_the_limit_of_loads() {
    let text = [&vec![b'\n'; TEXT_BYTES][..], &data("X = 1")].concat();
    let mut pool = empty_pool();
    assert_eq!(load(&mut pool, 1, &text), alone(Refusal::TextTooLong));
    let (answer, _) = answer_in_parts(&text, 512);
    assert_eq!(answer, Ok(()));
}

#[test]
fn the_order_of_refusals() {
    let mut pool = some_pool();
    let closed = alone(Refusal::NotHeld);
    assert_eq!(feed(&mut pool, b""), closed);
    assert_eq!(close(&mut pool), closed);
    assert_eq!(drop(&mut pool), closed);
    assert_eq!(open(&mut pool, 7), alone(Refusal::LabelHeld));
    open(&mut pool, LABEL).unwrap();
    feed(&mut pool, &data("X = 5\nX = (")).unwrap();
    let before = pool.clone();
    let busy = alone(Refusal::TextOpen);
    for label in [7, LABEL, 10] {
        assert_eq!(open(&mut pool, label), busy);
        assert_eq!(load(&mut pool, label, &[b'?'; 70_000]), busy);
        assert_eq!(remove(&mut pool, label), busy);
    }
    assert_eq!(clear(&mut pool), busy);
    assert!(pool == before);
}

#[test]
fn queries_see_what_is_held() {
    let lines = "BODY1_POLE_RA = 1\nBODY1_POLE_DEC = 2\nBODY1_PM = 3\nBODY1_RADII = ( 1 2 3 )";
    let before = pool_of(&[(1, lines), (2, "C = 'old'")]);
    let mut pool = fed(&before, []);
    let news =
        data("BODY1_PM = 9\nBODY1_RADII = ( 9 9 9 )\nC = 'new'\nBODY1_POLE_RA += 'a'\nX = (");
    let mut buffer = [0.0; 3];
    for byte in news {
        feed(&mut pool, &[byte]).unwrap();
        assert_eq!(totals(&pool), totals(&before));
        assert_eq!(fetch(&pool, b"BODY1_PM", &mut buffer), Ok(1));
        assert_eq!(buffer[0], 3.0);
        let mut string = [0; 60];
        assert_eq!(fetch_string(&pool, b"C", 1, &mut string), Ok(3));
        assert_eq!(&string[..3], b"old");
        assert_eq!(
            fetch(&pool, b"X", &mut buffer),
            Err(Refusal::NoVariable.into())
        );
        assert_eq!(radii(&pool, 1), Ok([1.0, 2.0, 3.0]));
        assert!(orientation(&pool, 1, 0.0).is_ok());
    }
}

#[test]
fn a_dropped_text_was_never_there() {
    let before = some_pool();
    let mut pool = fed(&before, [&data("X = 5\nC = 'open'\nZ = (")[..]]);
    let mut dropped = pool.clone();
    dropped[4] = 0;
    assert_eq!(drop(&mut pool), Ok(()));
    assert!(pool == dropped);
    assert_eq!(in_use(&pool), in_use(&before));
    assert_eq!(drop(&mut pool), alone(Refusal::NotHeld));
    load(&mut pool, LABEL, &data("X = 6")).unwrap();

    let mut pool = fed(&before, [&b"note"[..]]);
    make_empty(&mut pool).unwrap();
    assert_eq!(pool[..5], [0; 5]);
    open(&mut pool, 7).unwrap();
}

#[test]
fn sixteen_texts_held() {
    let mut pool = empty_pool();
    for label in 100..116 {
        load(&mut pool, label, &data("X += 1")).unwrap();
    }
    for (text, expected) in [
        (data("X = 1"), alone(Refusal::NoRoom)),
        (Vec::new(), alone(Refusal::NoRoom)),
        (data("X = ?"), Err(Refusal::BadValue.at(2, 5))),
        (data("X = (\n1"), Err(Refusal::OpenList.at(3, 2))),
    ] {
        let mut opened = fed(&pool, text.chunks(3));
        assert_eq!(close(&mut opened), expected);
        closes_as_a_load(&pool, &fed(&pool, [&text[..]]), &text);
    }
}

#[test]
fn no_room_and_then_a_fault() {
    let many = data(&"A = 1\n".repeat(513));
    let mut pool = fed(&empty_pool(), many.chunks(512));
    // Nothing is left of what was stored, and the text is read on.
    assert_eq!((pool[5], pool[7], pool[34]), (0, 1, u64::from(LABEL) << 32));
    feed(&mut pool, b"B = ( 1\n").unwrap();
    let mut faulty = pool.clone();
    assert_eq!(close(&mut pool), Err(Refusal::OpenList.at(515, 8)));
    feed(&mut faulty, b"2 'a' )\n").unwrap();
    feed(&mut faulty, b"?\n").unwrap();
    assert_eq!(close(&mut faulty), Err(Refusal::BadValue.at(516, 3)));
    let mut pool = fed(&empty_pool(), [&many[..], b"B = ( 1\n)"]);
    assert_eq!(close(&mut pool), alone(Refusal::NoRoom));
}

#[test]
fn each_limit_of_the_room() {
    let caption = |bytes: usize| format!("C += '{}'\n", "c".repeat(bytes));
    for (text, fits) in [
        (data(&"A = 1\n".repeat(509)), true),
        (data(&"A = 1\n".repeat(510)), false),
        (data(&format!("A = (\n{})", "1\n".repeat(3068))), true),
        (data(&format!("A = (\n{})", "1\n".repeat(3069))), false),
        (data(&format!("A = (\n{}2 )", "1\n".repeat(3068))), false),
        (data(&(caption(60).repeat(136) + &caption(25))), true),
        (data(&(caption(60).repeat(136) + &caption(26))), false),
    ] {
        let before = some_pool();
        let opened = fed(&before, text.chunks(100));
        closes_as_a_load(&before, &opened, &text);
        assert_eq!(close(&mut opened.clone()).is_ok(), fits);
    }
    // The last value's place is taken by a list that has none yet: the first value fits there.
    let before = pool_of(&[(1, &format!("A = (\n{})", "1\n".repeat(3071)))]);
    for lines in ["B = (\n5\n)", "B = (\n\n)", "B = (\n5\n6)", "B = (\n'a')"] {
        let text = data(lines);
        closes_as_a_load(&before, &fed(&before, text.chunks(1)), &text);
    }
}

/// The words of an open text, the garbage of others kept.
fn expected_words(words: &[(usize, u64)]) -> Vec<u64> {
    let mut expected = vec![GARBAGE; WORDS];
    expected[..34].fill(0);
    expected[4] = 1;
    expected[34] = u64::from(LABEL) << 32;
    for (index, word) in words {
        expected[*index] = *word;
    }
    expected
}

fn name(index: usize, name: &str) -> impl Iterator<Item = (usize, u64)> {
    let words = pack_name(name.as_bytes()).unwrap();
    (0..4).map(move |place| (563 + 4 * index + place, words[place]))
}

#[test]
fn the_words_of_an_open_text() {
    let mut pool = fed(&empty_pool(), []);
    assert!(pool == expected_words(&[]));

    feed(&mut pool, b"\\begindata\r\nX += (\r").unwrap();
    let first = [(8, 1), (12, 1), (13, 10), (14, 6), (15, 1), (16, 19)];
    let line = (17, u64::from_be_bytes(*b"X += (\0\0"));
    assert!(pool == expected_words(&[&first[..], &[line]].concat()));

    // The list holds a place by the number 0.
    feed(&mut pool, b"\n").unwrap();
    let label = u64::from(LABEL) << 32;
    let mut words = vec![(5, 1), (8, 2), (12, 2), (13, 6), (16, 20), (34, label | 1)];
    words.extend([(51, 1 << 32 | 1), (2611, 0)]);
    words.extend(name(0, "X"));
    assert!(pool == expected_words(&words));

    feed(&mut pool, b" 'it''s' '' \nabcdefghi").unwrap();
    let mut words = vec![(5, 2), (6, 4), (8, 4), (12, 3), (13, 12), (14, 9), (16, 42)];
    words.extend([(17, u64::from_be_bytes(*b"abcdefgh")), (18, 0x69 << 56)]);
    words.extend([(34, label | 1), (51, 3 << 32 | 2), (2611, 4), (2612, 0)]);
    words.extend(name(0, "X"));
    words.push((5683, u64::from_be_bytes(*b"it's\xA5\xA5\xA5\xA5")));
    assert!(pool == expected_words(&words));

    // After a faulty line nothing is stored, and lines are only counted.
    feed(&mut pool, b"\nX = ?\nmore").unwrap();
    let mut words = vec![(7, 2), (9, 4), (10, 4), (12, 5), (13, 5), (14, 4), (16, 53)];
    words.push((17, u64::from_be_bytes(*b"more\0\0\0\0")));
    words.extend([(51, 3 << 32 | 2), (2611, 4), (2612, 0)]);
    words.extend(name(0, "X"));
    words.push((5683, u64::from_be_bytes(*b"it's\xA5\xA5\xA5\xA5")));
    assert!(pool == expected_words(&words));
    assert_eq!(close(&mut pool), Err(Refusal::BadValue.at(4, 1)));
}

#[test]
fn what_closing_writes() {
    let before = some_pool();
    let opened = fed(&before, [&data("X = 5\nY = ( 'a' )")[..]]);
    let mut closed = opened.clone();
    close(&mut closed).unwrap();
    let mut expected = opened;
    expected[..5].copy_from_slice(&[3, 5, 6, 8, 0]);
    expected[36] = u64::from(LABEL) << 32 | 2;
    expected[51 + 4] = 2 << 32 | 1;
    expected[563 + 16..563 + 20].copy_from_slice(&pack_name(b"Y").unwrap());
    expected[2611 + 5] = 1;
    expected[5683] = u64::from_be_bytes(*b"captiona");
    assert!(closed == expected);
}

/// A pool with one text held and one open: two statements with three values, and half a line.
fn half_open() -> Vec<u64> {
    let before = pool_of(&[(7, "X = ( 1 2 )\nY = 'caption'")]);
    fed(&before, [&data("Z = 3\nC = ( 'one'\n'two'\n  ")[..]])
}

/// Every call but make empty refuses, and nothing changes.
#[track_caller]
fn is_damaged(pool: &[u64]) {
    let damaged = alone(Refusal::DamagedPool);
    let mut after = pool.to_vec();
    assert_eq!(open(&mut after, 1), damaged);
    assert_eq!(feed(&mut after, b"\n"), damaged);
    assert_eq!(close(&mut after), damaged);
    assert_eq!(drop(&mut after), damaged);
    assert_eq!(load(&mut after, 1, b"?"), damaged);
    assert_eq!(remove(&mut after, 1), damaged);
    assert_eq!(clear(&mut after), damaged);
    assert_eq!(totals(&after), Err(Refusal::DamagedPool.into()));
    assert!(after == pool);
    make_empty(&mut after).unwrap();
    assert_eq!(open(&mut after, 1), Ok(()));
}

fn changed(base: &[u64], changes: &[(usize, u64)]) -> Vec<u64> {
    let mut pool = base.to_vec();
    for (index, word) in changes {
        pool[*index] = *word;
    }
    pool
}

#[test]
fn each_damage_of_an_open_text() {
    let base = half_open();
    assert_eq!(base[..7], [1, 2, 3, 7, 1, 3, 6]);
    assert_eq!(base[35], u64::from(LABEL) << 32 | 2);
    let label = u64::from(LABEL) << 32;
    let damages: &[&[(usize, u64)]] = &[
        // Its values and bytes: others than its statements have, or beyond the room.
        &[(5, 2)],
        &[(5, 4)],
        &[(5, u64::MAX - 2)],
        &[(5, 3 + (1 << 32))],
        &[(6, 5)],
        &[(6, 7)],
        &[(6, u64::MAX)],
        // Its word: a held label, or another number of statements.
        &[(35, 7 << 32 | 2)],
        &[(35, label | 1)],
        &[(35, label | 3)],
        &[(35, label | 0xFFFF_FFFF)],
        // Its statements, names, values and bytes.
        &[(53, 0)],
        &[(53, 4 << 32 | 1)],
        &[(54, 2)],
        &[(563 + 8, 0)],
        &[(563 + 12, 0x2D << 56)],
        &[(2611 + 3, 0x7FF0_0000_0000_0000)],
        &[(2611 + 4, 61)],
        &[(5684, u64::from_be_bytes(*b"netw\x01\xA5\xA5\xA5"))],
        // The kept line and the number of bytes.
        &[(14, 134)],
        &[(14, u64::MAX)],
        &[(16, PARTS_BYTES as u64 + 2)],
        &[(16, u64::MAX)],
        // What is held is asked as before.
        &[(0, 2)],
        &[(1, 4), (2, 6), (3, 13)],
    ];
    for changes in damages {
        is_damaged(&changed(&base, changes));
        // None of it is looked at once the text is closed.
        let held_too = changes.iter().any(|(index, _)| *index < 4);
        let mut closed = changed(&base, changes);
        closed[4] = 0;
        assert_eq!(totals(&closed).is_ok(), !held_too, "{changes:X?}");
    }
}

#[test]
fn every_other_content_has_a_meaning() {
    let base = half_open();
    for word in [0, 1, 2, 3, 4, 5, 77, 133, 134, PARTS_BYTES as u64, u64::MAX] {
        for index in [7, 8, 9, 10, 11, 12, 13, 15, 17, 33] {
            let mut pool = changed(&base, &[(index, word)]);
            assert_eq!(totals(&pool), totals(&base));
            for part in [&b""[..], b"x", b"'\n", b"1\n)\n", b"Y = (\n", b"\n"] {
                feed(&mut pool, part).unwrap();
                let again = pool.clone();
                feed(&mut pool, b"").unwrap();
                assert!(pool == again);
                assert_eq!(totals(&pool), totals(&base));
                let mut closed = pool.clone();
                assert_ne!(close(&mut closed), alone(Refusal::DamagedPool));
                assert!(totals(&closed).is_ok());
            }
        }
    }
    // Whatever is not 0 says that a text is open, and is written as 1.
    let mut pool = changed(&base, &[(4, u64::MAX)]);
    feed(&mut pool, b"").unwrap();
    assert!(pool == base);
    // Numbers out of range are read by their remainder.
    let wild = changed(
        &base,
        &[
            (7, 3),
            (8, 9),
            (12, 4_194_306 + 4),
            (13, 134 + 5),
            (15, 8),
            (16, 40),
        ],
    );
    let mut tame = wild.clone();
    feed(&mut tame, b"").unwrap();
    let words = [(7, 0), (8, 4), (12, 4), (13, 5), (15, 0), (16, 40)];
    assert!(tame == changed(&base, &words));
}

#[test]
fn a_reader_is_believed_as_far_as_a_statement_bears_it_out() {
    let opened = |lines: &str| fed(&empty_pool(), [&data(lines)[..]]);
    for (lines, said, read) in [
        // No statement: a data section.
        ("", 2, 1),
        ("", 3, 1),
        ("", 4, 1),
        // The last statement's own kind.
        ("X = 5\n", 2, 3),
        ("X = 5\n", 4, 3),
        ("X = 'a'\n", 2, 4),
        ("X = 'a'\n", 3, 4),
        // A list without a value only where the number 0 holds its place.
        ("X = 0\n", 2, 2),
        ("X = 0\n", 3, 3),
        ("X = -0\n", 2, 3),
        ("X = ( 0 0 )\n", 2, 3),
        ("X = ''\n", 2, 4),
        ("X = 5\n", 0, 0),
        ("X = 5\n", 1, 1),
    ] {
        let mut pool = changed(&opened(lines), &[(8, said)]);
        feed(&mut pool, b"").unwrap();
        assert_eq!(pool[8], read, "{lines} {said}");
    }
    let mut pool = changed(&opened("X = 0\n"), &[(8, 2)]);
    feed(&mut pool, b"'a')\n").unwrap();
    close(&mut pool).unwrap();
    assert_eq!(fetch_string(&pool, b"X", 1, &mut [0]), Ok(1));
    // Where nothing is stored any more, nothing bears it out or speaks against it.
    let mut pool = changed(&opened(&"X = 1\n".repeat(513)), &[(8, 2)]);
    feed(&mut pool, b")\n").unwrap();
    assert_eq!(close(&mut pool), Err(Refusal::OpenList.at(515, 1)));
}

#[test]
fn a_fault_is_told_as_it_is_kept() {
    let base = fed(&some_pool(), [&data("?")[..]]);
    for (fault, number) in [3, 4, 17, 18, 19, 20, 21, 6].into_iter().enumerate() {
        let words = [(7, 2), (9, fault as u64), (10, 12), (11, 132)];
        let mut pool = changed(&base, &words);
        let refused = close(&mut pool).unwrap_err();
        assert_eq!(refused.refusal.number(), number);
        assert_eq!((refused.line, refused.column), (12, 133));
    }
}
