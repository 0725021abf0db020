//! Texts in parts through the safe crate: cut anywhere, dropped, refused, and from readers.

use std::io::{self, Read};

use globe::{NotLoaded, Pool, Refusal, Refused, Totals};

const KERNEL: &str = "note\r\n \\begindata\r\nX = (\n 1, 2\r\n)\nC = 'it''s'\n\\begintext";

fn at(refusal: Refusal, line: u32, column: u32) -> Refused {
    Refused {
        refusal,
        line,
        column,
    }
}

/// Opens a text, feeds it with parts and closes it.
fn closed(pool: &mut Pool, label: u32, parts: &[&[u8]]) -> Result<(), Refused> {
    let mut text = pool.open(label)?;
    for part in parts {
        text.feed(part);
    }
    text.close()
}

#[test]
fn cut_anywhere() {
    let kernel = KERNEL.as_bytes();
    for cut in 0..=kernel.len() {
        let mut pool = Pool::new();
        let (first, second) = kernel.split_at(cut);
        closed(&mut pool, 1, &[first, b"", second]).unwrap();
        assert_eq!(pool.fetch("X", &mut [0.0; 2]).unwrap(), [1.0, 2.0]);
        assert_eq!(pool.fetch_string("C", 1, &mut [0; 60]).unwrap(), b"it's");
    }
}

#[test]
fn a_text_that_goes_out_of_scope_is_dropped() {
    let mut pool = Pool::new();
    pool.load(1, "\\begindata\nX = 1").unwrap();
    let before = pool.totals();
    {
        let mut text = pool.open(2).unwrap();
        text.feed("\\begindata\nX = 2\nX = (");
        assert_eq!(text.pool().totals(), before);
        assert_eq!(text.pool().fetch("X", &mut [0.0]).unwrap(), [1.0]);
    }
    assert_eq!(pool.totals(), before);
    assert_eq!(pool.resume().unwrap_err(), at(Refusal::NotHeld, 0, 0));
    pool.load(2, "").unwrap();
}

#[test]
fn an_open_text_of_kept_memory() {
    let mut pool = Pool::new();
    let mut text = pool.open(2).unwrap();
    text.feed("\\begindata\nX");
    let mut kept = Pool::from_words(text.pool().words().into());
    let open = at(Refusal::TextOpen, 0, 0);
    let words = kept.words().to_vec();
    assert_eq!(kept.load(1, ""), Err(open));
    assert_eq!(kept.open(1).unwrap_err(), open);
    assert_eq!(kept.remove(1), Err(open));
    assert_eq!(kept.clear(), Err(open));
    assert_eq!(kept.words(), words);
    let mut text = kept.resume().unwrap();
    text.feed(" = 1");
    text.close().unwrap();
    assert_eq!(kept.totals().unwrap().statements, 1);

    let mut kept = Pool::from_words(words.into());
    kept.make_empty().unwrap();
    assert_eq!(kept.totals(), Ok(Totals::default()));
    kept.open(2).unwrap();
}

#[test]
fn what_closing_tells() {
    let mut pool = Pool::new();
    pool.load(1, "").unwrap();
    let held = at(Refusal::LabelHeld, 0, 0);
    assert_eq!(closed(&mut pool, 1, &[]), Err(held));
    for (lines, refused) in [
        ("X = 1E23\nX = ?", at(Refusal::Number, 2, 5)),
        ("X = ( 1\r\n", at(Refusal::OpenList, 2, 8)),
        ("X = ( 1\n ", at(Refusal::OpenList, 3, 2)),
        ("X = 1\r", at(Refusal::BadByte, 2, 6)),
    ] {
        let parts = [b"\\begindata\n", lines.as_bytes()];
        assert_eq!(closed(&mut pool, 2, &parts), Err(refused), "{lines}");
        assert_eq!(pool.totals().unwrap().texts, 1);
    }
    let many = "X = 1\n".repeat(513);
    let parts = [&b"\\begindata\n"[..], many.as_bytes()];
    let no_room = at(Refusal::NoRoom, 0, 0);
    assert_eq!(closed(&mut pool, 2, &parts), Err(no_room));
    let parts = [parts[0], parts[1], b"?"];
    let bad_name = at(Refusal::BadName, 515, 1);
    assert_eq!(closed(&mut pool, 2, &parts), Err(bad_name));
    let most = vec![b'\n'; 4_194_304];
    let too_long = at(Refusal::TextTooLong, 0, 0);
    assert_eq!(closed(&mut pool, 2, &[&most, b"x"]), Err(too_long));
    assert_eq!(closed(&mut pool, 2, &[&most]), Ok(()));
}

/// A reader that fails after its bytes, or goes on without an end.
struct Card<'a> {
    bytes: &'a [u8],
    fails: bool,
}

impl Read for Card<'_> {
    fn read(&mut self, buffer: &mut [u8]) -> io::Result<usize> {
        let read = self.bytes.read(buffer)?;
        if read > 0 {
            return Ok(read);
        }
        if self.fails {
            return Err(io::Error::other("the card is out"));
        }
        buffer.fill(b' ');
        Ok(buffer.len())
    }
}

#[test]
fn from_readers() {
    let kernel = format!("{}\\begindata\nX = 1\n", "A comment.\r\n".repeat(100_000));
    let mut pool = Pool::new();
    pool.load_from(1, kernel.as_bytes()).unwrap();
    assert_eq!(pool.totals().unwrap().statements, 1);
    let before = pool.totals();

    let faulty = kernel + "?";
    match pool.load_from(2, faulty.as_bytes()) {
        Err(NotLoaded::Refused(refused)) => {
            assert_eq!(refused, at(Refusal::BadName, 100_003, 1));
        }
        other => panic!("{other:?}"),
    }
    let card = |fails| Card {
        bytes: b"\\begindata\nX = 2\n",
        fails,
    };
    match pool.load_from(2, card(true)) {
        Err(NotLoaded::Unread(error)) => assert_eq!(error.to_string(), "the card is out"),
        other => panic!("{other:?}"),
    }
    match pool.load_from(2, card(false)) {
        Err(NotLoaded::Refused(refused)) => {
            assert_eq!(refused, at(Refusal::TextTooLong, 0, 0));
        }
        other => panic!("{other:?}"),
    }
    assert_eq!(pool.totals(), before);
    pool.load_from(2, io::empty()).unwrap();
}
