//! Texts that a query does not read: brought, in whole and in parts, taken out and moved about, they
//! leave every orientation and radii answer as it was, to the last bit. Their names are captions'
//! and near misses of those that are read.

use twin::layout::WORDS;
use twin::limits::{NAME_BYTES, TEXTS};
use twin::reads::{names, Asked};

use crate::bodies::{self, coefficient, held_code};
use crate::call::{Answer, Call};
use crate::epochs::epoch;
use crate::pair::Pair;
use crate::random::Random;
use crate::tally::Tally;

/// How often the texts of a pool are changed.
const CHANGES: usize = 6;

/// Words of variables that nothing reads.
const CAPTIONS: [&str; 5] = ["CAPTION", "GM", "LONG_AXIS", "POLE", "RADIUS"];

/// A text, and whether a query may read it; such texts keep their order.
#[derive(Clone)]
struct Text {
    label: u32,
    bytes: Vec<u8>,
    is_read: bool,
}

/// A pool's texts in order, and what is asked of it.
struct Shuffle {
    texts: Vec<Text>,
    asked: Vec<(u32, f64)>,
    names: Vec<String>,
    answers: Vec<Answer>,
    next_label: u32,
}

/// Shuffles what is not read in so many pools and tells how the queries were answered.
pub fn run(random: &mut Random, pools: usize) -> Tally {
    let mut tally = Tally::default();
    let mut pair = Pair::new(&vec![random.bits(); WORDS]);
    for _ in 0..pools {
        let mut shuffle = Shuffle::begun(&mut pair, random);
        for _ in 0..CHANGES {
            shuffle.change(&mut pair, random);
            shuffle.compare(&mut pair, &mut tally);
        }
    }
    tally
}

impl Shuffle {
    /// A pool of a few texts about bodies, and one or two bodies that are asked for.
    fn begun(pair: &mut Pair, random: &mut Random) -> Shuffle {
        let texts: Vec<Vec<u8>> = (0..random.between(1, 4))
            .map(|_| bodies::text(random))
            .collect();
        let asked: Vec<(u32, f64)> = (0..random.between(1, 2))
            .map(|_| (body(random, &texts), epoch(random)))
            .collect();
        let mut shuffle = Shuffle {
            texts: Vec::new(),
            names: asked.iter().flat_map(|(body, _)| read(*body)).collect(),
            asked,
            answers: Vec::new(),
            next_label: 1,
        };
        for text in texts {
            shuffle.add(text, true);
        }
        shuffle.load_all(pair);
        shuffle.answers = shuffle.ask(pair);
        shuffle
    }

    fn add(&mut self, bytes: Vec<u8>, is_read: bool) {
        let label = self.next_label;
        self.next_label += 1;
        self.texts.push(Text {
            label,
            bytes,
            is_read,
        });
    }

    /// Brings all texts into an empty pool, in their order.
    fn load_all(&self, pair: &mut Pair) {
        pair.ask(&Call::MakeEmpty);
        for text in &self.texts {
            load(pair, text);
        }
    }

    /// The answers to all that is asked.
    fn ask(&self, pair: &mut Pair) -> Vec<Answer> {
        let calls = |(body, epoch): &(u32, f64)| {
            let (body, epoch) = (*body, *epoch);
            [Call::Orientation { body, epoch }, Call::Radii { body }]
        };
        let all = self.asked.iter().flat_map(calls);
        all.map(|call| pair.ask(&call)).collect()
    }

    /// Fails unless all is answered as it was at first.
    fn compare(&self, pair: &mut Pair, tally: &mut Tally) {
        for (answer, first) in self.ask(pair).iter().zip(&self.answers) {
            let texts: Vec<String> = self.texts.iter().map(Text::shown).collect();
            assert_eq!(answer, first, "{:?}: {}", self.asked, texts.join("\n"));
            tally.add(answer.number);
        }
    }

    /// One change of texts that are not read, or none of what is held at all.
    fn change(&mut self, pair: &mut Pair, random: &mut Random) {
        match random.below(8) {
            0..=1 if self.texts.len() < TEXTS => self.bring(pair, random, load),
            2..=3 if self.texts.len() < TEXTS => {
                let most = random.between(1, 60);
                self.bring(pair, random, |pair, text| feed(pair, text, most));
            }
            4 => self.take_out(pair, random),
            5 => self.drop_read(pair, random),
            _ => self.reorder(pair, random),
        }
    }

    fn bring(&mut self, pair: &mut Pair, random: &mut Random, how: impl Fn(&mut Pair, &Text)) {
        let bytes = self.unread_text(random);
        self.add(bytes, false);
        how(pair, &self.texts[self.texts.len() - 1]);
    }

    /// Takes one out that is not read, if there is any, and now and then brings it again at the end.
    fn take_out(&mut self, pair: &mut Pair, random: &mut Random) {
        let unread: Vec<usize> = (0..self.texts.len())
            .filter(|place| !self.texts[*place].is_read)
            .collect();
        if unread.is_empty() {
            return;
        }
        let text = self.texts.remove(random.one(&unread));
        let label = text.label;
        assert_eq!(pair.ask(&Call::Remove { label }).number, 0);
        if random.once_in(2) {
            load(pair, &text);
            self.texts.push(text);
        }
    }

    /// Opens a text that is read, feeds it, asks, and drops it.
    fn drop_read(&mut self, pair: &mut Pair, random: &mut Random) {
        let label = self.next_label;
        if pair.ask(&Call::Open { label }).number != 0 {
            return;
        }
        let part = &bodies::text(random);
        pair.ask(&Call::Feed { part });
        assert_eq!(self.ask(pair), self.answers);
        assert_eq!(pair.ask(&Call::Drop).number, 0);
    }

    /// Puts the texts that are not read at any places among the others, in a new pool.
    fn reorder(&mut self, pair: &mut Pair, random: &mut Random) {
        let all = std::mem::take(&mut self.texts);
        let (read, unread): (Vec<Text>, Vec<Text>) = all.into_iter().partition(|text| text.is_read);
        self.texts = read;
        for text in unread {
            let place = random.between(0, self.texts.len());
            self.texts.insert(place, text);
        }
        self.load_all(pair);
    }

    /// A text without a statement of the names that are read, though it speaks of them.
    fn unread_text(&self, random: &mut Random) -> Vec<u8> {
        let mut text = String::from("What a caption says.\n\\begindata\n");
        for _ in 0..random.between(0, 4) {
            let (name, operator) = (self.unread_name(random), random.one(&["=", "+="]));
            let value = self.value(random);
            text.push_str(&format!("{name} {operator} {value}\n"));
        }
        if random.once_in(3) {
            let name = self.some_name(random);
            text.push_str(&format!("\\begintext\n{name} = 1\n"));
        }
        text.into_bytes()
    }

    /// Numbers, or strings that look like statements of what is read.
    fn value(&self, random: &mut Random) -> String {
        let number = coefficient(random);
        match random.below(4) {
            0 => format!("'{} = {number}'", self.some_name(random)),
            1 => format!("( 'Mars', '{}' )", self.some_name(random)),
            2 => format!("( {number}, 1, 2 )"),
            _ => number,
        }
    }

    /// A name that is read; any other if there is none.
    fn some_name(&self, random: &mut Random) -> String {
        if self.names.is_empty() {
            return bodies::variable(random);
        }
        self.names[random.below(self.names.len())].clone()
    }

    /// A caption's name, another body's, or a near miss, which nothing reads.
    fn unread_name(&self, random: &mut Random) -> String {
        loop {
            let name = self.any_name(random);
            if name.len() <= NAME_BYTES && !self.names.contains(&name) {
                return name;
            }
        }
    }

    fn any_name(&self, random: &mut Random) -> String {
        let read = self.some_name(random);
        let (body, word) = read.split_once('_').expect("a body's name has a word");
        let other = held_code(random);
        match random.below(11) {
            0 => format!("{read}_"),
            1 => format!("_{read}"),
            2 => read.to_lowercase(),
            3 => read[..read.len() - 1].to_string(),
            4 => format!("{body}__{word}"),
            5 => format!("BODY0{}_{word}", &body[4..]),
            6 => format!("BODY{}0_{word}", &body[4..]),
            7 => format!("BODY{other}_{word}"),
            8 => word.to_string(),
            9 => format!("{body}_{}", random.one(&CAPTIONS)),
            _ => bodies::variable(random),
        }
    }
}

/// A body that one of the texts begins with, now and then any other.
fn body(random: &mut Random, texts: &[Vec<u8>]) -> u32 {
    let text = &texts[random.below(texts.len())];
    let of_text = text.strip_prefix(b"\\begindata\nBODY").map(|rest| {
        let digits = rest.iter().take_while(|byte| byte.is_ascii_digit());
        digits.fold(0, |code, digit| 10 * code + u32::from(digit - b'0'))
    });
    match of_text {
        Some(code) if !random.once_in(8) => code,
        _ => bodies::code(random),
    }
}

/// All names that a query about a body may read.
fn read(body: u32) -> Vec<String> {
    [Asked::Orientation, Asked::Radii]
        .map(|asked| names(asked, body))
        .concat()
}

impl Text {
    fn shown(&self) -> String {
        format!("{}: {}", self.label, self.bytes.escape_ascii())
    }
}

fn load(pair: &mut Pair, text: &Text) {
    let (label, text) = (text.label, &text.bytes[..]);
    assert_eq!(pair.ask(&Call::Load { label, text }).number, 0);
}

/// Brings a text in parts of so many bytes at most.
fn feed(pair: &mut Pair, text: &Text, most: usize) {
    let label = text.label;
    assert_eq!(pair.ask(&Call::Open { label }).number, 0);
    for part in text.bytes.chunks(most) {
        assert_eq!(pair.ask(&Call::Feed { part }).number, 0);
    }
    assert_eq!(pair.ask(&Call::Close).number, 0);
}
