//! Damaged pools: words changed, sizes wrong. Every call returns, with the twin's answer.

use twin::layout::{
    is_open, kind, lower, pair as pair_of, put_byte, Held, BYTE_COUNT, HEADS_AT, KEPT_LENGTH,
    NAMES_AT, NAME_WORDS, OPEN, OPEN_STRING_BYTES, OPEN_VALUES, STATEMENT_TOTAL, STRINGS_AT,
    STRING_TOTAL, TEXTS_AT, TEXT_TOTAL, VALUES_AT, VALUE_TOTAL, WORDS,
};
use twin::limits::{
    KEPT_BYTES, PARTS_BYTES, STATEMENTS, STRING_BYTES, STRING_ROOM, TEXTS, VALUES, VALUE_EXPONENT,
};
use twin::text::Kind;

use crate::bodies;
use crate::call::Call;
use crate::epochs::epoch;
use crate::pair::{Pair, ROOM};
use crate::random::Random;
use crate::tally::Tally;
use crate::texts;

/// Pools that are damaged, in one run.
const POOLS: usize = 24;

/// The bits of 2^200, and the bit of the sign.
const LIMIT: u64 = (1023 + VALUE_EXPONENT) << 52;
const MINUS: u64 = 1 << 63;

/// Values just below the limit and not below it.
const VALUE_BITS: [u64; 7] = [
    LIMIT - 1,
    LIMIT,
    MINUS | (LIMIT - 1),
    MINUS | LIMIT,
    f64::MAX.to_bits(),
    f64::INFINITY.to_bits(),
    f64::NAN.to_bits(),
];

/// Damages pools in so many ways, makes every call on each, and tells how they were answered.
pub fn run(random: &mut Random, cases: usize) -> Tally {
    let pools: Vec<Vec<u64>> = (0..POOLS).map(|_| pool(random)).collect();
    let mut tally = Tally::default();
    let mut pair = Pair::new(&[]);
    for _ in 0..cases {
        let mut words = pools[random.below(POOLS)].clone();
        for _ in 0..random.one(&[0, 1, 1, 1, 1, 2, 3]) {
            damage(&mut words, random);
        }
        if random.once_in(12) {
            let size = wrong_size(random);
            words.resize(size, 0);
        }
        ask_all(&mut pair, &words, random, &mut tally);
    }
    tally
}

/// A pool of some texts, from none up to all that it can hold.
fn pool(random: &mut Random) -> Vec<u64> {
    let words: Vec<u64> = (0..WORDS).map(|_| random.bits()).collect();
    let mut pair = Pair::new(&words);
    pair.ask(&Call::MakeEmpty);
    let loads = random.one(&[0, 1, 2, 4, 8, 40]);
    for label in 0..loads {
        let text = if random.once_in(3) {
            texts::right(random)
        } else {
            bodies::text(random)
        };
        pair.ask(&Call::Load { label, text: &text });
    }
    if random.once_in(2) {
        open_text(&mut pair, random);
    }
    pair.words().to_vec()
}

/// Opens a text and feeds it, mostly up to somewhere in a line.
fn open_text(pair: &mut Pair, random: &mut Random) {
    pair.ask(&Call::Open { label: 99 });
    let text = match random.below(4) {
        0 => texts::text(random),
        1 => b"\\begindata\nX += ( 'a' 'caption'\nY".to_vec(),
        2 => b"\\begindata\nX = 1\nX += (\n".to_vec(),
        _ => bodies::text(random),
    };
    let cut = if random.once_in(3) {
        random.below(text.len() + 1)
    } else {
        text.len()
    };
    pair.ask(&Call::Feed { part: &text[..cut] });
}

/// Every call, each on the same words.
fn ask_all(pair: &mut Pair, words: &[u64], random: &mut Random, tally: &mut Tally) {
    let (body, epoch) = (bodies::code(random), epoch(random));
    let name = bodies::variable(random);
    let text = if random.once_in(2) {
        bodies::text(random)
    } else {
        texts::text(random)
    };
    let label = random.below(20) as u32;
    let calls = [
        Call::Totals,
        Call::Fetch {
            name: name.as_bytes(),
            room: random.one(&[0, 2, ROOM]),
        },
        Call::FetchString {
            name: name.as_bytes(),
            place: random.one(&[0, 1, 1, 2, 4]),
            room: random.one(&[0, 2, STRING_BYTES]),
        },
        Call::Orientation { body, epoch },
        Call::Radii { body },
        Call::BuiltinOrientation { body, epoch },
        Call::BuiltinRadii { body },
        Call::Load { label, text: &text },
        Call::Open { label },
        Call::Feed { part: b"" },
        Call::Feed { part: &text },
        Call::Close,
        Call::Drop,
        Call::Remove { label },
        Call::Clear,
        Call::MakeEmpty,
    ];
    for call in calls {
        pair.set(words);
        tally.add(pair.ask(&call).number);
    }
}

/// A size that is no pool's.
fn wrong_size(random: &mut Random) -> usize {
    random.one(&[
        0,
        1,
        2,
        3,
        TEXTS_AT + 1,
        HEADS_AT,
        VALUES_AT,
        STRINGS_AT,
        WORDS - 1,
        WORDS + 1,
        2 * WORDS,
    ])
}

/// Changes a word. It is damage only if the word is in use and its new content is wrong.
fn damage(words: &mut [u64], random: &mut Random) {
    let [texts, statements, values] = counts(words);
    let text = TEXTS_AT + random.below(texts);
    let head = HEADS_AT + random.below(statements);
    let name = NAMES_AT + random.below(NAME_WORDS * statements);
    let value = VALUES_AT + random.below(values);
    match random.below(26) {
        20.. => damage_open(words, random),
        0 => words[random.below(WORDS)] ^= 1 << random.below(64),
        1 => {
            let place = random.one(&[text, head, name, value]);
            words[place] ^= 1 << random.below(64);
        }
        2 => {
            let place = random.one(&[TEXT_TOTAL, STATEMENT_TOTAL, VALUE_TOTAL, STRING_TOTAL]);
            words[place] = total(words[place], random);
        }
        3 => words[text] = words[TEXTS_AT],
        4 => words[text] ^= pair_of(0, 1 << random.below(10)),
        5 => words[head] = pair_of(random.one(&[0, 1, 2, 3, 4, u32::MAX]), words[head] as u32),
        6 => words[head] &= !0xFFFF_FFFF,
        7 => words[head] = words[head].wrapping_add(random.one(&[1, u64::MAX])),
        8 => words[name] = name_word(words[name], random),
        9 => {
            let start = NAMES_AT + (name - NAMES_AT) / NAME_WORDS * NAME_WORDS;
            words[start..start + NAME_WORDS].fill(0);
        }
        10 => words[value] = random.one(&VALUE_BITS),
        11 => words[value] = random.bits(),
        12 => shift_count(words, head, HEADS_AT, random),
        13 => shift_count(words, text, TEXTS_AT, random),
        14 => words.swap(text, TEXTS_AT),
        _ => damage_strings(words, head, value, random),
    }
}

/// The texts, statements and values in use, those of an open text too; at least one of each.
fn counts(words: &[u64]) -> [usize; 3] {
    let mut counts = [TEXT_TOTAL, STATEMENT_TOTAL, VALUE_TOTAL].map(|place| words[place] as usize);
    if is_open(words) {
        let statements = lower(words[TEXTS_AT + counts[0].min(TEXTS)]) as usize;
        let more = [1, statements, words[OPEN_VALUES] as usize];
        for (count, more) in counts.iter_mut().zip(more) {
            *count = count.saturating_add(more);
        }
    }
    let [texts, statements, values] = counts;
    [
        texts.clamp(1, TEXTS + 1),
        statements.clamp(1, STATEMENTS),
        values.clamp(1, VALUES),
    ]
}

/// Changes a word of the open text, to what is out of its range or has another meaning.
fn damage_open(words: &mut [u64], random: &mut Random) {
    let place = match random.below(6) {
        0 => random.one(&[OPEN_VALUES, OPEN_STRING_BYTES]),
        1 => random.one(&[KEPT_LENGTH, BYTE_COUNT]),
        _ => random.between(OPEN, TEXTS_AT - 1),
    };
    let (kept, most) = (KEPT_BYTES as u64, PARTS_BYTES as u64);
    let near = words[place].wrapping_add(random.one(&[1, u64::MAX]));
    words[place] = match random.below(4) {
        0 => near,
        1 => random.below(9) as u64,
        2 => random.one(&[kept - 1, kept, kept + 1, most - 1, most, most + 1, most + 2]),
        _ => random.bits() >> random.one(&[0, 0, 31, 40]),
    };
}

/// Changes a byte of the strings, a length, or two of them that still add up.
fn damage_strings(words: &mut [u64], head: usize, value: usize, random: &mut Random) {
    let open = if is_open(words) {
        words[OPEN_STRING_BYTES] as usize
    } else {
        0
    };
    let bytes = (words[STRING_TOTAL] as usize).saturating_add(open);
    let bytes = bytes.clamp(1, STRING_ROOM);
    match random.below(8) {
        0 => put_byte(
            &mut words[STRINGS_AT..],
            random.below(bytes),
            random.bits() as u8,
        ),
        1 => {
            // The last byte in use, or the first that is not.
            let place = (bytes - random.below(2)).min(STRING_ROOM - 1);
            let byte = random.one(b"\0\x1f\x7f\x80\xff\n\t~");
            put_byte(&mut words[STRINGS_AT..], place, byte);
        }
        2 => words[value] = random.one(&[0, 1, 59, 60, 61, 1 << 32, 1 << 63, u64::MAX]),
        3 => words[value] = words[value].wrapping_add(random.one(&[1, u64::MAX])),
        4 => {
            let (length, more) = (words[value], random.one(&[1, 20, u64::MAX]));
            words[value] = length.wrapping_add(more);
            words[STRING_TOTAL] = words[STRING_TOTAL].wrapping_add(more);
        }
        5 => words[head] ^= pair_of(2, 0),
        _ => shift_length(words, random),
    }
}

/// Two strings whose bytes are as many as before, one of them at the limit of its length or over it.
fn shift_length(words: &mut [u64], random: &mut Random) {
    let strings = string_values(words);
    if strings.is_empty() {
        return;
    }
    let (one, other) = (random.one(&strings), random.one(&strings));
    let bytes = words[one].wrapping_add(words[other]);
    words[one] = STRING_BYTES as u64 + random.one(&[0, 1, 1, 2]);
    words[other] = bytes.wrapping_sub(words[one]);
}

/// The words of the values that are strings; none if the pool is damaged already.
fn string_values(words: &[u64]) -> Vec<usize> {
    let mut places = Vec::new();
    let mut end = VALUES_AT;
    for head in Held::of(words).map_or(&[][..], |held| held.heads) {
        let start = end;
        end += lower(*head) as usize;
        if kind(*head) == Kind::String {
            places.extend(start..end);
        }
    }
    places
}

/// Two counts that still add up, or that do so but for 2^32.
fn shift_count(words: &mut [u64], place: usize, other: usize, random: &mut Random) {
    if random.once_in(2) {
        words[place] = words[place].wrapping_add(1);
        words[other] = words[other].wrapping_sub(1);
    } else {
        words[place] ^= 1 << 31;
        words[other] ^= 1 << 31;
    }
}

/// Another total, near or far.
fn total(word: u64, random: &mut Random) -> u64 {
    random.one(&[
        0,
        word.wrapping_add(1),
        word.wrapping_sub(1),
        word | 1 << 32,
        TEXTS as u64,
        TEXTS as u64 + 1,
        STATEMENTS as u64,
        STATEMENTS as u64 + 1,
        VALUES as u64,
        VALUES as u64 + 1,
        STRING_ROOM as u64,
        STRING_ROOM as u64 + 1,
        1 << 32,
        (1 << 32) + 1,
        u64::MAX,
    ])
}

/// A word of a name with a byte that is none, a zero within, or something after the zeros.
fn name_word(word: u64, random: &mut Random) -> u64 {
    let place = 8 * random.below(8);
    let byte = random.one(b"\0\0 -\x7f\xffA_@[`{/:");
    word & !(0xFF << place) | u64::from(byte) << place
}
