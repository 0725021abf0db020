//! The memory of a pool, word by word, and when it is damaged.
//! Areas stand one after another; a pair shares a word, its first part in the upper half.

use crate::limits::{
    KEPT_BYTES, NAME_BYTES, PARTS_BYTES, STATEMENTS, STRING_BYTES, STRING_ROOM, TEXTS, VALUES,
    VALUE_EXPONENT,
};
use crate::refusal::Refusal;
use crate::text::{is_data_byte, is_name_byte, Kind, Operator};

/// The words of a name, eight bytes each.
pub const NAME_WORDS: usize = NAME_BYTES / 8;

/// A name as words: bytes from the most significant down, zeros after it.
pub type PackedName = [u64; NAME_WORDS];

pub const TEXT_TOTAL: usize = 0;
pub const STATEMENT_TOTAL: usize = 1;
pub const VALUE_TOTAL: usize = 2;
pub const STRING_TOTAL: usize = 3;

/// The words of the open text: whether there is one, what it has stored, how it goes on, and the
/// line that is not complete.
pub const OPEN: usize = 4;
pub const OPEN_VALUES: usize = 5;
pub const OPEN_STRING_BYTES: usize = 6;
pub const WAY: usize = 7;
pub const READER: usize = 8;
pub const FAULT: usize = 9;
pub const FAULT_LINE: usize = 10;
pub const FAULT_PLACE: usize = 11;
pub const LINES: usize = 12;
pub const LAST_LENGTH: usize = 13;
pub const KEPT_LENGTH: usize = 14;
pub const CR_WAITS: usize = 15;
pub const BYTE_COUNT: usize = 16;
pub const KEPT_AT: usize = 17;

/// The words of the kept line.
pub const KEPT_WORDS: usize = KEPT_BYTES.div_ceil(8);

/// The open text's word stands behind those of the held texts, of which there may be as many as a
/// pool holds.
pub const TEXTS_AT: usize = KEPT_AT + KEPT_WORDS;
pub const HEADS_AT: usize = TEXTS_AT + TEXTS + 1;
pub const NAMES_AT: usize = HEADS_AT + STATEMENTS;
pub const VALUES_AT: usize = NAMES_AT + NAME_WORDS * STATEMENTS;
pub const STRINGS_AT: usize = VALUES_AT + VALUES;

/// The words of a pool.
pub const WORDS: usize = STRINGS_AT + STRING_ROOM / 8;

/// The bits that tell a double's size, its sign taken away.
const SIZE_BITS: u64 = (1 << 63) - 1;

/// The bits of 2^200. Sizes are ordered as their bits are, infinities and NaNs last.
const VALUE_LIMIT: u64 = (1023 + VALUE_EXPONENT) << 52;

/// How far each area of a pool is in use.
#[derive(Clone, Copy, Debug, Default, PartialEq, Eq)]
pub struct Extent {
    pub texts: usize,
    pub statements: usize,
    pub values: usize,
    pub string_bytes: usize,
}

impl Extent {
    /// What is held, as far as the totals allow.
    fn held(pool: &[u64]) -> Option<Extent> {
        Some(Extent {
            texts: total(pool[TEXT_TOTAL], TEXTS)?,
            statements: total(pool[STATEMENT_TOTAL], STATEMENTS)?,
            values: total(pool[VALUE_TOTAL], VALUES)?,
            string_bytes: total(pool[STRING_TOTAL], STRING_ROOM)?,
        })
    }

    /// What is held with the open text behind it, as far as there is room for that: the limit of
    /// texts is not asked.
    fn with_open(self, pool: &[u64]) -> Option<Extent> {
        let statements = u64::from(lower(pool[TEXTS_AT + self.texts]));
        let (values, bytes) = (pool[OPEN_VALUES], pool[OPEN_STRING_BYTES]);
        let string_bytes = total(bytes, STRING_ROOM - self.string_bytes)?;
        Some(Extent {
            texts: self.texts + 1,
            statements: self.statements + total(statements, STATEMENTS - self.statements)?,
            values: self.values + total(values, VALUES - self.values)?,
            string_bytes: self.string_bytes + string_bytes,
        })
    }

    /// Both together.
    pub fn and(self, more: Extent) -> Extent {
        Extent {
            texts: self.texts + more.texts,
            statements: self.statements + more.statements,
            values: self.values + more.values,
            string_bytes: self.string_bytes + more.string_bytes,
        }
    }

    /// What is in use without what belongs to some of it.
    pub fn without(self, some: Extent) -> Extent {
        Extent {
            texts: self.texts - some.texts,
            statements: self.statements - some.statements,
            values: self.values - some.values,
            string_bytes: self.string_bytes - some.string_bytes,
        }
    }

    /// Whether the areas have so much room, the number of texts apart.
    pub fn fits(self) -> bool {
        self.statements <= STATEMENTS && self.values <= VALUES && self.string_bytes <= STRING_ROOM
    }
}

/// The words in use of an undamaged pool, those of its held texts or of its open one.
pub struct Held<'a> {
    /// Label and number of statements, a word a text.
    pub texts: &'a [u64],
    /// Kind and operator, and number of values, a word a statement.
    pub heads: &'a [u64],
    pub names: &'a [PackedName],
    /// The bits of a double, or a string's number of bytes.
    pub values: &'a [u64],
    /// The bytes of all strings, in the order of the values.
    pub strings: PackedBytes<'a>,
}

impl<'a> Held<'a> {
    /// What is held, unless the pool is damaged.
    pub fn of(pool: &'a [u64]) -> Result<Held<'a>, Refusal> {
        Held::undamaged(pool).ok_or(Refusal::DamagedPool)
    }

    fn undamaged(pool: &'a [u64]) -> Option<Held<'a>> {
        if pool.len() != WORDS {
            return None;
        }
        let end = Extent::held(pool)?;
        let held = Held::between(pool, Extent::default(), end);
        let sound = held.is_sound() && (!is_open(pool) || held.goes_on(pool)?);
        sound.then_some(held)
    }

    /// The words from where the areas have one extent to where they have another.
    fn between(pool: &'a [u64], from: Extent, to: Extent) -> Held<'a> {
        let (names, _) = pool[NAMES_AT..VALUES_AT].as_chunks();
        Held {
            texts: &pool[TEXTS_AT..][from.texts..to.texts],
            heads: &pool[HEADS_AT..][from.statements..to.statements],
            names: &names[from.statements..to.statements],
            values: &pool[VALUES_AT..][from.values..to.values],
            strings: PackedBytes {
                words: &pool[STRINGS_AT..],
                start: from.string_bytes,
                length: to.string_bytes - from.string_bytes,
            },
        }
    }

    /// How far the areas are in use.
    pub fn extent(&self) -> Extent {
        Extent {
            texts: self.texts.len(),
            statements: self.heads.len(),
            values: self.values.len(),
            string_bytes: self.strings.length,
        }
    }

    /// Whether an open text may stand behind what is held, if there is room for it.
    fn goes_on(&self, pool: &[u64]) -> Option<bool> {
        let held = self.extent();
        let open = Held::between(pool, held, held.with_open(pool)?);
        Some(
            open.is_sound()
                && self.place(upper(open.texts[0])).is_none()
                && pool[KEPT_LENGTH] <= KEPT_BYTES as u64
                && pool[BYTE_COUNT] <= PARTS_BYTES as u64 + 1,
        )
    }

    /// All conditions but those on size and totals.
    fn is_sound(&self) -> bool {
        self.labels_are_distinct()
            && self.heads.iter().all(|head| is_legal_head(*head))
            && self.names.iter().all(is_legal_name)
            && counted(self.heads) == self.values.len() as u64
            && counted(self.texts) == self.heads.len() as u64
            && self.legal_string_bytes() == Some(self.strings.length)
            && self.strings.are_legal()
    }

    /// The bytes of all strings by their lengths, if every value is legal. The heads count all
    /// values.
    fn legal_string_bytes(&self) -> Option<usize> {
        let mut rest = self.values;
        let mut bytes = 0;
        for head in self.heads {
            let (values, after) = rest.split_at(lower(*head) as usize);
            rest = after;
            let legal = match kind(*head) {
                Kind::Number => values.iter().all(|bits| bits & SIZE_BITS < VALUE_LIMIT),
                Kind::String => values.iter().all(|length| *length <= STRING_BYTES as u64),
            };
            if !legal {
                return None;
            }
            bytes += string_bytes(*head, values);
        }
        Some(bytes)
    }

    /// The bytes of the strings among the first values.
    pub fn string_bytes_before(&self, value: usize) -> usize {
        let mut rest = &self.values[..value];
        let mut bytes = 0;
        for head in self.heads {
            let (values, after) = rest.split_at(rest.len().min(lower(*head) as usize));
            rest = after;
            bytes += string_bytes(*head, values);
        }
        bytes
    }

    /// The bytes of a value that is a string.
    pub fn string(&self, value: usize) -> impl ExactSizeIterator<Item = u8> + use<'_, 'a> {
        let start = self.string_bytes_before(value);
        let end = start + self.values[value] as usize;
        (start..end).map(|place| self.strings.byte(place))
    }

    fn labels_are_distinct(&self) -> bool {
        self.texts.iter().enumerate().all(|(i, text)| {
            self.texts[..i]
                .iter()
                .all(|earlier| upper(*earlier) != upper(*text))
        })
    }

    /// The place of the text under a label.
    pub fn place(&self, label: u32) -> Option<usize> {
        self.texts.iter().position(|text| upper(*text) == label)
    }
}

/// Whether a text is open in a pool of the right size.
pub fn is_open(pool: &[u64]) -> bool {
    pool[OPEN] != 0
}

/// Bytes in words, eight to a word, the first highest.
pub struct PackedBytes<'a> {
    words: &'a [u64],
    /// How many stand before those in use.
    start: usize,
    /// How many of them are in use.
    pub length: usize,
}

impl PackedBytes<'_> {
    pub fn byte(&self, place: usize) -> u8 {
        packed_byte(self.words, self.start + place)
    }

    /// Whether all bytes in use may stand in a string.
    fn are_legal(&self) -> bool {
        let end = self.start + self.length;
        let whole = self.start.div_ceil(8)..end / 8;
        if whole.is_empty() {
            return self.legal_between(self.start, end);
        }
        self.legal_between(self.start, 8 * whole.start)
            && are_data_words(&self.words[whole.clone()])
            && self.legal_between(8 * whole.end, end)
    }

    fn legal_between(&self, from: usize, to: usize) -> bool {
        (from..to).all(|place| is_data_byte(packed_byte(self.words, place)))
    }
}

/// One of the bytes in some words.
pub fn packed_byte(words: &[u64], place: usize) -> u8 {
    (words[place / 8] >> byte_shift(place)) as u8
}

/// Whether all bytes of some words may stand in a string. Nothing is left early, so that many
/// bytes can be looked at together.
fn are_data_words(words: &[u64]) -> bool {
    let mut legal = true;
    for word in words {
        for byte in word.to_be_bytes() {
            legal &= is_data_byte(byte);
        }
    }
    legal
}

/// How far a byte stands from its word's lower end, in bits.
fn byte_shift(place: usize) -> usize {
    56 - 8 * (place % 8)
}

/// Writes one of the bytes in some words; the others of its word stay.
pub fn put_byte(words: &mut [u64], place: usize, byte: u8) {
    let shift = byte_shift(place);
    let word = &mut words[place / 8];
    *word = *word & !(0xFF << shift) | u64::from(byte) << shift;
}

/// A total that keeps its limit.
fn total(word: u64, limit: usize) -> Option<usize> {
    usize::try_from(word).ok().filter(|total| *total <= limit)
}

/// The sum of the lower halves.
pub fn counted(words: &[u64]) -> u64 {
    words.iter().map(|word| u64::from(lower(*word))).sum()
}

fn is_legal_head(head: u64) -> bool {
    upper(head) <= LARGEST_HEAD && lower(head) >= 1
}

/// The bytes of a statement's values, if they are strings.
fn string_bytes(head: u64, values: &[u64]) -> usize {
    match kind(head) {
        Kind::Number => 0,
        Kind::String => values.iter().sum::<u64>() as usize,
    }
}

/// A byte of a name, then only such bytes up to the first zero, and zeros from there.
fn is_legal_name(name: &PackedName) -> bool {
    let mut ended = false;
    for word in name {
        for byte in word.to_be_bytes() {
            if byte == 0 {
                ended = true;
            } else if ended || !is_name_byte(byte) {
                return false;
            }
        }
    }
    name[0] >> 56 != 0
}

/// A name as words. Only the bytes of a legal name have any.
pub fn pack_name(name: &[u8]) -> Option<PackedName> {
    let legal = (1..=NAME_BYTES).contains(&name.len()) && name.iter().all(|b| is_name_byte(*b));
    if !legal {
        return None;
    }
    let mut words = [0; NAME_WORDS];
    for (i, byte) in name.iter().enumerate() {
        words[i / 8] |= u64::from(*byte) << byte_shift(i);
    }
    Some(words)
}

/// The bytes of a packed name, without the zeros after it.
pub fn unpack_name(name: &PackedName) -> Vec<u8> {
    name.iter()
        .flat_map(|word| word.to_be_bytes())
        .take_while(|b| *b != 0)
        .collect()
}

/// Two halves as a word.
pub fn pair(upper: u32, lower: u32) -> u64 {
    u64::from(upper) << 32 | u64::from(lower)
}

pub fn upper(word: u64) -> u32 {
    (word >> 32) as u32
}

pub fn lower(word: u64) -> u32 {
    word as u32
}

/// Twice the kind and the operator are a head's upper half.
const LARGEST_HEAD: u32 = 3;
const STRINGS: u32 = 2;
const APPENDS: u32 = 1;

/// A legal head's operator.
pub fn operator(head: u64) -> Operator {
    if upper(head) & APPENDS == 0 {
        Operator::Direct
    } else {
        Operator::Append
    }
}

/// The kind of a legal head's values.
pub fn kind(head: u64) -> Kind {
    if upper(head) & STRINGS == 0 {
        Kind::Number
    } else {
        Kind::String
    }
}

/// A head of no values yet.
pub fn head(operator: Operator) -> u64 {
    match operator {
        Operator::Direct => pair(0, 0),
        Operator::Append => pair(APPENDS, 0),
    }
}

/// A statement's head before its only value, a number, was counted.
pub fn without_value(head: u64) -> u64 {
    head - 1
}

/// A head with one value more.
pub fn with_value(head: u64, kind: Kind) -> u64 {
    match kind {
        Kind::Number => head + 1,
        Kind::String => (head | pair(STRINGS, 0)) + 1,
    }
}
