//! Two memories with the same words, one for each side, and the comparison at every call.

use std::ops::Range;

use twin::layout::{Held, OPEN};
use twin::limits::{STRING_BYTES, VALUES};

use crate::buffers::Buffers;
use crate::call::{Answer, Call};
use crate::{library, twin_side};

/// Words before and after a pool that no call may touch.
const GUARD: usize = 8;
const GUARD_WORD: u64 = 0x5AFE_5AFE_5AFE_5AFE;

/// Room for any variable, and for any string.
pub const ROOM: usize = VALUES;
pub const STRING_ROOM: usize = STRING_BYTES;

/// The same pool on both sides, each between guards.
pub struct Pair {
    library: Vec<u64>,
    twin: Vec<u64>,
    /// The library's memory before the call.
    before: Vec<u64>,
    library_buffers: Buffers,
    twin_buffers: Buffers,
}

impl Pair {
    /// Both sides with these words.
    pub fn new(words: &[u64]) -> Pair {
        let mut pair = Pair {
            library: Vec::new(),
            twin: Vec::new(),
            before: Vec::new(),
            library_buffers: Buffers::default(),
            twin_buffers: Buffers::default(),
        };
        pair.set(words);
        pair
    }

    /// Gives both sides these words.
    pub fn set(&mut self, words: &[u64]) {
        for memory in [&mut self.library, &mut self.twin] {
            memory.resize(words.len() + 2 * GUARD, GUARD_WORD);
            let (before, rest) = memory.split_at_mut(GUARD);
            let (inside, after) = rest.split_at_mut(words.len());
            before.fill(GUARD_WORD);
            rewrite(inside, words);
            after.fill(GUARD_WORD);
        }
    }

    /// The words of the pool, which are the same on both sides.
    pub fn words(&self) -> &[u64] {
        &self.library[self.inside()]
    }

    /// The values that the last fetch wrote.
    pub fn fetched(&self, answer: &Answer) -> &[f64] {
        &self.library_buffers.values[..answer.counts[0] as usize]
    }

    /// The string that the last fetch of one wrote.
    pub fn fetched_string(&self, answer: &Answer) -> &[u8] {
        &self.library_buffers.bytes[..answer.counts[0] as usize]
    }

    /// Makes a call on both sides. It fails unless the answers are equal, and so are both memories
    /// and buffers to their last bits, and unless a refusal and a question leave what they should: a
    /// refused closing all but whether a text is open.
    pub fn ask(&mut self, call: &Call) -> Answer {
        self.library_buffers.prepare(call);
        self.twin_buffers.prepare(call);
        self.before.resize(self.library.len(), GUARD_WORD);
        rewrite(&mut self.before, &self.library);

        let inside = self.inside();
        let answer = library::answer(
            call,
            &mut self.library[inside.clone()],
            &mut self.library_buffers,
        );
        let expected = twin_side::answer(call, &mut self.twin[inside], &mut self.twin_buffers);

        assert_eq!(answer, expected, "the library and the twin differ: {call}");
        if !same(&self.library, &self.twin) {
            self.fail(call, &self.twin, "the library's memory is not the twin's");
        }
        if answer.number != 0 && call.ends_open_text(answer.number) {
            self.before[GUARD + OPEN] = 0;
        }
        if (answer.number != 0 || !call.writes()) && !same(&self.library, &self.before) {
            self.fail(call, &self.before, "memory changed that should be left");
        }
        self.library_buffers
            .compare(&self.twin_buffers, call, &answer);
        answer
    }

    /// Feeds an open text with parts on both sides. It fails unless each is taken, and unless both
    /// memories are equal behind the last.
    pub fn feed<'a>(&mut self, parts: impl IntoIterator<Item = &'a [u8]>) {
        let inside = self.inside();
        let mut last: &[u8] = b"";
        for part in parts {
            last = part;
            let call = Call::Feed { part };
            let library = &mut self.library[inside.clone()];
            let twin = &mut self.twin[inside.clone()];
            let answer = library::answer(&call, library, &mut self.library_buffers);
            let expected = twin_side::answer(&call, twin, &mut self.twin_buffers);
            assert_eq!(
                (answer.number, expected.number),
                (0, 0),
                "a part is refused: {call}"
            );
        }
        if !same(&self.library, &self.twin) {
            let call = Call::Feed { part: last };
            self.fail(&call, &self.twin, "the library's memory is not the twin's");
        }
    }

    fn inside(&self) -> Range<usize> {
        GUARD..self.library.len() - GUARD
    }

    /// Fails with the first word that differs.
    fn fail(&self, call: &Call, wanted: &[u64], what: &str) -> ! {
        let place = (0..wanted.len())
            .find(|place| self.library[*place] != wanted[*place])
            .unwrap_or_default();
        panic!(
            "{what}: word {} is {:#X}, not {:#X}: {call}",
            place as i64 - GUARD as i64,
            self.library[place],
            wanted[place]
        );
    }
}

/// Gives a memory other words, of which most are there already: where an emulator runs this, to look
/// at a word costs a small part of copying it in a block.
fn rewrite(memory: &mut [u64], words: &[u64]) {
    for (word, wanted) in memory.iter_mut().zip(words) {
        if *word != *wanted {
            *word = *wanted;
        }
    }
}

/// The words are the same, looked at one by one as above.
pub fn same(ours: &[u64], wanted: &[u64]) -> bool {
    ours.len() == wanted.len() && ours.iter().zip(wanted).all(|(a, b)| a == b)
}

/// The words that the held texts of a pool have in use, and the bytes of their strings.
pub fn in_use(pool: &[u64]) -> (Vec<u64>, Vec<u8>) {
    let held = Held::of(pool).expect("a pool that was never damaged");
    let areas = [
        held.texts,
        held.heads,
        held.names.as_flattened(),
        held.values,
    ];
    let strings = &held.strings;
    let bytes = (0..strings.length).map(|place| strings.byte(place));
    (areas.concat(), bytes.collect())
}
