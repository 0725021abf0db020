//! The buffers of a call: one for values and one for the bytes of a string, each with more behind it
//! that no call may touch.

use crate::call::{Answer, Call};

/// Elements after the room of a buffer.
const GUARD: usize = 8;

/// What buffers hold before a fetch: a NaN that no value is, and a byte that no string has.
const UNWRITTEN: u64 = 0x7FF8_DEAD_BEEF_0001;
const UNWRITTEN_BYTE: u8 = 0xA5;

#[derive(Default)]
pub struct Buffers {
    pub values: Vec<f64>,
    pub bytes: Vec<u8>,
}

impl Buffers {
    /// Makes room for a call; what it does not fetch gets none.
    pub fn prepare(&mut self, call: &Call) {
        let (values, bytes) = match call {
            Call::Fetch { room, .. } => (*room, 0),
            Call::FetchString { room, .. } => (0, *room),
            _ => (0, 0),
        };
        self.values.clear();
        self.values
            .resize(values + GUARD, f64::from_bits(UNWRITTEN));
        self.bytes.clear();
        self.bytes.resize(bytes + GUARD, UNWRITTEN_BYTE);
    }

    /// Fails unless what a call fetched is what another fetched, and nothing else was written.
    pub fn compare(&self, other: &Buffers, call: &Call, answer: &Answer) {
        let count = answer.counts[0] as usize;
        let (values, bytes) = match call {
            Call::Fetch { .. } => (count, 0),
            Call::FetchString { .. } => (0, count),
            _ => (0, 0),
        };
        let bits = |values: &[f64]| values.iter().map(|x| x.to_bits()).collect::<Vec<u64>>();
        let ours = bits(&self.values);
        assert_same(&ours[..values], &bits(&other.values), call);
        assert_same(&self.bytes[..bytes], &other.bytes, call);
        let left = ours[values..].iter().all(|bits| *bits == UNWRITTEN)
            && self.bytes[bytes..].iter().all(|b| *b == UNWRITTEN_BYTE);
        assert!(left, "more than {count} elements were written: {call}");
    }
}

/// Fails with the first place where the twin has something else.
fn assert_same<T: PartialEq + std::fmt::Debug>(ours: &[T], twin: &[T], call: &Call) {
    for (place, (ours, twin)) in ours.iter().zip(twin).enumerate() {
        assert!(ours == twin, "at {place} is {ours:?}, not {twin:?}: {call}");
    }
}
