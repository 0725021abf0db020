//! The header, the library and the twin have the same limits.

use globe_sys::{
    globe_pool_words, GLOBE_PARTS_BYTES, GLOBE_POOL_WORDS, GLOBE_STRING, GLOBE_TEXT_BYTES,
    GLOBE_VALUES,
};
use twin::layout::WORDS;
use twin::limits::{PARTS_BYTES, STRING_BYTES, TEXT_BYTES, VALUES};

#[test]
fn limits_are_the_same() {
    assert_eq!(GLOBE_POOL_WORDS, WORDS);
    assert_eq!(globe_pool_words(), WORDS);
    assert_eq!(GLOBE_TEXT_BYTES, TEXT_BYTES);
    assert_eq!(GLOBE_PARTS_BYTES, PARTS_BYTES);
    assert_eq!(GLOBE_VALUES, VALUES);
    assert_eq!(GLOBE_STRING, STRING_BYTES);
}
