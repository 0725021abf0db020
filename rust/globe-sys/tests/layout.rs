//! The declared types lie in memory as the header's do, and the constants are the header's.

mod common;

use std::fmt::Write;
use std::mem::{align_of, offset_of, size_of};
use std::path::Path;

use globe_sys::*;

/// A line for a type's size and alignment, and a line for each field's offset.
macro_rules! lay_out {
    ($lines:ident, $type:ident: $($field:ident)*) => {
        writeln!($lines, "{} {} {}", stringify!($type), size_of::<$type>(), align_of::<$type>())
            .unwrap();
        $(writeln!($lines, "{}.{} {}", stringify!($type), stringify!($field),
            offset_of!($type, $field)).unwrap();)*
    };
}

/// A line for each constant.
macro_rules! number {
    ($lines:ident: $($name:ident)*) => {
        $(writeln!($lines, "{} {}", stringify!($name), $name).unwrap();)*
    };
}

#[test]
fn types_and_constants_are_the_header_s() {
    let mut lines = String::new();
    lay_out!(lines, globe_reply: number line column);
    lay_out!(lines, globe_fetched: number line column count);
    lay_out!(lines, globe_counts: number line column texts statements values);
    lay_out!(lines, globe_oriented:
        number line column ra dec w m11 m12 m13 m21 m22 m23 m31 m32 m33);
    lay_out!(lines, globe_axes: number line column a b c);
    lay_out!(lines, globe_position: number line column position);
    // `move` is a word of Rust, and written apart from it only where a field is named.
    let mut motion = String::new();
    lay_out!(motion, globe_motion: number line column target r#move);
    lines += &motion.replace("r#", "");
    number!(lines: GLOBE_POOL_WORDS GLOBE_TEXT_BYTES GLOBE_PARTS_BYTES GLOBE_VALUES GLOBE_STRING);
    number!(lines: GLOBE_OK GLOBE_LABEL_HELD GLOBE_TEXT_TOO_LONG GLOBE_LINE_TOO_LONG);
    number!(lines: GLOBE_BAD_BYTE GLOBE_NUMBER GLOBE_NO_ROOM GLOBE_NOT_HELD);
    number!(lines: GLOBE_EPOCH GLOBE_UNKNOWN_BODY GLOBE_INCOMPLETE GLOBE_WRONG_COUNT);
    number!(lines: GLOBE_NO_VARIABLE GLOBE_SHORT_BUFFER GLOBE_DAMAGED_POOL GLOBE_MIXED_KIND);
    number!(lines: GLOBE_BAD_NAME GLOBE_NO_OPERATOR GLOBE_BAD_VALUE GLOBE_OPEN_LIST);
    number!(lines: GLOBE_REST_OF_LINE GLOBE_TEXT_OPEN GLOBE_BAD_DEGREE GLOBE_BAD_RADIUS);
    number!(lines: GLOBE_BAD_RING GLOBE_BAD_POSITION);

    let program = common::compile(Path::new("tests/layout.c"));
    assert_eq!(lines, common::written(&common::run(&program, &[])));
}

#[test]
fn the_header_is_also_cpp() {
    let header = common::top().join("include/globe.h");
    let output = common::compiler()
        .args(["-x", "c++", "-std=c++11", "-Wall", "-Wextra", "-Werror"])
        .args(["-pedantic", "-fsyntax-only"])
        .arg(header)
        .output()
        .expect("the compiler is started");
    let errors = String::from_utf8_lossy(&output.stderr);
    assert!(output.status.success(), "{errors}");
}

#[test]
fn the_header_has_the_library_s_pool() {
    assert_eq!(globe_pool_words(), GLOBE_POOL_WORDS);
}
