//! The texts about strings: K2 of document 02, its faults, and its limit on both sides.

use super::text_samples::data;

/// Data sections: strings, what follows them, lists, and their faults.
const STRINGS: &[&str] = &[
    // where a string ends
    "X = 'Mars'",
    "X='Mars'",
    "X += 'Mars'",
    "X = 'Herschel''s map'",
    "X = ''",
    "X = '",
    "X = '''",
    "X = ''''",
    "X = '''''",
    "X = ''''''",
    "X = 'a",
    "X = 'a''",
    "X = 'a'''",
    "X = 'a''''",
    "X = '''a'",
    "X = ''a'",
    "X = 'a''b'",
    "X = 'a''b",
    "X = 'a'' 'b'",
    "X = 'a' 'b'",
    "X = 'a\n'",
    "X = 'a\n'\n",
    "X = 'a\r\n'",
    "X = 'a'\r\n",
    "X = 'a'\r",
    "X =\n'a'",
    // what stands inside
    "X = ' '",
    "X = '\t'",
    "X = ' a\tb '",
    "X = 'Olympus Mons, (27 km)'",
    "X = '( 1, 2 )'",
    "X = '1E99'",
    "X = '= += = '",
    "X = '\\begindata'",
    "X = '\\begintext'",
    "X = '\"'",
    "X = '!#$%&*+-./:;<=>?@[]^_`{|}~\\'",
    "X = '\u{1}'",
    "X = '\u{7f}'",
    "X = '\u{e9}'",
    "X = '\r'",
    "X = 'a \u{1}",
    // what follows
    "X = 'a' ",
    "X = 'a'\t \t",
    "X = 'a')",
    "X = 'a' )",
    "X = 'a'(",
    "X = 'a' (",
    "X = 'a',",
    "X = 'a' ,",
    "X = 'a'b",
    "X = 'a'1",
    "X = 'a'.",
    "X = 'a'=",
    "X = 'a'+",
    "X = 'a'\\",
    "X = 'a'\"b\"",
    "X = 'a' b",
    "X = 'a' 1",
    "X = 'a' 1E99",
    "X = 'a'1E99",
    "X = 'a' Y = 'b'",
    "X = 'a'Y = 'b'",
    "X = 'a' \\begintext",
    // what is no string
    "X = 1'a'",
    "X = 1'",
    "X = 1''",
    "X = +'a'",
    "X = -'a'",
    "X = a'b'",
    "X = a'",
    "X = 1'a b'",
    "X = 1E99'a'",
    "X = 1E'",
    "X = \"a\"",
    "X = `a'",
    "'X' = 'a'",
    "'",
    "''",
    "X'",
    "X' = 1",
    "X '= 1'",
    "X 'a'",
    "X += ' = 1",
    // lists
    "X = ('a')",
    "X = ( 'a' )",
    "X = ('a' 'b')",
    "X = ('a','b')",
    "X = ('a''b')",
    "X = ('a'\t'b')",
    "X = (,'a',,'b',)",
    "X = ('a'\n'b')",
    "X = ('a'\r\n,'b'\r\n)",
    "X = (\n'a'\n)\nY = 'b'",
    "X = ('' '' '')",
    "X = ('a', 'b'\n   'c' )\nX += ('d')",
    "X = ('a'b)",
    "X = ('a'1)",
    "X = ('a'('b'))",
    "X = ('a' ('b'))",
    "X = ('a')'b'",
    "X = ('a') 'b'",
    "X = ('a'))",
    "X = ('a')(",
    "X = ('a' 'b",
    "X = ('a' ')",
    "X = ('",
    "X = ('a'",
    "X = ('a'\n",
    "X = ('a'\n\n",
    "X = ('a'\n\\begintext\n)",
    "X = ('a'\n \\begindata \n)",
    "X = ('a'\n'\\begintext'\n)",
    "X = ('a'\n\u{1}\n)",
    "X = ('a\n')",
    "X = ( 'a'\n'b\n)",
    // both kinds
    "X = (1 'a')",
    "X = ('a' 1)",
    "X = (1 '')",
    "X = ('' 0)",
    "X = (1 2 3 'a')",
    "X = ('a' 'b' 'c' 1)",
    "X = (1\n'a')",
    "X = ('a'\n\n1)",
    "X = ('a'\n1\n'b')",
    "X = ('a' 1E99)",
    "X = ('a'\n1E99)",
    "X = ('a' 10000000000000000000)",
    "X = (1E99 'a')",
    "X = (1 1E99 'a')",
    "X = (1 'a' 1E99)",
    "X = (1 'a)",
    "X = (1 'a' b)",
    "X = ('a' ?)",
    "X = ('a' + 1E99)",
    "X = (1'a')",
    "X = ('a' \u{1} 1)",
    "X = 1\nX += 'a'\nX += 2",
    "X = 'a'\nX += (1 2)\nX = ('b' 'c')",
    // the order of faults
    "X = 'a\nY = 1E99",
    "X = 1E99\nY = 'a",
    "X = (1E99 'a",
    "X = ('a 1E99)",
    "Y = ('a'b 1E99)",
    "Y = ('a' b 1E99)",
    "X Y = 'a",
];

/// Lengths of strings about the limit, and what stands for a byte of them.
const LENGTHS: [usize; 8] = [1, 2, 58, 59, 60, 61, 62, 120];
const BYTES: [&str; 4] = ["x", "''", "\t", " "];

pub fn add(texts: &mut Vec<Vec<u8>>) {
    texts.extend(STRINGS.iter().map(|lines| data(lines)));
    for length in LENGTHS {
        for byte in BYTES {
            add_length(texts, &byte.repeat(length));
        }
    }
    add_line_ends(texts);
    add_many(texts);
}

/// A string alone, in a list, unclosed and wrongly followed.
fn add_length(texts: &mut Vec<Vec<u8>>, inside: &str) {
    for line in [
        format!("X = '{inside}'"),
        format!("X=('{inside}')"),
        format!("X = '{inside}"),
        format!("X='{inside}'x"),
        format!("X = 'a\n'{inside}'"),
        format!("X = ( 'a'\n'{inside}' 1E99 )"),
        format!("X = ( 1\n'{inside}' )"),
        format!("X = '{inside}x'"),
        format!("X = 'x{inside}'"),
    ] {
        texts.push(data(&line));
    }
}

/// Strings that end where the longest data line ends, and one byte behind.
fn add_line_ends(texts: &mut Vec<Vec<u8>>) {
    for blanks in 69..=72 {
        let line = format!("X{}= '{}'", " ".repeat(blanks - 5), "x".repeat(59));
        texts.push(data(&line));
        texts.push(data(&format!("{line}\r\n")));
        texts.push(data(&format!("{line}'")));
        texts.push(data(&format!("{line} ")));
    }
    for blanks in 5..=8 {
        let line = format!("X = '{}'{}", "''".repeat(60), " ".repeat(blanks));
        texts.push(data(&line));
    }
}

/// As many strings as a pool holds, and more.
fn add_many(texts: &mut Vec<Vec<u8>>) {
    let caption = format!("'{}'\n", "caption of 20 bytes.".repeat(3));
    for count in [136, 137] {
        texts.push(data(&format!("X = (\n{})", caption.repeat(count))));
    }
    texts.push(data(&format!("X = (\n{})", "'' '' ''\n".repeat(1025))));
    texts.push(data(&"X += 'a'\n".repeat(513)));
}
