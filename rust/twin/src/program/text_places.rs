//! The texts about numbers and columns: K3 of document 02, each kind of fault at each of its places.

use super::text_samples::data;

/// Data sections: each fault where it may be taken for another, or for one at another byte.
const FAULTS: &[&str] = &[
    // a second bracket is no value
    "X = ( 1 (",
    "X = (  ( 1 ) )",
    "X = (,\n\t,(1)",
    "X = ( 'a' (",
    "X = ( 1 ( )",
    "X = ( ( )",
    // no name, or no operator after one
    "=",
    "  = 1",
    "\t) = 1",
    " 'X' = 1",
    " -1",
    " +X = 1",
    " \\begindata x",
    "\\begintext\\begindata",
    "X-Y = 1",
    "X.Y = 1",
    " X  Y = 1",
    "X\t\t? = 1",
    "X\\begintext",
    "X_ 'a'",
    "X (",
    "X )",
    "X ,= 1",
    // nothing is there
    "X",
    "X   ",
    "\tX\t",
    "X =",
    "X =   ",
    "X +=\t",
    " X=",
    "X =  \r\n1",
    "X   \r\n= 1",
    // operators
    "X +",
    "X + = 1",
    "X\t+ 1",
    "X ++ 1",
    "X == 1",
    "X =+= 1",
    "X = +=1",
    "X +== 1",
    "X +=+= 1",
    "X += += 1",
    // the end of the text, and delimiter lines
    "X = ( 1",
    "X = ( 1\n",
    "X = ( 1\n\n",
    "X = ( 1\n \t",
    "X = ( 1\n \t\n",
    "X = ( 1 \r\n",
    "X = ( 1\r\n,\r\n",
    "X = ( 1\r\n\r\n",
    "X = (",
    "X = (   ",
    "X = (\n\n\n ,",
    "X = ( 'a'\n'b'   ",
    "X = ( 1\n\\begindata",
    "X = ( 1\n  \\begintext",
    "X = (\n\t\\begintext\t\r\n",
    "X = (\n   \\begindata x",
    "X = ( 1\n   1\\begindata",
    // empty lists, and what is none
    "X = ()?",
    "X = ( ) ( 1 )",
    "X = (,,)",
    "X = (\n\n  ,)",
    "X = ( )\u{1}",
    "X = )",
    "X = ) 1",
    "X = ,",
    "X =,(1)",
    "X = , )",
    "X = ( 1 ))",
    // the rest of a line
    "X = 1(",
    "X = 1,",
    "X = 1 \t ?",
    "X = 1\t\tY = 2",
    "X = ( 1 ) \t )",
    "X = (\n1 ) 'a",
    "X = 'a'  'b'",
    "X = 'it''s'\t)",
    "X = 'a'(",
    // bytes, tabs and doubled quotes are counted as they are given
    "X = 1 \u{1}\u{2}",
    "\t\t\u{7f}",
    "X = 'a''\u{1}'",
    "X = \u{e9}",
    "X = ( 1\n\t2\t3\r4",
    "\t\tX\t=\t?",
    "X = ( '''' 'it''s' ?",
    "X = ( 'it''s' 'a'b )",
    // strings: always at the opening quote
    "X =   'a",
    "X = ( 'a' , 'b",
    "X = ( 'a'\n   'b'c )",
    "X =\t''''a",
    "X = 'a'''b",
    // a second kind, before anything that may be wrong with it
    "X = ( 1  'a' )",
    "X = ( 1\n\t'a )",
    "X = ( 'a' , 1E99 )",
    "X = ( 'a'\n  -1E99 )",
    "X = ( 'a' 1 ) ?",
    "X = ( 1 2  1E99 'a' )",
    // the sign is a value's first byte
    "X = -1E99",
    "X = ( 1, +1E99 )",
    "X = -",
    "X = ( 1 -. )",
    "X = +-1",
];

/// One of each fault, to be moved along a line.
const MOVED: [&str; 12] = [
    "?",
    "X",
    "X ?",
    "X =",
    "X = ?",
    "X = 1E99",
    "X = ()",
    "X = (",
    "X = 1 ?",
    "X = 'a",
    "X = ( 1 'a' )",
    "X = \u{1}",
];

/// Bytes of the longest data line.
const LONGEST: usize = 132;

pub fn add(texts: &mut Vec<Vec<u8>>) {
    texts.extend(FAULTS.iter().map(|lines| data(lines)));
    for line in MOVED {
        add_moved(texts, line);
    }
    add_names(texts);
    add_line_ends(texts);
}

/// A fault behind blanks, before every end, and after lines that are right.
fn add_moved(texts: &mut Vec<Vec<u8>>, line: &str) {
    for before in ["", " ", "\t  ", "\n", "Y = ( 1\n2 )\r\n\r\n "] {
        for end in ["", "\n", " \r\n", "\t\nZ = 1"] {
            texts.push(data(&format!("{before}{line}{end}")));
        }
    }
}

/// Names of 32 and 33 bytes, and what follows them.
fn add_names(texts: &mut Vec<Vec<u8>>) {
    for length in [32, 33] {
        let name = "N".repeat(length);
        for after in ["", " ", " = 1", "?", "=", "= 1E99", " 1"] {
            texts.push(data(&format!("{name}{after}")));
            texts.push(data(&format!(" \t{name}{after}")));
        }
    }
}

/// Faults at the last byte of the longest data line, and one past it.
fn add_line_ends(texts: &mut Vec<Vec<u8>>) {
    for (start, last) in [
        ("", "?"),
        ("X", " "),
        ("X", "?"),
        ("X =", " "),
        ("X =", ","),
        ("X =", "'"),
        ("X = (", ")"),
        ("X = (", "("),
        ("X = (", " "),
        ("X = ( 1", ","),
        ("X = 1", "?"),
        ("X = 1", "\u{1}"),
        ("X = ( 1\n", "'"),
        ("X = ( 1\n", ","),
    ] {
        let line = start.rsplit('\n').next().unwrap_or_default();
        for length in [LONGEST - 1, LONGEST, LONGEST + 1] {
            let blanks = " ".repeat(length - 1 - line.len());
            texts.push(data(&format!("{start}{blanks}{last}")));
            texts.push(data(&format!("{start}{blanks}{last}\r\n")));
        }
    }
}
