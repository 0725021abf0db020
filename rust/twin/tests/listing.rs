//! The listing.

use twin::listing::list;

#[track_caller]
fn lists(text: &[u8], expected: &str) {
    let mut out = Vec::new();
    list(text, &mut out).unwrap();
    assert_eq!(String::from_utf8(out).unwrap(), expected);
}

#[test]
fn document_01_s_example() {
    lists(
        b"note\n\\begindata\nBODY499_RADII = ( 3397, 3397\n   3375 )\nBODY499_PM = 0.5\nBODY499_PM += -2D0\n",
        "variables 2\nBODY499_PM 2\nBODY499_RADII 3\nvalues 5\n3FE0000000000000\nC000000000000000\n40AA8A0000000000\n40AA8A0000000000\n40AA5E0000000000\n",
    );
}

#[test]
fn nothing_held_is_listed_too() {
    lists(b"", "variables 0\nvalues 0\n");
    lists(b"X = 1", "variables 0\nvalues 0\n");
}

#[test]
fn names_stand_in_byte_order() {
    lists(
        b"\\begindata\nb=1\nB=2\n_=3\n9=4\nBB=5\nB_=6\nB9=7\nABCDEFGHI=8\nABCDEFGH=9\n",
        "variables 9\n9 1\nABCDEFGH 1\nABCDEFGHI 1\nB 1\nB9 1\nBB 1\nB_ 1\n_ 1\nb 1\nvalues 9\n\
         4010000000000000\n4022000000000000\n4020000000000000\n4000000000000000\n401C000000000000\n\
         4014000000000000\n4018000000000000\n4008000000000000\n3FF0000000000000\n",
    );
}

#[test]
fn what_is_overwritten_is_not_listed() {
    lists(
        b"\\begindata\nX=(1 2 3)\nX=4\nX+=-0\n",
        "variables 1\nX 2\nvalues 2\n4010000000000000\n8000000000000000\n",
    );
}

#[test]
fn strings_are_shown_as_written() {
    lists(
        b"\\begindata\nX='Mars'\nA=( 'it''s' '' )\nA+=1\nA+=('''' '\t\\')\n",
        "variables 2\nA 5\nX 1\nvalues 6\n'it''s'\n''\n3FF0000000000000\n''''\n'\t\\'\n'Mars'\n",
    );
    let longest = "''".repeat(60);
    lists(
        format!("\\begindata\nX = '{longest}'").as_bytes(),
        &format!("variables 1\nX 1\nvalues 1\n'{longest}'\n"),
    );
    lists(
        b"\\begindata\nX='replaced'\nX=1\n",
        "variables 1\nX 1\nvalues 1\n3FF0000000000000\n",
    );
}

#[test]
fn refusals() {
    lists(b"\\begindata\nX = ( )", "refused 20 line 2 column 7\n");
    lists(b"\\begindata\nX = 1E23", "refused 6 line 2 column 5\n");
    lists(&vec![b'\n'; 65_537], "refused 2 line 0 column 0\n");
    lists(&vec![b'\n'; 65_536], "variables 0\nvalues 0\n");
    let many = format!("\\begindata\n{}", "X=1\n".repeat(513));
    lists(many.as_bytes(), "refused 7 line 0 column 0\n");
    lists(
        b"\\begindata\nX = ( 1\n'a' )",
        "refused 19 line 3 column 1\n",
    );
    let many = format!(
        "\\begindata\nX = (\n{})",
        format!("'{}'\n", "x".repeat(60)).repeat(137)
    );
    lists(many.as_bytes(), "refused 7 line 0 column 0\n");
}
