//! Texts: every sentence of "Text rules", and the readings decided about them.

use twin::refusal::Refusal;
use twin::string::written;
use twin::text::{read, Operator, Value};

/// Statements as `name op values`, or number, line and column of the refusal.
fn told(text: impl AsRef<[u8]>) -> Result<Vec<String>, (u32, u64, u64)> {
    match read(text.as_ref()) {
        Ok(statements) => Ok(statements
            .iter()
            .map(|s| {
                let operator = match s.operator {
                    Operator::Direct => "=",
                    Operator::Append => "+=",
                };
                let values: Vec<String> = s.values.iter().map(shown).collect();
                format!(
                    "{} {operator} {}",
                    String::from_utf8_lossy(&s.name),
                    values.join(" ")
                )
            })
            .collect()),
        Err(refused) => Err((refused.refusal.number(), refused.line, refused.column)),
    }
}

fn shown(value: &Value) -> String {
    match value {
        Value::Number(number) => number.to_string(),
        Value::String(bytes) => String::from_utf8(written(bytes)).unwrap(),
    }
}

fn data(lines: &str) -> String {
    format!("\\begindata\n{lines}")
}

#[track_caller]
fn admitted(text: impl AsRef<[u8]>, statements: &[&str]) {
    let expected: Vec<String> = statements.iter().map(|s| s.to_string()).collect();
    assert_eq!(told(text), Ok(expected));
}

/// A text is refused at the place of its first `|`, which is no part of it.
#[track_caller]
fn refused(marked: impl AsRef<[u8]>, refusal: Refusal) {
    let marked = marked.as_ref();
    let place = marked.iter().position(|b| *b == b'|').unwrap();
    let (before, after) = (&marked[..place], &marked[place + 1..]);
    let line = 1 + before.iter().filter(|b| **b == b'\n').count() as u64;
    let column = 1 + before.iter().rev().take_while(|b| **b != b'\n').count() as u64;
    let expected = Err((refusal.number(), line, column));
    let shown = String::from_utf8_lossy(marked);
    assert_eq!(told([before, after].concat()), expected, "{shown}");
}

/// Each line, as the only one of a data section, is refused at its `|`.
#[track_caller]
fn all_refused(lines: &[&str], refusal: Refusal) {
    for line in lines {
        refused(data(line), refusal);
    }
}

/// A text is refused for its line's length: the column is the first over the limit.
#[track_caller]
fn too_long(text: impl AsRef<[u8]>, line: u64) {
    assert_eq!(told(text), Err((3, line, 133)));
}

use Refusal::{BadByte, BadName, BadValue, NoOperator, Number, OpenList, RestOfLine};

#[test]
fn marked_texts() {
    admitted("", &[]);
    admitted("X = 1", &[]);
    admitted(data("X = 9007199254740992"), &["X = 9007199254740992"]);
    admitted(data("X = 9007199254740993"), &["X = 9007199254740992"]);
    refused(data("X = |10000000000000000000"), Number);
    admitted(
        data("X = 1E22\nX = 1.0E23"),
        &[
            "X = 10000000000000000000000",
            "X = 100000000000000000000000",
        ],
    );
    refused(data("X = |1E23"), Number);
    refused(data("X = ( |)"), OpenList);
}

#[test]
fn the_listed_example() {
    let text = "note\n\\begindata\nBODY499_RADII = ( 3397, 3397\n   3375 )\nBODY499_PM = 0.5\nBODY499_PM += -2D0\n";
    admitted(
        text,
        &[
            "BODY499_RADII = 3397 3397 3375",
            "BODY499_PM = 0.5",
            "BODY499_PM += -2",
        ],
    );
}

#[test]
fn line_ends() {
    admitted("\n\n\n", &[]);
    admitted("\\begindata\r\nX = 1\r\nY = 2\r\n", &["X = 1", "Y = 2"]);
    admitted("\\begindata\nX = 1", &["X = 1"]);
    admitted("\\begindata\nX = 1\n", &["X = 1"]);
    refused("\\begindata\nX = 1|\r\r\n", BadByte);
    refused("\\begindata\nX = 1|\r", BadByte);
    refused("\\begindata\nX = 1 |\rY = 2\n", BadByte);
    refused("\\begindata\n|\r", BadByte);
    admitted("\\begindata\n\r\n", &[]);
    admitted("\\begindata\r\r\nX = 1\n", &[]);
    admitted("\\begindata\r", &[]);
    refused("\\begindata\n\\begintext|\r", BadByte);
    admitted("\r", &[]);
}

#[test]
fn a_data_line_may_have_132_bytes() {
    let statement = format!("X = 1{}", " ".repeat(127));
    admitted(data(&statement), &["X = 1"]);
    admitted(
        data(&format!("{statement}\n{statement}\r\n")),
        &["X = 1"; 2],
    );
    for end in [" ", " \n", " \r\n", "\r", "\r\r\n", "\u{1}\n"] {
        too_long(data(&format!("{statement}{end}")), 2);
    }
    let blanks = " ".repeat(133);
    too_long(data(&blanks), 2);
    too_long(data(&format!("X = ( 1\n{blanks}\n)")), 3);
    admitted(data(&format!("X = ( 1\n{}\n)", &blanks[1..])), &["X = 1"]);
}

#[test]
fn a_line_of_a_text_section_may_have_any_length() {
    let line = "x".repeat(133);
    admitted(&line, &[]);
    admitted(format!("{line}\r\n{line}\r\r\n{line}\r"), &[]);
    admitted(data(&format!("X = 1\n\\begintext\n{line}")), &["X = 1"]);
    for byte in ["\0", " ", "x", "\r", "\u{ff}"] {
        admitted(byte.repeat(65_536), &[]);
    }
}

#[test]
fn a_delimiter_line_may_have_132_bytes_in_either_section() {
    for (before, after) in [(122, 0), (0, 122), (61, 61), (1, 121)] {
        let (before, after) = (" ".repeat(before), "\t".repeat(after));
        let opening = format!("{before}\\begindata{after}");
        let closing = format!("{before}\\begintext{after}");
        admitted(format!("{opening}\nX = 1"), &["X = 1"]);
        admitted(format!("{opening}\r\nX = 1"), &["X = 1"]);
        admitted(data(&format!("{closing}\nX = ?")), &[]);
        refused(data(&format!("X = ( 1\n|{closing}\n)")), OpenList);
        for pad in [1, 2, 300, 5_000] {
            let pad = " ".repeat(pad);
            for line in [format!("{pad}{opening}"), format!("{opening}{pad}")] {
                too_long(format!("{line}\nX = 1"), 1);
                too_long(&line, 1);
                too_long(data(&format!("X = ( 1\n{line}\n)")), 3);
            }
            for line in [format!("{pad}{closing}"), format!("{closing}{pad}")] {
                too_long(format!("\n{line}\n"), 2);
                too_long(data(&line), 2);
            }
        }
        admitted(format!("{opening} x\nX = 1"), &[]);
        admitted(format!("x {opening}\nX = 1"), &[]);
    }
}

#[test]
fn a_carriage_return_counts_unless_it_stands_before_a_line_feed() {
    let line = format!("\\begintext{}", " ".repeat(122));
    admitted(data(&format!("{line}\r\n?")), &[]);
    too_long(data(&format!("{line}\r")), 2);
    too_long(data(&format!("{line}\r\r\n")), 2);
    too_long(format!("{line} \r\n"), 1);
    // A carriage return is no blank, so this is text.
    admitted(format!("{line}\r"), &[]);
    admitted(format!("{line} \r"), &[]);
    admitted(format!("{line}\r\r\n"), &[]);
}

#[test]
fn sections_and_their_delimiters() {
    admitted(
        "X = 1\n\\begindata\nX = 2\n\\begintext\nX = 3\n\\begindata\nX = 4",
        &["X = 2", "X = 4"],
    );
    admitted(" \t\\begindata \t\nX = 1", &["X = 1"]);
    admitted("\\begindata\n\\begindata\nX = 1\n\\begindata\n", &["X = 1"]);
    admitted("\\begintext\nX = 1", &[]);
    admitted("\\begindata X\nX = 1", &[]);
    admitted("x\\begindata\nX = 1", &[]);
    admitted("\\BEGINDATA\nX = 1", &[]);
    admitted("\\begindata\\begindata\nX = 1", &[]);
    admitted("\\begin data\nX = 1", &[]);
    refused("\\begindata\n|\\begintext x\n", BadName);
    refused("\\begindata\n|\\beginTEXT\n", BadName);
    refused("\\begindata\nX = 1 |\\begintext\n", RestOfLine);
    refused("\\begindata\nX = |\\begintext\n", BadValue);
}

#[test]
fn text_section_bytes_are_unread() {
    admitted(b"\0\x7f\x80\xff\x01\n\\begintext\n\xff", &[]);
    admitted("= ( ) +=\n\\begindata\n", &[]);
}

#[test]
fn data_lines_hold_printed_bytes_and_tabs() {
    for byte in 0..=255u8 {
        let text =
            |before: &str, behind: &str| [before.as_bytes(), &[byte], behind.as_bytes()].concat();
        match byte {
            b'\n' => refused(text("\\begindata\nX = 1 ", "Z|"), NoOperator),
            b' ' | b'\t' => refused(text("\\begindata\nX = 1 ", "|Z"), RestOfLine),
            b'!'..=b'~' => refused(text("\\begindata\nX = 1 |", "Z"), RestOfLine),
            _ => refused(text("\\begindata\nX = 1 |", "Z"), BadByte),
        }
    }
    admitted("\\begindata\n\t \t\n \n\n\tX\t=\t1\t\n", &["X = 1"]);
}

#[test]
fn names() {
    let longest = "a".repeat(32);
    admitted(data(&format!("{longest}=1")), &[&format!("{longest} = 1")]);
    refused(data(&format!("|{longest}a=1")), BadName);
    refused(data(&format!(" \t|{longest}a")), BadName);
    admitted(
        data("9=1\n_=2\na=3\nA=4\nBODY4_PM=5"),
        &["9 = 1", "_ = 2", "a = 3", "A = 4", "BODY4_PM = 5"],
    );
    all_refused(
        &[
            "|=1", "|+=1", " |-A=1", "\t|'A'=1", "|(1)", "|)", "|,A=1", "|?",
        ],
        BadName,
    );
    all_refused(
        &[
            "A|-B=1", "A|.B=1", "A |B=1", "A|(1)=1", "A|", "A|,=1", "A|'=1",
        ],
        NoOperator,
    );
}

#[test]
fn operators() {
    admitted(
        data("X=1\nX =2\nX= 3\nX  \t=\t 4\nX+=5\nX +=6\nX+= 7"),
        &[
            "X = 1", "X = 2", "X = 3", "X = 4", "X += 5", "X += 6", "X += 7",
        ],
    );
    admitted(
        data("X=+1\nX=-1\nX+=+1\nX+=-1"),
        &["X = 1", "X = -1", "X += 1", "X += -1"],
    );
    all_refused(
        &[
            "X|",
            "X |",
            "X  \t|",
            "X |1",
            "X |+ = 1",
            "X |-= 1",
            "X\t|++= 1",
            "X |: 1",
            "X |+",
            "X|+",
            "X |(1)",
            "X|+1",
            "X|\r\nY = 1",
        ],
        NoOperator,
    );
    all_refused(
        &[
            "X =|= 1",
            "X = |= 1",
            "X += |= 1",
            "X =|+= 1",
            "X +=|+= 1",
            "X =|> 1",
        ],
        BadValue,
    );
}

#[test]
fn name_operator_and_value_stand_on_one_line() {
    all_refused(&["X|\n= 1", "X |\n= 1", "X |+\n= 1"], NoOperator);
    all_refused(
        &[
            "X =|\n1",
            "X = |\n( 1 )",
            "X =   |",
            "X =\t|\r\n1",
            "X +=|",
            "X=|",
        ],
        BadValue,
    );
    // One past a line of 132 bytes.
    let blanks = " ".repeat(130);
    refused(data(&format!("X={blanks}|")), BadValue);
    refused(data(&format!("X {blanks}|\r\n")), NoOperator);
}

#[test]
fn lists() {
    admitted(
        data("X=(1)\nX=( 1 )\nX=(1 2)\nX=(1,2)\nX=(,1,,2,)\nX = ( 1\t2 ,\t3 )"),
        &[
            "X = 1",
            "X = 1",
            "X = 1 2",
            "X = 1 2",
            "X = 1 2",
            "X = 1 2 3",
        ],
    );
    admitted(data("X = (\n1\n\n 2,\n,\t\n,3\n)"), &["X = 1 2 3"]);
    admitted(data("X += (\r\n1\r\n)\r\nY = 2"), &["X += 1", "Y = 2"]);
    admitted(data("X = ( 1\n2 )  \t\nY=3"), &["X = 1 2", "Y = 3"]);
    all_refused(
        &[
            "X = ( |)",
            "X = (|)",
            "X = (,|)",
            "X = ( , \t |)",
            "X = (,,|) ?",
            "X = (|))",
            "X = (|)(",
            "X = (\n,\n|)",
            "X = (\n |) 1",
        ],
        OpenList,
    );
    all_refused(
        &[
            "X = (|(1))",
            "X = ( 1 |( 2 ) )",
            "X = ( |(",
            "X = (1|(2)",
            "X = (1\n|(2)",
            "X = (,\n ,|()",
            "X = |)",
            "X = |,1",
            "X =|,",
            "X = |, (1)",
        ],
        BadValue,
    );
    all_refused(&["X = 1|(", "X = 1 |(2)"], RestOfLine);
}

#[test]
fn after_a_statement_only_blanks_follow() {
    admitted(data("X = 1 \t \nX = ( 1 ) \t"), &["X = 1", "X = 1"]);
    all_refused(
        &[
            "X = 1|,",
            "X = 1 \t|,",
            "X = 1 |2",
            "X = 1|)",
            "X = 1 |)",
            "X = (1)|,",
            "X = (1)  |2",
            "X = (1)|)",
            "X = (1)|2",
            "X = 1 |Y = 2",
            "X = (1) |Y = 2",
            "X = 1 |#",
            "X = ( 1\n) |Y = 2",
            "X = ( 1\n2)|'a",
        ],
        RestOfLine,
    );
}

#[test]
fn delimiters_and_the_end_inside_a_list() {
    all_refused(
        &[
            "X = ( 1\n|\\begintext\n)",
            "X = ( 1\n|\\begindata\n)",
            "X = (\n| \t\\begintext \n)",
        ],
        OpenList,
    );
    refused(data("X = ( 1\n |\\begintext x\n)"), BadValue);
    // One past the last line; after a final LF there is no further one.
    all_refused(
        &[
            "X = ( 1|",
            "X = ( 1|\n",
            "X = ( 1|\r\n",
            "X = (|",
            "X = ( 1  |",
            "X = ( 1\n|\n",
            "X = ( 1\n\n|\n",
            "X = ( 1\n\n |",
            "X = ( 1\r\n\t,|\r\n",
        ],
        OpenList,
    );
    let blanks = " ".repeat(131);
    refused(data(&format!("X = ( 1\n{blanks},|\r\n")), OpenList);
    refused(data(&format!("X = ( 1\n{blanks},|")), OpenList);
}

#[test]
fn the_order_of_faults_in_a_line() {
    let long_and_bad = format!("X = 1E99 \u{1}{}", " ".repeat(133));
    too_long(data(&long_and_bad), 2);
    refused(data("X = 1E99 |\u{1}"), BadByte);
    refused(data("X = ? |\u{7f}\u{1}"), BadByte);
    refused(data("X = |1E99 junk"), Number);
    refused(data("X = |1E99,"), Number);
    refused(data("X =|-1E99"), Number);
    refused(data("X = ( 1, |+1E99 )"), Number);
    refused(data("X = ( |1E99"), Number);
    refused(data("X = ( |1E99 ( "), Number);
    refused(data("X = ( |1E99 a )"), Number);
    refused(data("X = ( |a 1E99 )"), BadValue);
    refused(data("X = ( |( 1E99 )"), BadValue);
    refused(data("X |X = 1E99"), NoOperator);
    refused(data("X = 1 |1E99"), RestOfLine);
    refused(data("X = |1E99E"), BadValue);
    refused(data("X = ( |1E99(2) )"), Number);
}

#[test]
fn the_first_faulty_line_decides() {
    refused(data("X = |1E99\n?\n\u{1}"), Number);
    refused(data("|?\nX = 1E99"), BadName);
    refused(data("|\u{1}\n?"), BadByte);
    let long = "x".repeat(133);
    too_long(data(&format!("X = (1\n{long}\n?")), 3);
    refused(data(&format!("|?\n{long}")), BadName);
    refused(format!("{long}\n\\begindata\n|?"), BadName);
}

#[test]
fn values_keep_their_order_and_signs() {
    let statements = read(data("X = ( -0, 0 +0 )").as_bytes()).unwrap();
    let bits: Vec<u64> = statements[0].values.iter().map(bits_of).collect();
    assert_eq!(bits, [1 << 63, 0, 0]);
}

fn bits_of(value: &Value) -> u64 {
    match value {
        Value::Number(number) => number.to_bits(),
        Value::String(_) => panic!("a string where a number was written"),
    }
}

/// The bytes of the strings of a data section's only statement.
fn strings(line: &str) -> Vec<String> {
    let statements = read(data(line).as_bytes()).unwrap();
    assert_eq!(statements.len(), 1);
    let bytes = statements[0].values.iter().map(|value| match value {
        Value::String(bytes) => bytes.clone(),
        Value::Number(_) => panic!("a number where a string was written"),
    });
    bytes
        .map(|bytes| String::from_utf8(bytes).unwrap())
        .collect()
}

#[test]
fn strings_stand_in_quotes_and_quotes_are_doubled() {
    assert_eq!(strings("X = 'Mars'"), ["Mars"]);
    assert_eq!(
        strings("X='Olympus Mons, (27 km)'"),
        ["Olympus Mons, (27 km)"]
    );
    assert_eq!(strings("X = 'Herschel''s map'"), ["Herschel's map"]);
    assert_eq!(strings("X = ''"), [""]);
    assert_eq!(strings("X = ''''"), ["'"]);
    assert_eq!(strings("X = 'a'''"), ["a'"]);
    assert_eq!(strings("X = '''a'"), ["'a"]);
    assert_eq!(strings("X = 'a''b'"), ["a'b"]);
    assert_eq!(strings("X = ''''''"), ["''"]);
    assert_eq!(strings("X = '\ta\t'"), ["\ta\t"]);
    assert_eq!(strings("X = '\\begindata'"), ["\\begindata"]);
    assert_eq!(strings("X = '1E99 = ( + \"'"), ["1E99 = ( + \""]);
    assert_eq!(
        strings("X += ( 'a' 'b','c'\n,''\n\t'd' )"),
        ["a", "b", "c", "", "d"]
    );
    assert_eq!(strings("X = ('a')"), ["a"]);
    assert_eq!(strings("X = (,'a',)\t "), ["a"]);
    assert_eq!(strings("X = 'a' \t "), ["a"]);
    assert_eq!(strings("X = 'a'\r\n"), ["a"]);
    assert_eq!(strings("X = ('a'\r\n'b'\r\n)"), ["a", "b"]);
}

#[test]
fn every_byte_of_a_data_line_may_stand_in_a_string() {
    for byte in (32..127).chain([9]) {
        let byte = char::from(byte);
        let inside = if byte == '\'' {
            "''".to_string()
        } else {
            byte.to_string()
        };
        let around = format!("X = 'a{inside}b'");
        assert_eq!(strings(&around), [format!("a{byte}b")]);
        assert_eq!(strings(&format!("X = '{inside}'")), [byte.to_string()]);
    }
    for byte in [1, 8, 11, 13, 31, 127] {
        refused(data(&format!("X = 'a|{}b'", char::from(byte))), BadByte);
    }
    refused(b"\\begindata\nX = '|\xe9'", BadByte);
    refused(data("X = ?|\u{1}'"), BadByte);
}

#[test]
fn a_string_has_up_to_60_bytes_after_undoubling() {
    for (byte, written) in [("x", "x"), ("'", "''"), (" ", " "), ("\t", "\t")] {
        for length in [1, 59, 60] {
            let line = format!("X = '{}'", written.repeat(length));
            assert_eq!(strings(&line), [byte.repeat(length)]);
        }
        for length in [61, 62] {
            let string = written.repeat(length);
            refused(data(&format!("X = |'{string}'")), BadValue);
        }
    }
    let mixed = format!("X = '{}{}'", "''".repeat(30), "x".repeat(30));
    assert_eq!(strings(&mixed)[0].len(), 60);
    let longer = mixed.replacen("X = ", "X = |", 1).replacen("x", "xx", 1);
    refused(data(&longer), BadValue);
    let longest = "x".repeat(61);
    refused(data(&format!("X = ( 'a'\n,|'{longest}' )")), BadValue);
}

#[test]
fn a_string_is_closed_on_its_line() {
    all_refused(
        &[
            "X = |'",
            "X = |'a",
            "X = |'''",
            "X =|'a''",
            "X = ('a' |'b",
            "X = ('a' |')",
            "X = |'a)",
            "X = (|'",
            "X = |'a\n'",
            "X = (|'a\n')",
            "X = |'''''",
            "X = ('it''s' |'b",
            "X = ( 'a'\n|'b\n)",
        ],
        BadValue,
    );
    refused(data("X = 'a|\r'\n"), BadByte);
}

#[test]
fn a_blank_comma_bracket_or_line_end_follows_a_string() {
    admitted(data("X = 'a'"), &["X = 'a'"]);
    admitted(data("X = ('a','b'\t'c')"), &["X = 'a' 'b' 'c'"]);
    // Passed by the string, and then refused by the statement.
    all_refused(
        &[
            "X = 'a'|)",
            "X = 'a'|(",
            "X = 'a'|,",
            "X = 'a' |'b'",
            "X = 'a' |1",
            "X = 'it''s' |1",
        ],
        RestOfLine,
    );
    all_refused(
        &[
            "X = ('a'|('b'))",
            "X = |'a'b",
            "X = |'a'1",
            "X = |'a'.",
            "X = |'a'=",
            "X = |'a'\"",
            "X = (|'a'b)",
            "X = (|'a'1)",
            "X = ('a' |'b'+'c')",
            "X = |'a';",
        ],
        BadValue,
    );
}

#[test]
fn only_a_first_quote_makes_a_string() {
    all_refused(
        &[
            "X = |1'a'",
            "X = |+'a'",
            "X = |1'",
            "X = |a'b'",
            "X = |1'a b'",
            "X = (|1'2)",
            "X = |\"a\"",
        ],
        BadValue,
    );
    all_refused(&["|'X' = 1", "|'"], BadName);
    all_refused(&["X|' = 1", "X |'a'", "X |'= 1'"], NoOperator);
}

#[test]
fn a_list_is_all_numbers_or_all_strings() {
    all_refused(
        &[
            "X = ( 1 |'a' )",
            "X = ( 'a' |1 )",
            "X = ( 'a' 'b' |1 )",
            "X = ( 1 2 |'a' )",
            "X = ( 1 |'' )",
            "X = ( 1\n2\n|'a'\n)",
            "X = ( 'a'\n\n|1 )",
        ],
        BadValue,
    );
    // The second kind is a fault before its value is looked at, the first kind is not.
    all_refused(
        &[
            "X = ( 'a' |1E99 )",
            "X = ( 'a'\n |1E99 )",
            "X = ( 'a' |-1E99",
            "X = ( 1 |'a )",
        ],
        BadValue,
    );
    refused(data("X = ( |1E99 'a' )"), Number);
    refused(data("X = ( 1 |2E99 'a"), Number);
    admitted(
        data("X = 1\nX += 'a'\nX += 2"),
        &["X = 1", "X += 'a'", "X += 2"],
    );
}

#[test]
fn quotes_open_nothing_outside_of_values() {
    admitted("'\n\\begindata\nX = 'a'\n\\begintext\n'''\n", &["X = 'a'"]);
    refused(data("X = ( 'a'\n|\\begintext\n)"), OpenList);
    refused(data("X = ( 'a'|"), OpenList);
    refused(data("X = ( 'a'\n|\n"), OpenList);
    let longest = format!("X = '{}'{}", "''".repeat(60), " ".repeat(6));
    admitted(data(&longest), &[longest.trim_end()]);
    too_long(data(&format!("{longest} ")), 2);
}
