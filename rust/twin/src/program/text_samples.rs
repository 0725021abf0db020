//! The texts that readers are compared on: every rule of document 01's "Text rules" and of K1 to K4
//! of document 02, their faults and limits on both sides, kernels of the source documents, and
//! mixtures of all that.

use twin::limits::TEXT_BYTES;

use super::random::Random;
use super::{text_places, text_strings};

const KERNELS: [&[u8]; 8] = [
    include_bytes!("../../../../examples/kernels/planets.tpc"),
    include_bytes!("../../../../examples/kernels/radii.tpc"),
    include_bytes!("../../../../examples/kernels/moon.tpc"),
    include_bytes!("../../../../examples/kernels/mars-moons.tpc"),
    include_bytes!("../../../../examples/kernels/triton.tpc"),
    include_bytes!("../../../../examples/kernels/mars-example.tpc"),
    include_bytes!("../../../../examples/kernels/mars-example-short.tpc"),
    include_bytes!("../../../../examples/kernels/museum.tpc"),
];

/// How many mixtures follow the written texts.
const MIXTURES: usize = 320;

/// Whole texts: sections, delimiters and line ends.
const WHOLE: &[&str] = &[
    "",
    "\n",
    "\n\n\n\n",
    "\r\n",
    "\r\n\r\n",
    "\r",
    "\r\r\n",
    " ",
    "\t\n \n",
    "X = 1",
    "X = 1\n",
    "= ( ) += 1E99\n",
    "note\n\\begindata\nBODY499_RADII = ( 3397, 3397\n   3375 )\nBODY499_PM = 0.5\nBODY499_PM += -2D0\n",
    "\\begindata",
    "\\begindata\n",
    "\\begindata\r\n",
    "\\begindata\r",
    "\\begindata\r\r\nX = 1\n",
    "\\begindata\nX = 1",
    "\\begindata\nX = 1\n",
    "\\begindata\nX = 1\r\n",
    "\\begindata\r\nX = 1\r\nY = 2\r\n",
    "\\begindata\nX = 1\r",
    "\\begindata\nX = 1\r\r\n",
    "\\begindata\nX = \r1\n",
    "\\begindata\nX = 1\rY = 2\n",
    "\\begindata\n\r\n",
    "\\begindata\n\r",
    "\\begindata\n\r\r\n",
    "\\begindata\n \r\n",
    "\\begindata\n\\begintext\r",
    "\\begindata\n\\begintext\r\nX = ?\n",
    "\\begindata\n\\begintext\r\r\n",
    "\\begintext",
    "\\begintext\nX = 1\n",
    "\\begintext\n\\begindata\nX = 1\n",
    "  \\begindata\nX = 1\n",
    "\\begindata  \nX = 1\n",
    "\t\\begindata\t \nX = 1\n",
    "\\begindata\n\\begindata\nX = 1\n\\begindata\nY = 2\n",
    "\\begindata\nX = 1\n\\begintext\nX = ?\n\\begintext\n?\n\\begindata\nX += 2\n",
    "\\begindata\nX = 1\n \t\\begintext \t\n?\n",
    "\\begindata\n\n\nX = 1\n\n\n\\begintext\n\n\n\\begindata\n\nY = 2\n\n",
    "\\begindatax\nX = 1\n",
    "x\\begindata\nX = 1\n",
    "\\begindata X = 1\nX = 2\n",
    "\\begindata \\begindata\nX = 1\n",
    "\\begindata\\begintext\nX = 1\n",
    "\\BEGINDATA\nX = 1\n",
    "\\Begindata\nX = 1\n",
    "\\begin data\nX = 1\n",
    "\\ begindata\nX = 1\n",
    "begindata\nX = 1\n",
    "/begindata\nX = 1\n",
    "\\begin{data}\nX = 1\n",
    "\\begindat\nX = 1\n",
    "\\begintex\n\\begindata\nX = 1\n",
    "\u{b}\\begindata\nX = 1\n",
    "\\begindata\u{c}\nX = 1\n",
    "\u{a0}\\begindata\nX = 1\n",
    "\\begindata\n\\begintextx\n",
    "\\begindata\nx\\begintext\n",
    "\\begindata\n\\begintext x\n",
    "\\begindata\n\\begindata x\n",
    "\\begindata\nX = 1 \\begintext\n",
    "\\begindata\nX = \\begintext\n",
    "\\begindata\nX = ( 1 \\begintext )\n",
];

/// Data sections: names, operators, values, lists, rests, and their faults.
const DATA: &[&str] = &[
    // names
    "A=1",
    "a = 1\nA = 2",
    "_ = 1",
    "9 = 1",
    "0x = 1",
    "BODY4_PM = 1",
    "X.Y = 1",
    "X-Y = 1",
    "X Y = 1",
    "-X = 1",
    "X# = 1",
    "'X' = 1",
    "X(1) = 1",
    "X, = 1",
    ", X = 1",
    "= 1",
    "+= 1",
    "( 1 )",
    ")",
    ",",
    "1",
    "1 2 3",
    // operators
    "X=1\nX =2\nX= 3\nX  =  4\nX\t=\t5",
    "X+=1\nX +=2\nX+= 3\nX  +=  4\nX\t+=\t5",
    "X=+1\nX=-1\nX+=+1\nX+=-1",
    "X",
    "X ",
    "X 1",
    "X ( 1 )",
    "X =",
    "X = ",
    "X +=",
    "X +",
    "X +1",
    "X + = 1",
    "X -= 1",
    "X *= 1",
    "X := 1",
    "X == 1",
    "X = = 1",
    "X += = 1",
    "X =+= 1",
    "X ++= 1",
    "X +=+ 1",
    "X => 1",
    // one line for name, operator and value
    "X\n= 1",
    "X =\n1",
    "X =\n( 1 )",
    "X +\n= 1",
    "X\n\n= 1",
    // values
    "X = 0",
    "X = -0",
    "X = ( -0 +0 0. .0 -.0 -0E5 -0D-5 )",
    "X = 270.000",
    "X = 1.\nX = .5\nX = 1.5\nX = +1.\nX = -.5",
    "X = 1E0\nX = 1e1\nX = 1D2\nX = 1d3\nX = 1E+4\nX = 1D-5\nX = 1.E6\nX = .1d+7",
    "X = 007\nX = 00.50\nX = 1E007\nX = 1E-007\nX = 1E+000",
    "X = +",
    "X = -",
    "X = .",
    "X = -.",
    "X = E5",
    "X = .E5",
    "X = -E5",
    "X = 1E",
    "X = 1E+",
    "X = 1D-",
    "X = 1.2.3",
    "X = 1..",
    "X = ..1",
    "X = 1E2.5",
    "X = 1E2E3",
    "X = 1E--2",
    "X = --1",
    "X = +-1",
    "X = 1-",
    "X = 1+2",
    "X = 1F5",
    "X = 1 E5",
    "X = 1E 5",
    "X = - 1",
    "X = 0x10",
    "X = 1_000",
    "X = NaN",
    "X = inf",
    "X = TRUE",
    "X = '1'",
    "X = @2000-JAN-1",
    "X = 1/2",
    "X = \"1\"",
    // the class
    "X = 9007199254740992",
    "X = 9007199254740993",
    "X = -9007199254740993",
    "X = 9007199254740.993",
    "X = 1000000000000000000",
    "X = 9999999999999999999",
    "X = 10000000000000000000",
    "X = 10000000000000000001",
    "X = -9999999999999999999",
    "X = -10000000000000000000",
    "X = 9999999999.999999999",
    "X = 1000000000.0000000000",
    "X = 9999999999999999999.",
    "X = 9999999999999999999.0",
    "X = .9999999999999999999",
    "X = .10000000000000000000",
    "X = 0.10000000000000000000",
    "X = 99999999999999999990E-1",
    "X = 1.000000000000000000",
    "X = 1.0000000000000000000",
    "X = 18446744073709551615",
    "X = 18446744073709551616",
    "X = 18446744073709551617",
    "X = 99999999999999999999",
    "X = 184467440737095516161",
    "X = 340282366920938463463374607431768211457",
    "X = 0000000000000000000000000000000000000000000000009999999999999999999",
    "X = 00000000000000000000000000000000000000000000000010000000000000000000",
    "X = 0000000000.00000000009999999999999999999E12",
    "X = 0000000000.000000000010000000000000000000E12",
    "X = 000000000000000000000000000000000000000000000000000000000000000001",
    "X = 00000000000000000000000000000000000000000000000.5",
    "X = 1E22",
    "X = 1.0E23",
    "X = 1E23",
    "X = 10E22",
    "X = 9999999999999999999E22",
    "X = 10000000000000000000E22",
    "X = 9999999999999999999E23",
    "X = 9.999999999999999999E40",
    "X = 9.999999999999999999E41",
    "X = 1E-22",
    "X = 1E-23",
    "X = 1.0E-21",
    "X = 1.0E-22",
    "X = 9999999999999999999E-22",
    "X = 10000000000000000000E-22",
    "X = 9999999999999999999E-23",
    "X = 9.999999999999999999E-4",
    "X = 9.999999999999999999E-5",
    "X = 0E22",
    "X = 0E23",
    "X = 0E-22",
    "X = 0E-23",
    "X = -0E23",
    "X = 0.0000000000000000000000",
    "X = 0.00000000000000000000000",
    "X = 0.00000000000000000000000E1",
    "X = .0000000000000000000001",
    "X = .00000000000000000000001",
    "X = .0000000000000000000000000000000000000001E18",
    "X = .0000000000000000000000000000000000000001E17",
    "X = 1.0000000000000000000000E22",
    "X = 1.000000000000000E37",
    "X = 1.000000000000000E38",
    "X = 1E0000000000000000000000000000000000000000000000000000000022",
    "X = 1E0000000000000000000000000000000000000000000000000000000023",
    "X = 1E-000000000000000000000000000000000000000000000000000000022",
    "X = 1E-000000000000000000000000000000000000000000000000000000023",
    "X = 1E256",
    "X = 1E-256",
    "X = 1E65536",
    "X = 1E4294967296",
    "X = 1E4294967318",
    "X = 1E-4294967296",
    "X = 1E18446744073709551616",
    "X = 1E18446744073709551638",
    "X = 1E-18446744073709551616",
    "X = 0E99999999999999999999999999999999999999999999",
    "X = 1E340282366920938463463374607431768211456",
    "X = 6.6443009930565219D-09",
    "X = 6.644300993056522D-09",
    "X = 6.6443009930565D-09",
    "X = 6.64430099305652D-09",
    "X = 0.1\nX = 0.2\nX = 0.3\nX = 123456.789E-3\nX = 4503599627370497.5",
    "X = 450359962737049.75\nX = 1.7976931348623157\nX = 2.2250738585072014E-6",
    // lists
    "X = (1)",
    "X = ( 1 )",
    "X = (1,2)",
    "X = (1 2)",
    "X = (1\t2)",
    "X = ( 1 , 2 )",
    "X = (,1)",
    "X = (1,)",
    "X = (,,1,,,2,,)",
    "X = (, , 1 , \t, 2 ,)",
    "X=(1,-2,+3,.4,5.,6E0)",
    "X += (1)\nX += ( 2, 3 )",
    "X = (1\n)",
    "X = (\n1)",
    "X = (\n1\n)",
    "X = (\n\n1\n\n2\n\n)\nY = 3",
    "X = (,\n,1,\n,2,\n,)",
    "X = ( 1,\n     2,\n     3 )",
    "X = ( 1\n   , 2\n   , 3\n   )",
    "X = (\n\t1\t2\n\t3\t4\n)",
    "X = (\r\n1,\r\n2\r\n)\r\n",
    "X = ( 1 \n 2 ) \t \nY = 3",
    "X = (1 2 3 4 5 6 7 8 9\n10 11 12 13 14 15 16 17 18\n19 20)",
    "X = ()",
    "X = ( )",
    "X = (,)",
    "X = ( , \t )",
    "X = (\n)",
    "X = (\n,\n\n)",
    "X = () 1",
    "X = ((1))",
    "X = (1 (2))",
    "X = (1(2)",
    "X = ( (",
    "X = (1\n(",
    "X = (1\n(2)\n)",
    "X = ( 1 = )",
    "X = ( Y = 2 )",
    "X = ( 1\nY = 2\n)",
    "X = ( 1\nY = 2",
    "X = ( a )",
    "X = ( 1 2a 3 )",
    "X = ( 1 '2' 3 )",
    "X = ( 1. 2. . )",
    "X = ( 1; 2 )",
    // after a statement
    "X = 1 ",
    "X = 1 \t \t",
    "X = 1,",
    "X = 1 ,",
    "X = 1, 2",
    "X = 1 2",
    "X = 1)",
    "X = 1 )",
    "X = 1(",
    "X = 1 (2)",
    "X = ,1",
    "X = , 1",
    "X = )",
    "X = )1",
    "X = 1 Y = 2",
    "X = 1 junk",
    "X = 1;",
    "X = 1 # note",
    "X = (1),",
    "X = (1) ,",
    "X = (1))",
    "X = (1) )",
    "X = (1) (2)",
    "X = (1)2",
    "X = (1) junk",
    "X = (1) Y = 2",
    "X = (1\n) Y = 2",
    "X = (1\n),",
    // delimiters and the end inside a list
    "X = (",
    "X = (\n",
    "X = ( 1",
    "X = ( 1\n",
    "X = ( 1\n\n",
    "X = ( 1\n\n\n\n",
    "X = ( 1\n ",
    "X = ( 1\n \t\n,",
    "X = ( 1\r\n\r\n",
    "X = ( 1\n\\begintext\n)",
    "X = ( 1\n\\begindata\n)",
    "X = (\n  \\begintext  \n",
    "X = ( 1\n\\begintext\n1E99",
    "X = ( 1\n\\begintextx\n)",
    "Y = 1\nX = ( 1\n2\n3\n4\n\\begindata\n5 )",
    // the order of faults
    "X = 1E99 junk",
    "X = 1E99,",
    "X = 1E99)",
    "X = 1E99(",
    "X = junk 1E99",
    "X = 1 1E99",
    "X Y = 1E99",
    "X = ( 1E99",
    "X = ( 1E99 junk )",
    "X = ( junk 1E99 )",
    "X = ( 1E99 ( 2 ) )",
    "X = ( ( 1E99 ) )",
    "X = ( 1E99(2) )",
    "X = ( 1 2 1E99 ) junk",
    "X = ( 1 ) 1E99",
    "X = 1E99E",
    "X = 1E99.",
    "X = 99999999999999999999x",
    "X = ( 1E99\n\\begintext\n)",
    "X = 1E99\nX = ?",
    "X = ?\nX = 1E99",
    "X = 1E99 \u{1}",
    "X = ? \u{7f}",
    "\u{1} X = 1E99",
    "X = 1\u{1}",
    "X = ( 1\n\u{1}\n)",
    "X = ( 1\n\\begintext\u{1}\n)",
    "X = ( 1\n2\u{1}",
    "X = 1E99\n\u{1}",
    "\u{1}\nX = 1E99",
];

/// All texts in their order.
pub fn samples() -> Vec<Vec<u8>> {
    let mut texts: Vec<Vec<u8>> = Vec::new();
    texts.extend(WHOLE.iter().map(|text| text.as_bytes().to_vec()));
    texts.extend(DATA.iter().map(|lines| data(lines)));
    add_line_lengths(&mut texts);
    add_delimiter_lengths(&mut texts);
    add_long_lines(&mut texts);
    add_name_lengths(&mut texts);
    add_bytes(&mut texts);
    add_long_texts(&mut texts);
    text_strings::add(&mut texts);
    text_places::add(&mut texts);
    texts.extend(KERNELS.iter().map(|kernel| kernel.to_vec()));
    texts.push(with_carriage_returns(KERNELS[0]));
    let mut random = Random(5);
    texts.extend((0..MIXTURES).map(|_| mixture(&mut random)));
    texts
}

/// A text of one data section.
pub fn data(lines: &str) -> Vec<u8> {
    format!("\\begindata\n{lines}").into_bytes()
}

/// The ends that a line may have.
const ENDS: [&str; 5] = ["", "\n", "\r\n", "\r", "\r\r\n"];

/// Lengths of lines about the limit.
const LENGTHS: [usize; 7] = [79, 80, 131, 132, 133, 134, 300];

/// Lines about the limit in both sections, in lists, with other faults, before every end.
fn add_line_lengths(texts: &mut Vec<Vec<u8>>) {
    for length in LENGTHS {
        let words = "x".repeat(length);
        let blanks = " ".repeat(length);
        let statement = format!("X = 1{}", " ".repeat(length - 5));
        let digits = format!("X = {}1", "0".repeat(length - 5));
        for end in ENDS {
            texts.push(format!("{words}{end}").into_bytes());
            texts.push(data(&format!("{statement}{end}")));
        }
        texts.push(data(&blanks));
        texts.push(data(&digits));
        texts.push(data(&format!("X = ( 1\n{blanks}\n2 )")));
        texts.push(data(&format!("X = ( 1\n{words}\n2 )")));
        texts.push(data(&format!("\\begintext\n{words}\n\\begindata\nX = 1")));
        texts.push(data(&format!("\u{1}{words}")));
        texts.push(data(&format!("X = 1E99 {words}")));
        texts.push(data(&format!("X = ?\n{words}")));
    }
}

/// Delimiter lines about the limit, blanks before, behind and on both sides, from both sections,
/// in lists, before every end.
fn add_delimiter_lengths(texts: &mut Vec<Vec<u8>>) {
    for length in LENGTHS {
        let blanks = length - 10;
        for before in [0, blanks / 2, blanks] {
            let (before, behind) = (" ".repeat(before), "\t".repeat(blanks - before));
            let opening = format!("{before}\\begindata{behind}");
            let closing = format!("{before}\\begintext{behind}");
            for end in ENDS {
                texts.push(format!("{opening}{end}").into_bytes());
                texts.push(data(&format!("{closing}{end}")));
            }
            texts.push(format!("{opening}\r\nX = 1").into_bytes());
            texts.push(format!("{closing}\n\\begindata\nX = 1").into_bytes());
            texts.push(data(&format!("X = 1\n{opening}\nX = 1")));
            texts.push(data(&format!("X = 1\n{closing}\nX = ?")));
            texts.push(data(&format!("X = ( 1\n{closing}\n2 )")));
            texts.push(format!("{opening}x\nX = 1").into_bytes());
            texts.push(format!("x{opening}\nX = 1").into_bytes());
        }
    }
}

/// Text lines of thousands of bytes, and what a data line may hold among as many blanks.
fn add_long_lines(texts: &mut Vec<Vec<u8>>) {
    let blanks = " ".repeat(1_000);
    for words in [
        "\\begindata",
        "\\begin data",
        "\\begindata \\begindata",
        "X = 1",
    ] {
        for line in [
            format!("{blanks}{words}"),
            format!("{words}{blanks}"),
            format!("{blanks}{words}{blanks}"),
        ] {
            texts.push(format!("{line}\nX = 1").into_bytes());
            texts.push(data(&line));
        }
    }
    texts.push(format!("{blanks}\n\\begindata\nX = 1").into_bytes());
    texts.push("x".repeat(TEXT_BYTES).into_bytes());
}

/// Names of 32 and 33 bytes.
fn add_name_lengths(texts: &mut Vec<Vec<u8>>) {
    for length in [1, 2, 31, 32, 33, 34, 64, 75] {
        let name = "BODY499_".repeat(10)[..length].to_string();
        texts.push(data(&format!("{name}=1")));
        texts.push(data(&format!("{name} ( 1 )")));
    }
    let name = "N".repeat(33);
    texts.push(data(&format!("{name} = 1E99")));
    texts.push(data(&format!("{name} = 1 \u{1}")));
}

/// Every kind of byte, in a text section, in a statement, in a list and alone.
fn add_bytes(texts: &mut Vec<Vec<u8>>) {
    for byte in [
        0, 1, 8, 9, 11, 12, 13, 27, 31, 32, 126, 127, 128, 160, 194, 255,
    ] {
        texts.push(with_byte(b"note ", byte, b" note\n\\begindata\nX = 1\n"));
        texts.push(with_byte(b"\\begindata\nX = 1", byte, b"\n"));
        texts.push(with_byte(b"\\begindata\nX = ( 1", byte, b"2 )\n"));
        texts.push(with_byte(b"\\begindata\n", byte, b"\nX = 1\n"));
        texts.push(with_byte(
            b"\\begindata\nX = 1\n\\begintext",
            byte,
            b"\n?\n",
        ));
    }
}

fn with_byte(before: &[u8], byte: u8, after: &[u8]) -> Vec<u8> {
    [before, &[byte], after].concat()
}

/// Texts that are long in one way each.
fn add_long_texts(texts: &mut Vec<Vec<u8>>) {
    texts.push("\n".repeat(2000).into_bytes());
    texts.push(format!("{}\\begindata\n?", "\r\n".repeat(1000)).into_bytes());
    texts.push(data(&"X = 1\n".repeat(513)));
    texts.push(data(&format!("X = (\n{})", "1 2 3 4 5 6\n".repeat(520))));
    texts.push(data(&format!("X = ( 1{}", "\n".repeat(1000))));
    texts.push(data(&format!("X = ( 1{}\\begintext", "\n".repeat(1000))));
    texts.push(data(&format!(
        "{}?",
        "X = 1\n\\begintext\n?\n\\begindata\n".repeat(100)
    )));
    texts.push(data(&format!("X = (\n{},1E99 )", ",\n".repeat(500))));
}

/// A text with CR LF at the end of every line.
fn with_carriage_returns(text: &[u8]) -> Vec<u8> {
    let lines: Vec<&[u8]> = text.split(|b| *b == b'\n').collect();
    lines.join(&b"\r\n"[..])
}

/// A data section of mostly right statements, with at most two bytes changed.
fn mixture(random: &mut Random) -> Vec<u8> {
    let mut text = random
        .one(&["\\begindata\n", "\\begindata\r\n", "note\n\\begindata\n"])
        .to_string();
    for _ in 0..1 + random.below(5) {
        add_statement(&mut text, random);
    }
    let mut text = text.into_bytes();
    for _ in 0..random.below(3) {
        let place = random.below(text.len());
        match random.below(3) {
            0 => text[place] = random.one(b" \t,()=+-.0E\r\n\\X'\x01\xff"),
            1 => text.insert(place, random.one(b" \t,()=+-.9d\r\n_''\x00\x80")),
            _ => {
                text.remove(place);
            }
        }
    }
    text
}

/// One statement in some of its many spellings, or a line that is none.
fn add_statement(text: &mut String, random: &mut Random) {
    let end = random.one(&["\n", "\n", "\n", "\r\n", " \n"]);
    if random.below(8) == 0 {
        text.push_str(random.one(&[
            "",
            "\\begintext",
            "\\begindata",
            " \t",
            "\\begintext\n\\begindata",
        ]));
        text.push_str(end);
        return;
    }
    text.push_str(random.one(&["", "", " ", "\t"]));
    text.push_str(random.one(&["X", "Y_1", "BODY399_PM", "body399_pm", "Z9"]));
    text.push_str(random.one(&[" = ", "=", " += ", "+=", "\t="]));
    // Mostly all numbers or all strings.
    let strings = random.below(3) == 0;
    if random.below(3) == 0 {
        text.push_str(value(random, strings));
    } else {
        text.push_str(random.one(&["(", "( ", "(\n", "(,"]));
        for _ in 0..1 + random.below(6) {
            let other = random.below(40) == 0;
            text.push_str(value(random, strings != other));
            text.push_str(random.one(&[" ", ", ", ",", "\n", " \n\t", " , "]));
        }
        text.push(')');
    }
    text.push_str(end);
}

/// A value; one in twenty is none, or outside the class.
fn value(random: &mut Random, string: bool) -> &'static str {
    let strings = [
        "''",
        "'a'",
        "'Mars'",
        "'Herschel''s map'",
        "''''",
        "'a\tb'",
        "'( 1, 2 )'",
        "'twenty bytes of this, twenty more of it, and the last twenty'",
    ];
    let no_strings = ["'", "'a", "'a'b", "'''", "'a'1"];
    let good = [
        "0",
        "-0",
        "1",
        "+2.5",
        "-.125",
        "3397.",
        "1E5",
        "1d-7",
        "270.000",
        "0.1",
        "6378.14",
        "9007199254740993",
        "9.999999999999999999E40",
        "1E22",
        "1E-22",
        "-1.5D+3",
        "350.89198226",
    ];
    let bad = ["1E23", "10000000000000000000", "1E", "x", ".", "1.2.3"];
    match (random.below(20) == 0, string) {
        (true, true) => random.one(&no_strings),
        (true, false) => random.one(&bad),
        (false, true) => random.one(&strings),
        (false, false) => random.one(&good),
    }
}
