//! The program: its inputs keep their bounds, and its answers fit them.

use std::io::Write;
use std::process::{Command, Stdio};

/// What the program prints for a subcommand and an input.
fn twin(subcommand: &str, input: &[u8]) -> Vec<u8> {
    let mut child = Command::new(env!("CARGO_BIN_EXE_twin"))
        .arg(subcommand)
        .stdin(Stdio::piped())
        .stdout(Stdio::piped())
        .spawn()
        .unwrap();
    let mut stdin = child.stdin.take().unwrap();
    let input = input.to_vec();
    // The program may stop reading early; what it left unread is no matter.
    let writer = std::thread::spawn(move || drop(stdin.write_all(&input)));
    let output = child.wait_with_output().unwrap();
    writer.join().unwrap();
    assert!(output.status.success());
    output.stdout
}

fn lines(output: &[u8]) -> Vec<String> {
    String::from_utf8_lossy(output)
        .lines()
        .map(str::to_string)
        .collect()
}

#[test]
fn orientations_have_a_line_for_every_code_and_epoch() {
    let all = lines(&twin("orientations", b""));
    let count = |word: &str| all.iter().filter(|line| line.starts_with(word)).count();
    assert_eq!(count("orientation "), 21 * 32);
    assert_eq!(count("radii "), 21);
    assert_eq!(all.len(), 21 * 33);
}

#[test]
fn turns_meet_every_answer() {
    let all = lines(&twin("turns", b""));
    assert_eq!(all.len(), 4 * 8 * 12 * 8);
    for (call, place, numbers) in [
        ("position", 4, &["0", "9", "10", "25"][..]),
        ("move", 5, &["0", "9", "10", "25", "26"]),
    ] {
        for number in numbers {
            let met = all.iter().any(|line| {
                let mut fields = line.split(' ');
                fields.next() == Some(call) && fields.nth(place - 1) == Some(number)
            });
            assert!(met, "{call} {number}");
        }
    }
}

#[test]
fn reads_have_nine_lines_for_a_code() {
    let all = lines(&twin("reads", b"499\n11\n+4\n\n4294967296\n10"));
    assert_eq!(all.len(), 9 + 1 + 9);
    assert_eq!(all[6], "499 orientation BODY4_NUT_PREC_ANGLES");
    assert_eq!(all[8], "499 radii BODY499_RADII");
    assert_eq!(all[9], "11 none");
    assert_eq!(all[17], "10 orientation BODY10_MAX_PHASE_DEGREE");
}

/// What the programs of the library read of their input.
const INPUT_BYTES: usize = 400_000;

#[test]
fn texts_keep_their_bounds_and_meet_every_answer() {
    let input = twin("texts-input", b"");
    assert!(input.len() <= INPUT_BYTES);
    let answers = lines(&twin("texts", &input));
    assert!(answers.len() >= 320);
    for number in ["0", "3", "4", "6", "17", "18", "19", "20", "21"] {
        let met = answers
            .iter()
            .filter(|line| line.split(' ').nth(1) == Some(number));
        assert!(met.count() > 20, "{number}");
    }
}

#[test]
fn histories_keep_their_bounds_and_meet_every_answer() {
    let input = twin("histories-input", b"");
    assert!(input.len() <= INPUT_BYTES);
    let answers = lines(&twin("histories", &input));
    assert!(answers.len() >= 400);
    for (call, place, numbers) in [
        ("empty", 1, &["0", "15"][..]),
        (
            "load",
            2,
            &[
                "0", "1", "2", "3", "4", "6", "7", "15", "17", "18", "19", "20", "21", "22",
            ],
        ),
        ("remove", 2, &["0", "8", "15", "22"]),
        ("clear", 1, &["0", "15", "22"]),
        ("open", 2, &["0", "1", "15", "22"]),
        ("feed", 2, &["0", "8", "15"]),
        (
            "close",
            1,
            &[
                "0", "2", "3", "4", "6", "7", "8", "15", "17", "18", "19", "20", "21",
            ],
        ),
        ("drop", 1, &["0", "8", "15"]),
        ("fetch", 2, &["0", "13", "14", "15", "16"]),
        ("quoted", 3, &["0", "13", "14", "15", "16"]),
        ("totals", 1, &["0", "15"]),
    ] {
        for number in numbers {
            let met = answers.iter().any(|line| {
                let mut fields = line.split(' ');
                fields.next() == Some(call) && fields.nth(place - 1) == Some(number)
            });
            assert!(met, "{call} {number}");
        }
    }
}

#[test]
fn the_listing_refuses_a_longer_input() {
    assert_eq!(
        twin("listing", &vec![b'\n'; 65_537]),
        b"refused 2 line 0 column 0\n"
    );
    assert_eq!(
        twin("listing", &vec![b'\n'; 500_000]),
        b"refused 2 line 0 column 0\n"
    );
    assert_eq!(
        twin("listing", &vec![b'\n'; 65_536]),
        b"variables 0\nvalues 0\n"
    );
    assert_eq!(
        twin("listing", b"\\begindata\nX = 270.000\n"),
        b"variables 1\nX 1\nvalues 1\n4070E00000000000\n"
    );
}
