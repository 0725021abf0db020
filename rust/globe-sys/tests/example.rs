//! The examples in C compile without a warning; two print what is kept beside them, the third loads
//! and refuses as the first one does.

mod common;

use std::fs;

#[test]
fn the_example_prints_what_is_kept() {
    let program = common::compile(&common::top().join("examples/orientation.c"));
    let output = common::run(&program, &[]);
    assert!(output.status.success());
    let kept = fs::read_to_string(common::top().join("examples/orientation.stdout"))
        .expect("the kept output is read");
    assert_eq!(common::written(&output), kept);

    let refused = common::run(&program, &["examples/kernels/mars-example.tpc"]);
    assert!(!refused.status.success());
    let shown = common::written(&refused);
    assert!(shown.contains("refused 6 (NUMBER) at line 485, column "));
    let lines: Vec<&str> = shown.lines().rev().take(2).collect();
    let caret = lines[0]
        .find('^')
        .expect("a caret is under the faulty line");
    assert!(lines[1][caret..].starts_with("6.6443009930565219D-09"));

    let museum = common::run(&program, &["examples/kernels/museum.tpc"]);
    assert!(museum.status.success());
    let captions = [
        "caption 1: Mars\n",
        "caption 2: \n",
        "caption 5: Schiaparelli's \"canali\" turned out to be an illusion.\n",
        "caption 7: Lent by the Observatory's Friends (until 30 May).\n",
    ];
    for caption in captions {
        assert!(common::written(&museum).contains(caption), "{caption}");
    }
    assert!(!common::written(&museum).contains("caption 8"));

    let unreadable = common::run(&program, &["examples/kernels/nowhere.tpc"]);
    assert!(!unreadable.status.success());
    assert!(String::from_utf8_lossy(&unreadable.stderr).contains("nowhere.tpc"));

    let negative = common::run(&program, &["examples/kernels/moon.tpc", "-31"]);
    assert!(!negative.status.success());
    assert!(common::written(&negative).contains("refused 10 (UNKNOWN BODY)"));
}

#[test]
fn the_feeding_example_tells_its_progress() {
    let program = common::compile(&common::top().join("examples/feeding.c"));
    let output = common::run(&program, &[]);
    assert!(output.status.success());
    let loaded = "examples/kernels/planets.tpc: texts 1, statements 34, values 55\n";
    assert_eq!(common::written(&output), loaded);
    let progress = String::from_utf8_lossy(&output.stderr).into_owned();
    assert!(progress.starts_with("\r512 bytes read, texts held 0\r1024 bytes read"));
    assert!(progress.ends_with("\r2336 bytes read, texts held 0\n"));

    let refused = common::run(&program, &["examples/kernels/mars-example.tpc"]);
    assert!(!refused.status.success());
    let shown = common::written(&refused);
    assert!(shown.contains("refused 6 at line 485, column 27\n"));
    let lines: Vec<&str> = shown.lines().rev().take(2).collect();
    assert_eq!(lines[0].find('^'), Some(26));
    assert!(lines[1][26..].starts_with("6.6443009930565219D-09"));

    let unreadable = common::run(&program, &["examples/kernels/nowhere.tpc"]);
    assert!(!unreadable.status.success());
    assert!(String::from_utf8_lossy(&unreadable.stderr).contains("nowhere.tpc"));
}

/// The shell of the drive's example goes once round in a day, in single short moves.
#[test]
fn the_drive_never_jumps() {
    let program = common::compile(&common::top().join("examples/drive.c"));
    let output = common::run(&program, &[]);
    assert!(output.status.success());
    let printed = common::written(&output);
    let kept = fs::read_to_string(common::top().join("examples/drive.stdout"))
        .expect("the kept output is read");
    assert_eq!(printed, kept);

    let lines = || printed.lines().skip(1);
    let numbers = |line: &str| -> Vec<i64> {
        let words = line.split(|c: char| !c.is_ascii_digit() && c != '-' && c != '+');
        words.filter_map(|word| word.parse().ok()).collect()
    };
    let first = numbers(printed.lines().next().expect("a first line"));
    let start = *first.last().expect("it ends with the position");
    let mut shell = start;
    for line in lines() {
        let [.., target, steps] = numbers(line)[..] else {
            panic!("{line}");
        };
        assert!(steps.abs() <= 9, "{line}");
        shell = (shell + steps).rem_euclid(200);
        assert_eq!(shell, target, "{line}");
    }
    assert_eq!(lines().count(), 24);

    let refused = common::run(&program, &["499", "4097"]);
    assert!(!refused.status.success());
    assert!(String::from_utf8_lossy(&refused.stderr).contains("refused 25"));
}
