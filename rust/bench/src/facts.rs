//! What the library asks of a small machine: memory of a pool, code, stack.

use std::fs;
use std::process::Command;

use globe_sys as sys;

use crate::probes;

/// The processor that the times were taken on.
pub fn machine() -> String {
    fs::read_to_string("/proc/cpuinfo")
        .unwrap_or_default()
        .lines()
        .find(|line| line.starts_with("model name"))
        .and_then(|line| line.split_once(':'))
        .map_or(String::from("an unknown processor"), |(_, name)| {
            String::from(name.trim())
        })
}

/// Prints all facts as Markdown.
pub fn print() {
    println!("- pool: {} bytes", 8 * sys::globe_pool_words());
    println!("- code and constants: {}", code());
    println!("- calls of the C library: {}", foreign());
    println!();
    println!("| Call | Deepest stack, bytes |");
    println!("|---|---:|");
    for (name, bytes) in probes::stacks() {
        println!("| {name} | {bytes} |");
    }
}

/// The sections of the archive as `size` has them, summed over its members.
fn code() -> String {
    let lines = output("size", &["-t", sys::ARCHIVE]);
    let totals = lines.lines().last().unwrap_or_default();
    match totals.split_whitespace().collect::<Vec<_>>()[..] {
        [text, data, bss, ..] => format!("{text} bytes, data {data}, bss {bss}"),
        _ => String::from("unknown, `size` is wanted"),
    }
}

/// The functions that the archive leaves to the C library.
fn foreign() -> String {
    let lines = output("nm", &["-u", "-P", sys::ARCHIVE]);
    let mut names: Vec<&str> = lines
        .lines()
        .filter_map(|line| line.trim_end().strip_suffix(" U"))
        .collect();
    names.sort_unstable();
    names.dedup();
    names.join(", ")
}

fn output(program: &str, arguments: &[&str]) -> String {
    Command::new(program)
        .args(arguments)
        .output()
        .map(|output| String::from_utf8_lossy(&output.stdout).into_owned())
        .unwrap_or_default()
}
