//! The table of times.

use crate::work::Row;

/// Prints the rows as Markdown, then which of them miss their goal.
pub fn print_times(rows: &[Row]) {
    println!("| Call | Texts held | Library | Twin | Ratio | Goal |");
    println!("|---|---:|---:|---:|---:|---:|");
    for row in rows {
        let texts = row.texts.map(|texts| texts.to_string());
        println!(
            "| {} | {} | {} | {} | {:.2} | {:.1} |",
            call(row),
            texts.unwrap_or_default(),
            time(row.library, row.bytes),
            time(row.twin, row.bytes),
            ratio(row),
            row.goal
        );
    }
    let missed: Vec<String> = rows
        .iter()
        .filter(|row| ratio(row) > row.goal)
        .map(|row| format!("{} ({:.2})", call(row), ratio(row)))
        .collect();
    if missed.is_empty() {
        println!("\nEvery ratio is within its goal.");
    } else {
        println!("\nOver their goal: {}.", missed.join(", "));
    }
}

fn ratio(row: &Row) -> f64 {
    row.library / row.twin
}

fn call(row: &Row) -> String {
    match row.bytes {
        Some(bytes) => format!("{} of {bytes} bytes", row.call),
        None => String::from(row.call),
    }
}

/// A time, and what it is for each byte of a text that is loaded.
fn time(ns: f64, bytes: Option<usize>) -> String {
    let time = if ns < 1e4 {
        format!("{ns:.0} ns")
    } else {
        format!("{:.1} µs", ns / 1e3)
    };
    match bytes {
        Some(bytes) => {
            let bytes = bytes as f64;
            let (each, rate) = (ns / bytes, bytes / ns * 1e3);
            format!("{time}, {each:.1} ns a byte, {rate:.0} MB/s")
        }
        None => time,
    }
}
