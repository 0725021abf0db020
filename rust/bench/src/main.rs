//! `cargo run --release -p bench`: the library's times against those of the twin doing the same
//! work, and what the library asks of a small machine, as the tables of docs/BENCHMARKS.md.

mod drive;
mod facts;
mod library;
mod numbers;
mod parts;
mod probes;
mod stack;
mod strings;
mod table;
mod texts;
mod timing;
mod work;

fn main() {
    println!("## Times\n");
    println!("{}\n", facts::machine());
    let rows = work::measured();
    table::print_times(&rows);
    println!();
    parts::print_beside_load(&rows);
    println!("\n## Firmware facts\n");
    facts::print();
}
