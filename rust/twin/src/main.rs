//! `twin SUBCOMMAND`: writes the expected outputs that the library's programs are compared with.

mod program;

use std::env;
use std::io::{self, Read, Write};
use std::process::ExitCode;

const SUBCOMMANDS: &str =
    "subcommands: orientations, turns, texts-input, texts, histories-input, histories, reads, listing";

fn main() -> ExitCode {
    let subcommand = env::args().nth(1).unwrap_or_default();
    match run(&subcommand) {
        Ok(()) => ExitCode::SUCCESS,
        Err(error) => {
            eprintln!("twin: {error}");
            ExitCode::FAILURE
        }
    }
}

fn run(subcommand: &str) -> io::Result<()> {
    let mut out = io::BufWriter::new(io::stdout().lock());
    match subcommand {
        "orientations" => program::orientations::write(&mut out)?,
        "turns" => program::turns::write(&mut out)?,
        "texts-input" => program::texts::write_input(&mut out)?,
        "texts" => program::texts::write(&input()?, &mut out)?,
        "histories-input" => program::histories::write_input(&mut out)?,
        "histories" => program::histories::write(&input()?, &mut out)?,
        "reads" => program::reads::write(&input()?, &mut out)?,
        "listing" => program::listing::write(&mut out)?,
        _ => return Err(io::Error::new(io::ErrorKind::InvalidInput, SUBCOMMANDS)),
    }
    out.flush()
}

/// All of standard input.
fn input() -> io::Result<Vec<u8>> {
    let mut bytes = Vec::new();
    io::stdin().lock().read_to_end(&mut bytes)?;
    Ok(bytes)
}
