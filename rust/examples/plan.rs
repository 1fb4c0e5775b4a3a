//! Reads a pool sheet from the file that is named, or from standard input,
//! and prints its plan or its refusal.
//!
//! Exit status: 0 where a plan is printed, 1 where the sheet is refused, 2
//! where it cannot be read or the text cannot be written.
//!
//! `cargo run --release --example plan -- ../examples/two.sheet`

use std::env;
use std::fs::File;
use std::io::{self, Read, Write};
use std::process::ExitCode;
use vadivuzhen::{Pool, LONGEST_SHEET};

fn main() -> ExitCode {
    match run() {
        Ok(status) => status.into(),
        Err(what) => {
            eprintln!("{what}");
            ExitCode::from(2)
        }
    }
}

/// The exit status, or what could not be read or written.
fn run() -> Result<u8, String> {
    let sheet = sheet().map_err(|error| format!("the sheet cannot be read: {error}"))?;
    let (text, status) = match Pool::read(&sheet) {
        Ok(pool) => (pool.plan().print(), 0),
        Err(refused) => {
            eprintln!("{refused}");
            (refused.print(), 1)
        }
    };
    show(&text).map_err(|error| format!("the text cannot be written: {error}"))?;
    Ok(status)
}

/// The bytes of the sheet, and no more than show that there are too many.
fn sheet() -> io::Result<Vec<u8>> {
    let input: Box<dyn Read> = match env::args_os().nth(1) {
        Some(file) => Box::new(File::open(file)?),
        None => Box::new(io::stdin()),
    };
    let mut sheet = Vec::new();
    input
        .take(LONGEST_SHEET as u64 + 1)
        .read_to_end(&mut sheet)?;
    Ok(sheet)
}

/// Writes the text. `print!` would panic where the output is closed.
fn show(text: &str) -> io::Result<()> {
    let mut output = io::stdout();
    output.write_all(text.as_bytes())?;
    output.flush()
}
