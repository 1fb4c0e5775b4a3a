//! The program `plan` once more: reads a pool sheet from standard input and
//! prints what this planner answers.

use reference::printout::program;
use std::io::{self, Read, Write};

fn main() -> io::Result<()> {
    let mut input = Vec::new();
    io::stdin().read_to_end(&mut input)?;
    io::stdout().write_all(program(&input).as_bytes())
}
