//! Writes to standard output what the program `cones` has to write for a step list from standard input, worked out by the reference's operators
//! or, where document 02 departs from them, by the standard's.
use std::io::{self, Read, Write};
use vowherunga::reference::steps::{run, Memory};

fn main() -> io::Result<()> {
    let mut text = Vec::new();
    io::stdin().read_to_end(&mut text)?;
    io::stdout().write_all(run(&text, Memory::zeros(2048, 2048)).output.as_bytes())
}
