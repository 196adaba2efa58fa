//! Writes the table of answers that is named to standard output.
use std::env;
use std::io::{self, Write};
use vowherunga::reference::answers::{tables, TABLES};

fn main() -> io::Result<()> {
    let name = env::args().nth(1).unwrap_or_default();
    match TABLES.iter().position(|t| *t == name) {
        Some(i) => io::stdout().write_all(tables()[i].as_bytes()),
        None => Err(io::Error::other(format!("name one of {}", TABLES.join(", ")))),
    }
}
