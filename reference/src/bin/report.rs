//! Reads a rule file on standard input and prints what `report` prints.

use std::io::{self, Read, Write};

use reference::report;

fn main() -> io::Result<()> {
    let mut bytes = Vec::new();
    let mut input = io::stdin().take(report::BYTES_READ as u64);
    input.read_to_end(&mut bytes)?;
    io::stdout().write_all(report::report(&bytes).as_bytes())
}
