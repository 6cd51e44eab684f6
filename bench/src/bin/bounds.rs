//! The report of the sheet on standard input.

use plain::report::report;
use std::io::{self, Read, Write};

fn main() -> io::Result<()> {
    let mut text = Vec::new();
    io::stdin().read_to_end(&mut text)?;
    let mut out = Vec::new();
    report(&mut out, &text)?;
    io::stdout().write_all(&out)
}
