//! The reports of the sheets on standard input, one sheet a line with `/` for its line ends.

use plain::report::report;
use std::io::{self, Read, Write};

fn main() -> io::Result<()> {
    let mut cases = Vec::new();
    io::stdin().read_to_end(&mut cases)?;
    let mut out = Vec::new();
    for case in cases.split_inclusive(|b| *b == b'\n') {
        let bytes = case.iter().filter(|b| **b != b'\n');
        let text: Vec<u8> = bytes.map(|b| if *b == b'/' { b'\n' } else { *b }).collect();
        report(&mut out, &text)?;
    }
    io::stdout().write_all(&out)
}
