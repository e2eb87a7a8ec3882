//! The evening list of a capture on standard input, made in memory by the
//! proved library.

use std::io::{self, Read, Write};

/// More than any line has, and more than a block of so few octets can have
/// lines.
const LINE: usize = 64;
const LINES: usize = 171;
const BLOCK: usize = 512;

fn main() -> io::Result<()> {
    let mut capture = Vec::new();
    io::stdin().lock().read_to_end(&mut capture)?;
    let blocks = capture.len() / BLOCK + 1;
    let mut out = vec![0; blocks * LINES * LINE + LINE];
    match oneiralth::list(&capture, &mut out) {
        Ok(length) => io::stdout().lock().write_all(&out[..length]),
        Err(refusal) => {
            eprintln!("list: refused with {}", refusal);
            std::process::exit(1);
        }
    }
}
