//! The plain program: a book on standard input, its DTD on standard output.

use std::io::{Read, Write};

fn main() -> std::io::Result<()> {
    let mut book = Vec::new();
    std::io::stdin().take(60_001).read_to_end(&mut book)?;
    std::io::stdout().write_all(&plain::dtd(&book))
}
