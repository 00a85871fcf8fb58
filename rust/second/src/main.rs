//! The program of paper 01 once more: a book on standard input, its DTD on standard output.

use std::io::{Read, Write};

fn main() -> std::io::Result<()> {
    let mut book = Vec::new();
    std::io::stdin().read_to_end(&mut book)?;
    std::io::stdout().write_all(&second::calls::dtd(&book))
}
