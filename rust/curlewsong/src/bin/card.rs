//! The field engineer's card for one book: `card BOOK`, or a book on standard input.
//!
//! For each parent with a block it prints the declaration and goes down the card: whether the parent got a model, whether
//! every name that repeats in a block stands under `+` or `*`, whether text is allowed where a block has text, whether the
//! declaration reads back and is written once more as it was, and the names that the model allows together though no block
//! holds them together. Where text and names are allowed, XML knows no other model than any number of the names in any order:
//! one line says so, and in how many of the blocks text stands. The status is 1 where one of the first four fails, and where
//! the book cannot be read or the card not written whole; the rest is for a person to read. Of a book that is refused
//! for an unused name, the message names the first one.

use curlewsong::{model_of_parent, read_declaration, write_declaration, Model, Refusal, LONGEST_DECLARATION, NONE};
use std::fmt::Display;
use std::io::{stderr, stdin, stdout, BufWriter, ErrorKind, Read, Result, Write};
use std::path::Path;
use std::process::ExitCode;

struct Block {
    parent: usize,
    text: bool,
    word: Vec<usize>,
}

/// The names and the blocks of a book that the library has not refused, or has refused with 17.
struct Book {
    names: Vec<String>,
    blocks: Vec<Block>,
}

impl Book {
    /// The numbers of the names that are neither a parent nor a child in any block.
    fn unused(&self) -> Vec<usize> {
        let used = |name: &usize| self.blocks.iter().any(|block| block.parent == *name || block.word.contains(name));
        (0..self.names.len()).filter(|name| !used(name)).collect()
    }
}

fn count(bytes: &mut std::slice::Iter<u8>) -> usize {
    let low = *bytes.next().unwrap_or(&0) as usize;
    low + 256 * *bytes.next().unwrap_or(&0) as usize
}

fn run(bytes: &mut std::slice::Iter<u8>) -> Vec<u8> {
    let size = *bytes.next().unwrap_or(&0) as usize;
    bytes.by_ref().take(size).copied().collect()
}

fn parts(book: &[u8]) -> Book {
    let mut bytes = book.iter();
    let names = (0..count(&mut bytes)).map(|_| String::from_utf8_lossy(&run(&mut bytes)).into_owned()).collect();
    let blocks = (0..count(&mut bytes))
        .map(|_| {
            let parent = *bytes.next().unwrap_or(&0) as usize;
            let text = bytes.next() == Some(&1);
            Block { parent, text, word: run(&mut bytes).into_iter().map(usize::from).collect() }
        })
        .collect();
    Book { names, blocks }
}

/// Whether the name may come more than once.
fn loops(model: &Model, name: usize) -> bool {
    let factor = model.factor[name];
    factor != NONE && model.mode[factor as usize] >= 2
}

/// Whether a word that the model accepts may hold both names.
fn together(model: &Model, a: usize, b: usize) -> bool {
    let (x, y) = (model.factor[a], model.factor[b]);
    x != NONE && y != NONE && (x != y || loops(model, a))
}

/// Whether some block holds the name more than once.
fn repeated(blocks: &[&Block], name: usize) -> bool {
    blocks.iter().any(|block| block.word.iter().filter(|&&x| x == name).count() > 1)
}

fn held_together(blocks: &[&Block], a: usize, b: usize) -> bool {
    blocks.iter().any(|block| block.word.contains(&a) && block.word.contains(&b))
}

/// The declaration, if it reads back as the same parent and model and is then written the same.
fn read_back(bytes: &[u8], parent: usize, model: Model) -> (String, bool) {
    let mut first = [0; LONGEST_DECLARATION];
    let Ok(size) = write_declaration(bytes, parent, model, &mut first) else {
        return (String::new(), false);
    };
    let text = String::from_utf8_lossy(&first[..size]).into_owned();
    let Ok((again, same)) = read_declaration(bytes, &first[..size]) else {
        return (text, false);
    };
    let mut second = [0; LONGEST_DECLARATION];
    let written = write_declaration(bytes, again, same, &mut second);
    (text, again == parent && same == model && written == Ok(size) && first[..size] == second[..size])
}

/// Says what the model allows though no block shows it, and for mixed content how many blocks have text.
fn allowed(names: &[String], blocks: &[&Block], model: &Model, out: &mut impl Write) -> Result<()> {
    if model.text == 1 && model.count > 0 {
        let (texts, all) = (blocks.iter().filter(|block| block.text).count(), blocks.len());
        let have = if texts == 1 { "has" } else { "have" };
        writeln!(out, "  mixed content: {texts} of {all} blocks {have} text; any number of its names in any order")?;
    }
    for a in 0..names.len() {
        let beside: Vec<&str> =
            (a + 1..names.len()).filter(|&b| together(model, a, b) && !held_together(blocks, a, b)).map(|b| &*names[b]).collect();
        if !beside.is_empty() {
            writeln!(out, "  allowed together, in no block together: {} with {}", names[a], beside.join(", "))?;
        }
    }
    Ok(())
}

/// Goes down the card for one parent, and says whether nothing failed.
fn card(bytes: &[u8], book: &Book, parent: usize, out: &mut impl Write) -> Result<bool> {
    let names = &book.names;
    let blocks: Vec<&Block> = book.blocks.iter().filter(|block| block.parent == parent).collect();
    let Ok(model) = model_of_parent(bytes, parent) else {
        writeln!(out, "{}: NO MODEL", names[parent])?;
        return Ok(false);
    };
    let (declaration, same) = read_back(bytes, parent, model);
    writeln!(out, "{declaration}")?;
    if !same {
        writeln!(out, "  NOT READ BACK as it was written")?;
    }
    let lost: Vec<&str> = (0..names.len()).filter(|&x| repeated(&blocks, x) && !loops(&model, x)).map(|x| &*names[x]).collect();
    if !lost.is_empty() {
        writeln!(out, "  LOST LOOP: {} repeats and has neither + nor *", lost.join(", "))?;
    }
    let lost_text = model.text != 1 && blocks.iter().any(|block| block.text);
    if lost_text {
        writeln!(out, "  LOST TEXT: a block has text and the model allows none")?;
    }
    allowed(names, &blocks, &model, out)?;
    Ok(same && lost.is_empty() && !lost_text)
}

/// Goes down the card for every parent with a block, and says whether nothing failed.
fn cards(bytes: &[u8], out: &mut impl Write) -> Result<bool> {
    let book = parts(bytes);
    let (mut parents, mut good) = (0, 0);
    for parent in (0..book.names.len()).filter(|&p| book.blocks.iter().any(|block| block.parent == p)) {
        parents += 1;
        good += usize::from(card(bytes, &book, parent, out)?);
    }
    writeln!(out, "parents with a block: {parents}; declared, read back and with no lost loop or text: {good}")?;
    out.flush()?;
    Ok(good == parents)
}

/// The first unused name of a book that is refused with 17, how many more there are, and what to do.
fn unused_names(bytes: &[u8]) -> String {
    let book = parts(bytes);
    let unused = book.unused();
    let named = unused.first().map(|&name| format!("name {name}, '{}'", book.names[name].escape_debug()));
    let more = (unused.len() > 1).then(|| format!("and {} more", unused.len() - 1));
    let said: Vec<String> = named.into_iter().chain(more).collect();
    format!("({}); remove each such name, or add a block that uses it", said.join(", "))
}

fn failed(why: impl Display) -> ExitCode {
    // Where standard error cannot be written either, the status alone has to do.
    let _ = writeln!(stderr(), "card: {why}");
    ExitCode::FAILURE
}

fn main() -> ExitCode {
    let mut bytes = Vec::new();
    let (called, read) = match std::env::args_os().nth(1) {
        Some(file) => (Path::new(&file).display().to_string(), std::fs::read(&file).map(|all| bytes = all)),
        None => ("standard input".to_string(), stdin().read_to_end(&mut bytes).map(|_| ())),
    };
    if let Err(error) = read {
        return failed(format_args!("{called}: {error}"));
    }
    // Parent 0 is always below N, so only a refusal 1 to 7, 16, 17 or 9 can come.
    match model_of_parent(&bytes, 0) {
        Ok(_) | Err(Refusal(9)) => {}
        Err(refusal @ Refusal(17)) => return failed(format_args!("{called}: {refusal} {}", unused_names(&bytes))),
        Err(refusal) => return failed(format_args!("{called}: {refusal}")),
    }
    match cards(&bytes, &mut BufWriter::new(stdout().lock())) {
        Ok(true) => ExitCode::SUCCESS,
        Ok(false) => ExitCode::FAILURE,
        // Whoever read the pipe has seen enough.
        Err(error) if error.kind() == ErrorKind::BrokenPipe => ExitCode::FAILURE,
        Err(error) => failed(format_args!("standard output: {error}")),
    }
}
