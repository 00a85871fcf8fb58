//! The calls open to the outside, each with its checks in the order of paper 01's table, and the program.

use crate::book::{self, Book};
use crate::models::{self, ROW};
use crate::record::Record;
use crate::{chain, declaration, document, within::counterexample, Refusal};

/// The most names of a word in the acceptance call.
pub const MOST_WORD: usize = 255;

/// The most names of the word that the call on two records hands over, and the places that its buffer has to have.
pub const MOST_COUNTEREXAMPLE: usize = 65;

fn parent_of(book: &Book, parent: usize) -> Result<u8, Refusal> {
    if parent >= book.names.len() {
        Err(8)
    } else {
        Ok(parent as u8)
    }
}

fn model_in(book: &Book, parent: u8) -> Result<Record, Refusal> {
    let blocks = book.blocks_of(parent);
    if blocks.is_empty() {
        return Err(9);
    }
    Ok(chain::model(&blocks))
}

fn put(text: &[u8], buffer: &mut [u8]) -> Result<usize, Refusal> {
    if buffer.len() < text.len() {
        return Err(12);
    }
    buffer[..text.len()].copy_from_slice(text);
    Ok(text.len())
}

/// The model of a parent from a book: 1 to 7, 16, 17, 8, 9.
pub fn model_of_parent(bytes: &[u8], parent: usize) -> Result<Record, Refusal> {
    let book = book::read(bytes)?;
    let parent = parent_of(&book, parent)?;
    model_in(&book, parent)
}

/// Whether a record over n names accepts a word: 3, 10, 11.
pub fn accepts_word(n: usize, record: &Record, word: &[u8]) -> Result<bool, Refusal> {
    book::check_names(n)?;
    if !record.is_model(n) {
        return Err(10);
    }
    if word.len() > MOST_WORD || word.iter().any(|&x| x as usize >= n) {
        return Err(11);
    }
    Ok(record.accepts(word))
}

/// Whether every word of child names that the first record over n names accepts is accepted by the second: none where it is so,
/// else the length of a word that shows that it is not, written into the buffer: 3, 10 for the first, 10 for the second, 12.
pub fn within(n: usize, first: &Record, second: &Record, buffer: &mut [u8]) -> Result<Option<usize>, Refusal> {
    book::check_names(n)?;
    if !first.is_model(n) || !second.is_model(n) {
        return Err(10);
    }
    if buffer.len() < MOST_COUNTEREXAMPLE {
        return Err(12);
    }
    let word = counterexample(n, first, second);
    assert!(word.as_ref().is_none_or(|word| word.len() <= MOST_COUNTEREXAMPLE), "{first:?} and {second:?} need {word:?}");
    word.map(|word| put(&word, buffer)).transpose()
}

/// The length of a record's declaration, written into the buffer: 1 to 7, 16, 17, 8, 10, 12.
pub fn write_declaration(bytes: &[u8], parent: usize, record: &Record, buffer: &mut [u8]) -> Result<usize, Refusal> {
    let book = book::read(bytes)?;
    let parent = parent_of(&book, parent)?;
    if !record.is_model(book.names.len()) {
        return Err(10);
    }
    put(&declaration::written(&book.names, parent as usize, record), buffer)
}

/// The length of the declaration of a parent's model, written into the buffer: 1 to 7, 16, 17, 8, 9, 12.
pub fn write_from_sample(bytes: &[u8], parent: usize, buffer: &mut [u8]) -> Result<usize, Refusal> {
    let book = book::read(bytes)?;
    let parent = parent_of(&book, parent)?;
    let record = model_in(&book, parent)?;
    put(&declaration::written(&book.names, parent as usize, &record), buffer)
}

/// The parent and the record of a declaration's text: 1 to 7, 16, 17, 13, 14, 15.
pub fn read_declaration(bytes: &[u8], text: &[u8]) -> Result<(usize, Record), Refusal> {
    let book = book::read(bytes)?;
    declaration::read(&book.names, text)
}

/// For each parent with a block, in rising number, its declaration and a line feed.
fn lines(book: &Book) -> Vec<u8> {
    let mut out = Vec::new();
    for parent in 0..book.names.len() as u8 {
        if let Ok(record) = model_in(book, parent) {
            out.extend(declaration::written(&book.names, parent as usize, &record));
            out.push(b'\n');
        }
    }
    out
}

/// The length of the whole DTD of a book, written into the buffer: 1 to 7, 16, 17, 12.
pub fn write_dtd(bytes: &[u8], buffer: &mut [u8]) -> Result<usize, Refusal> {
    let book = book::read(bytes)?;
    put(&lines(&book), buffer)
}

/// Whether a document over n names is as the models of a table say: 1, 3, 10, 18, 19.
pub fn accepts_document(n: usize, table: &[u8], document: &[u8]) -> Result<bool, Refusal> {
    if document.len() > document::MOST_BYTES {
        return Err(1);
    }
    book::check_names(n)?;
    let models = models::records(n, table);
    if models.iter().flatten().any(|record| !record.is_model(n)) {
        return Err(10);
    }
    Ok(document::read(n, document)?.is_valid(&models))
}

/// Puts a record over n names into a table, as the model of a parent: 3, 8, 10, 12.
pub fn put_model(n: usize, parent: usize, record: &Record, table: &mut [u8]) -> Result<(), Refusal> {
    book::check_names(n)?;
    if parent >= n {
        return Err(8);
    }
    if !record.is_model(n) {
        return Err(10);
    }
    let row = table.get_mut(ROW * parent..ROW * (parent + 1)).ok_or(12u8)?;
    row.copy_from_slice(&models::row_of(record));
    Ok(())
}

/// The length of the rows of a book's names, written into a table, each with the model of its blocks if it has any: 1 to 7, 16,
/// 17, 12.
pub fn fill_models(bytes: &[u8], table: &mut [u8]) -> Result<usize, Refusal> {
    let book = book::read(bytes)?;
    let row = |name| model_in(&book, name).map_or(vec![0; ROW], |record| models::row_of(&record));
    put(&(0..book.names.len() as u8).flat_map(row).collect::<Vec<u8>>(), table)
}

/// What the program prints of a book.
pub fn dtd(bytes: &[u8]) -> Vec<u8> {
    match book::read(bytes) {
        Ok(book) => lines(&book),
        Err(number) => format!("refused {number}\n").into_bytes(),
    }
}
