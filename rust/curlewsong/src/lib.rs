//! Safe calls of the proved static library. Each takes any input, returns, and answers a value or the number of a refusal, which
//! is that of the papers (include/curlewsong.h has them). A refused call leaves its buffer as it was.
//!
//! The calls ask nothing of their input, so these functions test nothing: they hand over slices as pointers and lengths, which is
//! what makes them safe, and take the answers apart.

mod ffi;

pub use ffi::{Model, PLACES};

/// No factor holds this name.
pub const NONE: u8 = 255;

/// The longest declaration: a buffer of this length is never too short.
pub const LONGEST_DECLARATION: usize = 2253;

/// The longest DTD of a book: a buffer of this length is never too short.
pub const LONGEST_DTD: usize = 144_256;

/// The most names of the word that shows that a model is not within another: a buffer needs this many places.
pub const LONGEST_COUNTEREXAMPLE: usize = 65;

/// The bytes of a row in a table of models: a byte that is 0 where there is no model, the count, the text byte, the factors and
/// the modes.
pub const MODEL_ROW: usize = 3 + 2 * PLACES;

/// The bytes of a table of models with a row for each of 64 names, the most that are ever looked at or written.
pub const LONGEST_MODELS: usize = 64 * MODEL_ROW;

/// The most bytes of a document.
pub const LONGEST_DOCUMENT: usize = 60_000;

/// The model that accepts the empty word alone and allows no text; also what a refused call has in the place of a model.
pub const EMPTY: Model = Model { count: 0, factor: [NONE; PLACES], mode: [0; PLACES], text: 0 };

/// A refusal, by its number in the papers.
#[derive(Clone, Copy, PartialEq, Eq, Debug)]
pub struct Refusal(pub u8);

impl std::fmt::Display for Refusal {
    fn fmt(&self, f: &mut std::fmt::Formatter) -> std::fmt::Result {
        let reason = match self.0 {
            1 => "the book has more than 60,000 bytes",
            2 => "the book ends before one of its fields is complete",
            3 => "the count of names is 0 or above 64",
            4 => "a name in the book has a length other than 1 to 32, or a byte that breaks the rule for names",
            5 => "a name in the book is not above the name before it",
            6 => "a parent or child number in the book is not below the count of names",
            7 => "the book has bytes left over after its last block",
            8 => "the parent asked for is not below the count of names",
            9 => "no block in the book has the parent whose model is wanted from the sample",
            10 => "the model record is not a chain over the names, or its text byte does not fit the chain",
            11 => "the word has more than 255 names, or a number that is not below the count of names",
            12 => "the output buffer is shorter than the text to be written, or has fewer than 65 places for a word",
            13 => "the text does not have the form of a declaration",
            14 => "a name in the text, the parent's included, is not in the book",
            15 => "the model in the text has a name twice",
            16 => "a text byte in the book is above 1",
            17 => "a name in the book is neither a parent nor a child in any block",
            18 => "the document has an odd length, a pair with a bad kind or number, or pairs that do not form one root element",
            19 => "the document opens an element at depth 33",
            _ => "no refusal of this table",
        };
        write!(f, "refused {}: {reason}", self.0)
    }
}

impl std::error::Error for Refusal {}

/// Whether every word that a first model accepts is accepted by a second.
#[derive(Clone, PartialEq, Eq, Debug)]
pub enum Inclusion {
    Yes,
    /// A word that the first accepts and the second does not, as the numbers of its names.
    No(Vec<u8>),
}

fn answer<T>(refusal: u8, value: T) -> Result<T, Refusal> {
    if refusal == 0 {
        Ok(value)
    } else {
        Err(Refusal(refusal))
    }
}

/// The model of a parent from its blocks in a book.
pub fn model_of_parent(book: &[u8], parent: usize) -> Result<Model, Refusal> {
    let a = raw::model_of_parent(book, parent);
    answer(a.0, a.1)
}

/// Whether a model over so many names accepts a word.
pub fn accepts_word(names: usize, model: Model, word: &[u8]) -> Result<bool, Refusal> {
    let a = raw::accepts_word(names, model, word);
    answer(a.0, a.1)
}

/// Whether every word that the first model over so many names accepts is accepted by the second. The buffer for the word is made
/// here and long enough, so 12 is not among the refusals.
pub fn within(names: usize, first: Model, second: Model) -> Result<Inclusion, Refusal> {
    let mut word = [0; LONGEST_COUNTEREXAMPLE];
    let a = raw::within(names, first, second, &mut word);
    answer(a.0, if a.1 { Inclusion::Yes } else { Inclusion::No(word[..a.2].to_vec()) })
}

/// Writes a declaration into the front of the buffer, and answers its length.
pub fn write_declaration(book: &[u8], parent: usize, model: Model, buffer: &mut [u8]) -> Result<usize, Refusal> {
    let a = raw::write_declaration(book, parent, model, buffer);
    answer(a.0, a.1)
}

/// Writes the declaration of a parent's model from its blocks into the front of the buffer, and answers its length.
pub fn write_from_sample(book: &[u8], parent: usize, buffer: &mut [u8]) -> Result<usize, Refusal> {
    let a = raw::write_from_sample(book, parent, buffer);
    answer(a.0, a.1)
}

/// Writes the DTD of a book into the front of the buffer, and answers its length: for each parent with a block, in rising
/// number, the declaration of its model from its blocks and a line feed.
pub fn write_dtd(book: &[u8], buffer: &mut [u8]) -> Result<usize, Refusal> {
    let a = raw::write_dtd(book, buffer);
    answer(a.0, a.1)
}

/// The parent and the model of a declaration over the names of a book.
pub fn read_declaration(book: &[u8], text: &[u8]) -> Result<(usize, Model), Refusal> {
    let a = raw::read_declaration(book, text);
    answer(a.0, (a.1, a.2))
}

/// Whether a document over so many names is valid by the models of a table: every element has a model there, its children in
/// order are a word of it, of any length, and text stands only where the model allows it.
///
/// The document is byte pairs, a kind and a number: 0 opens the element of that name, 1 closes it, and 2 is text, with number 0.
/// It has at most `LONGEST_DOCUMENT` bytes, and its elements are at most 32 deep, the root being at depth 1. The table has a row
/// of `MODEL_ROW` bytes for each name. A name whose row is not whole, or begins with 0, has no model.
pub fn accepts_document(names: usize, models: &[u8], document: &[u8]) -> Result<bool, Refusal> {
    let a = raw::accepts_document(names, models, document);
    answer(a.0, a.1)
}

/// Puts the model of a parent into its row of a table, with 1 as its first byte. The table needs `MODEL_ROW * (parent + 1)` bytes
/// or more, and all other bytes keep their values. A new table is all zeros: no name has a model.
pub fn put_model(names: usize, parent: usize, model: Model, models: &mut [u8]) -> Result<(), Refusal> {
    answer(raw::put_model(names, parent, model, models), ())
}

/// Writes the rows of all names of a book into the front of a table, each with the model from its blocks or without one, and
/// answers their length, `MODEL_ROW` for each name. A table of `LONGEST_MODELS` bytes is never too short; the bytes behind the
/// rows keep their values.
pub fn fill_models(book: &[u8], models: &mut [u8]) -> Result<usize, Refusal> {
    let a = raw::fill_models(book, models);
    answer(a.0, a.1)
}

/// The same calls with the refusal's number and the values beside it, whatever the number is: for comparisons.
pub mod raw {
    use super::ffi;
    use super::Model;

    // A slice's pointer is never null, its length is that of what it points to, and a `&mut` slice overlaps no other: all that the
    // library asks of a caller.

    pub fn model_of_parent(book: &[u8], parent: usize) -> (u8, Model) {
        let a = unsafe { ffi::curlewsong_model_of_parent(book.as_ptr(), book.len(), parent) };
        (a.refusal, a.model)
    }

    pub fn accepts_word(names: usize, model: Model, word: &[u8]) -> (u8, bool) {
        let a = unsafe { ffi::curlewsong_accepts_word(names, model, word.as_ptr(), word.len()) };
        (a.refusal, a.yes)
    }

    /// On no, the word is in the front of the buffer, and its length is behind the yes or no. The buffer needs
    /// `LONGEST_COUNTEREXAMPLE` places.
    pub fn within(names: usize, first: Model, second: Model, word: &mut [u8]) -> (u8, bool, usize) {
        let a = unsafe { ffi::curlewsong_within(names, first, second, word.as_mut_ptr(), word.len()) };
        (a.refusal, a.yes, a.length)
    }

    pub fn write_declaration(book: &[u8], parent: usize, model: Model, buffer: &mut [u8]) -> (u8, usize) {
        let a = unsafe {
            ffi::curlewsong_write_declaration(book.as_ptr(), book.len(), parent, model, buffer.as_mut_ptr(), buffer.len())
        };
        (a.refusal, a.length)
    }

    pub fn write_from_sample(book: &[u8], parent: usize, buffer: &mut [u8]) -> (u8, usize) {
        let a =
            unsafe { ffi::curlewsong_write_from_sample(book.as_ptr(), book.len(), parent, buffer.as_mut_ptr(), buffer.len()) };
        (a.refusal, a.length)
    }

    pub fn write_dtd(book: &[u8], buffer: &mut [u8]) -> (u8, usize) {
        let a = unsafe { ffi::curlewsong_write_dtd(book.as_ptr(), book.len(), buffer.as_mut_ptr(), buffer.len()) };
        (a.refusal, a.length)
    }

    pub fn read_declaration(book: &[u8], text: &[u8]) -> (u8, usize, Model) {
        let a = unsafe { ffi::curlewsong_read_declaration(book.as_ptr(), book.len(), text.as_ptr(), text.len()) };
        (a.refusal, a.parent, a.model)
    }

    pub fn accepts_document(names: usize, models: &[u8], document: &[u8]) -> (u8, bool) {
        let a =
            unsafe { ffi::curlewsong_accepts_document(names, models.as_ptr(), models.len(), document.as_ptr(), document.len()) };
        (a.refusal, a.yes)
    }

    pub fn put_model(names: usize, parent: usize, model: Model, models: &mut [u8]) -> u8 {
        unsafe { ffi::curlewsong_put_model(names, parent, model, models.as_mut_ptr(), models.len()) }
    }

    pub fn fill_models(book: &[u8], models: &mut [u8]) -> (u8, usize) {
        let a = unsafe { ffi::curlewsong_fill_models(book.as_ptr(), book.len(), models.as_mut_ptr(), models.len()) };
        (a.refusal, a.length)
    }
}
