//! The book: names and sample blocks.

use crate::{Refusal, PLACES};

/// The most bytes of a book.
pub const MOST_BYTES: usize = 60_000;

/// The most bytes of a name.
pub const MOST_NAME_BYTES: usize = 32;

#[derive(Clone, PartialEq, Debug)]
pub struct Block {
    pub parent: u8,
    /// 1 where the block has text, 0 where not. Only a book that is refused has other values.
    pub text: u8,
    pub word: Vec<u8>,
}

pub struct Book {
    pub names: Vec<Vec<u8>>,
    pub blocks: Vec<Block>,
}

impl Book {
    /// The blocks of a parent. Its sample is the words of all of them.
    pub fn blocks_of(&self, parent: u8) -> Vec<&Block> {
        self.blocks.iter().filter(|block| block.parent == parent).collect()
    }

    /// Whether the name is a parent or a child in some block.
    pub fn uses(&self, name: u8) -> bool {
        self.blocks.iter().any(|block| block.parent == name || block.word.contains(&name))
    }
}

/// Whether these bytes are a name: A-Z, a-z or `_`, then also 0-9, `-` or `.`; 1 to 32 of them.
pub fn is_name(bytes: &[u8]) -> bool {
    let start = |b: u8| b.is_ascii_alphabetic() || b == b'_';
    let later = |b: u8| start(b) || b.is_ascii_digit() || b == b'-' || b == b'.';
    match bytes {
        [] => false,
        [first, rest @ ..] => bytes.len() <= MOST_NAME_BYTES && start(*first) && rest.iter().all(|&b| later(b)),
    }
}

/// What is left to be read.
struct Left<'a>(&'a [u8]);

impl<'a> Left<'a> {
    /// The next field, of this many bytes; 2 if they are not all there.
    fn field(&mut self, size: usize) -> Result<&'a [u8], Refusal> {
        if self.0.len() < size {
            return Err(2);
        }
        let (field, left) = self.0.split_at(size);
        self.0 = left;
        Ok(field)
    }

    fn byte(&mut self) -> Result<usize, Refusal> {
        Ok(self.field(1)?[0] as usize)
    }

    /// A two-byte count, the low byte first.
    fn count(&mut self) -> Result<usize, Refusal> {
        let field = self.field(2)?;
        Ok(field[0] as usize + 256 * field[1] as usize)
    }
}

/// The count of names, also when it is given alone: 3 if it is 0 or above 64.
pub fn check_names(n: usize) -> Result<(), Refusal> {
    if n == 0 || n > PLACES {
        Err(3)
    } else {
        Ok(())
    }
}

/// So many names, each a length and its bytes: 4 for a bad one, 5 for one that is not above the one before.
fn read_names(left: &mut Left, n: usize) -> Result<Vec<Vec<u8>>, Refusal> {
    let mut names: Vec<Vec<u8>> = Vec::new();
    for _ in 0..n {
        let size = left.byte()?;
        if size == 0 || size > MOST_NAME_BYTES {
            return Err(4);
        }
        let name = left.field(size)?;
        if !is_name(name) {
            return Err(4);
        }
        // Slices of bytes compare byte by byte, a proper prefix first.
        if names.last().is_some_and(|before| name <= &before[..]) {
            return Err(5);
        }
        names.push(name.to_vec());
    }
    Ok(names)
}

/// A block over n names: its parent, its text byte, its child count and its children.
fn read_block(left: &mut Left, n: usize) -> Result<Block, Refusal> {
    let parent = left.byte()?;
    if parent >= n {
        return Err(6);
    }
    let text = left.byte()?;
    if text > 1 {
        return Err(16);
    }
    let size = left.byte()?;
    let word = left.field(size)?;
    if word.iter().any(|&child| child as usize >= n) {
        return Err(6);
    }
    Ok(Block { parent: parent as u8, text: text as u8, word: word.to_vec() })
}

/// The book that these bytes are, field by field: 1 to 7, 16. Some of its names may be unused.
pub fn read_fields(bytes: &[u8]) -> Result<Book, Refusal> {
    if bytes.len() > MOST_BYTES {
        return Err(1);
    }
    let mut left = Left(bytes);
    let n = left.count()?;
    check_names(n)?;
    let names = read_names(&mut left, n)?;
    let m = left.count()?;
    let blocks = (0..m).map(|_| read_block(&mut left, n)).collect::<Result<Vec<Block>, Refusal>>()?;
    if left.0.is_empty() {
        Ok(Book { names, blocks })
    } else {
        Err(7)
    }
}

/// The book that these bytes are: 1 to 7, 16, then 17 for a name that is neither a parent nor a child in any block.
pub fn read(bytes: &[u8]) -> Result<Book, Refusal> {
    let book = read_fields(bytes)?;
    if (0..book.names.len() as u8).all(|name| book.uses(name)) {
        Ok(book)
    } else {
        Err(17)
    }
}

/// The bytes of a book with these names and blocks, which are taken as they are, good or bad.
pub fn bytes_of(names: &[Vec<u8>], blocks: &[Block]) -> Vec<u8> {
    let mut out = Vec::new();
    out.extend((names.len() as u16).to_le_bytes());
    for name in names {
        out.push(name.len() as u8);
        out.extend(name);
    }
    out.extend((blocks.len() as u16).to_le_bytes());
    for block in blocks {
        out.push(block.parent);
        out.push(block.text);
        out.push(block.word.len() as u8);
        out.extend(&block.word);
    }
    out
}
