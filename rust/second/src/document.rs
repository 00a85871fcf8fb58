//! The document: byte pairs, and the tree of elements that they are.

use crate::record::Record;
use crate::Refusal;

/// The most bytes of a document.
pub const MOST_BYTES: usize = 60_000;

/// The depth of the deepest element; the root is at depth 1.
pub const DEEPEST: usize = 32;

/// The kinds of pairs.
pub const OPEN: u8 = 0;
pub const CLOSE: u8 = 1;
pub const TEXT: u8 = 2;

/// An element: its name, whether text stands in it, and its children in order.
#[derive(Clone, PartialEq, Debug)]
pub struct Element {
    pub name: u8,
    pub text: bool,
    pub children: Vec<Element>,
}

/// What is left to be read of a document over n names, two bytes at a time.
struct Left<'a> {
    n: usize,
    pairs: std::slice::ChunksExact<'a, u8>,
}

impl Left<'_> {
    /// The kind and the number of the next pair: 18 if it is bad by itself, or if there is none.
    fn pair(&mut self) -> Result<(u8, u8), Refusal> {
        let pair = self.pairs.next().ok_or(18)?;
        let (kind, number) = (pair[0], pair[1]);
        if kind > TEXT || number as usize >= self.n || (kind == TEXT && number != 0) {
            return Err(18);
        }
        Ok((kind, number))
    }

    /// The element at this depth whose open was read: 19 if it is too deep, and 18 for a close unlike its open.
    fn element(&mut self, name: u8, depth: usize) -> Result<Element, Refusal> {
        if depth > DEEPEST {
            return Err(19);
        }
        let mut element = Element { name, text: false, children: Vec::new() };
        loop {
            match self.pair()? {
                (OPEN, child) => element.children.push(self.element(child, depth + 1)?),
                (CLOSE, closed) if closed == name => return Ok(element),
                (CLOSE, _) => return Err(18),
                _ => element.text = true,
            }
        }
    }
}

/// The root of a document over n names: 18, 19. An odd length is seen before any pair.
pub fn read(n: usize, document: &[u8]) -> Result<Element, Refusal> {
    if document.len() % 2 == 1 {
        return Err(18);
    }
    let mut left = Left { n, pairs: document.chunks_exact(2) };
    let (OPEN, name) = left.pair()? else { return Err(18) };
    let root = left.element(name, 1)?;
    // Whatever is behind the root is text outside it, a second root, or a close with none open.
    if left.pairs.next().is_some() {
        return Err(18);
    }
    Ok(root)
}

impl Element {
    /// The names of its children in order.
    pub fn word(&self) -> Vec<u8> {
        self.children.iter().map(|child| child.name).collect()
    }

    /// Whether this element by itself is as its model says; without a model it is not.
    fn fits(&self, models: &[Option<Record>]) -> bool {
        models[self.name as usize].is_some_and(|model| model.accepts(&self.word()) && (!self.text || model.text == 1))
    }

    /// Whether it and every element in it is.
    pub fn is_valid(&self, models: &[Option<Record>]) -> bool {
        self.fits(models) && self.children.iter().all(|child| child.is_valid(models))
    }
}
