//! A second implementation of paper 01 and of requests U1, U2, U4, U5, U6 and U7 of paper 02, written from their text
//! and not from the proved crates. It is made to be compared with, so it follows the papers' sentences and takes the
//! slow way wherever that is the clearer one: each line of a DTD comes from a look at all blocks of the book, and so
//! does whether a name is used; a document is read into a tree before it is judged.
//!
//! A refusal is the number that the papers give it.

pub mod book;
pub mod calls;
pub mod chain;
pub mod declaration;
pub mod document;
pub mod facts;
pub mod models;
pub mod record;
pub mod within;

/// A refusal's number, 1 to 19.
pub type Refusal = u8;

/// The most names that a book may have, and the places of a model record.
pub const PLACES: usize = 64;
