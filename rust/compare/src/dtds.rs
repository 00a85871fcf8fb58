//! The whole DTD of a book: buffers of every interesting length, every beginning of a book's blocks, and books that are refused
//! behind some of their blocks.

use crate::calls::Call;
use crate::cases::{refused, Due};
use crate::chance::Chance;
use crate::make::*;
use second::book::{bytes_of, Block};

/// The longest DTD: 64 declarations of 2,253 bytes, each with a line feed.
pub const LONGEST: usize = 144_256;

/// Buffers for a DTD: none, one byte short, exact, longer, around the end of one of its lines, and any length.
pub fn buffers(c: &mut Chance, text: &[u8]) -> Vec<Vec<u8>> {
    let ends: Vec<usize> = (1..=text.len()).filter(|&end| text[end - 1] == b'\n').collect();
    let end = *c.pick(&ends);
    let any = if c.once_in(20) { LONGEST } else { c.below(text.len() + 1) };
    let longer = text.len() + c.from_to(1, 40);
    let sizes = [0, text.len() - 1, text.len(), longer, end - 1, end, any];
    sizes.into_iter().map(|size| buffer(c, size)).collect()
}

/// The call with each of these buffers.
pub fn calls_of_buffers(c: &mut Chance, book: &[u8]) -> Vec<Call> {
    let text = second::calls::dtd(book);
    buffers(c, &text).into_iter().map(|buffer| Call::WriteDtd { book: book.to_vec(), buffer }).collect()
}

/// A good book: samples of some parents or of all of them, their blocks in one of several orders.
fn many_parents(c: &mut Chance) -> Parts {
    let n = count(c);
    let names = names(c, n);
    let most = if c.once_in(4) { 64 } else { 6 };
    let mut blocks: Vec<Block> = Vec::new();
    for parent in some_names(c, n, most) {
        blocks.extend(self::blocks(c, n, parent));
    }
    // With some bytes to spare below the limit of a book.
    c.shuffle(&mut blocks);
    while bytes_of(&names, &blocks).len() > 58_000 {
        blocks.truncate(blocks.len() / 2);
    }
    use_names(c, n, &mut blocks);
    match c.below(4) {
        0 => blocks.sort_by_key(|block| block.parent),
        1 => blocks.sort_by_key(|block| 255 - block.parent),
        _ => c.shuffle(&mut blocks),
    }
    Parts { names, blocks }
}

/// Books that are good up to one block and bad there or behind it, and one with an unused name. The buffers have room
/// for the lines of the blocks before, or none.
fn refused_books(c: &mut Chance, parts: &Parts) -> Vec<Due> {
    let good = parts.bytes();
    let room = second::calls::dtd(&good).len() + 10;
    let n = parts.names.len();
    let before = c.below(parts.blocks.len());
    // The count of all blocks, and the bytes of those before.
    let blocks_at = bytes_of(&parts.names, &[]).len();
    let cut = [&good[..blocks_at], &bytes_of(&parts.names, &parts.blocks[..before])[blocks_at..]].concat();
    let parent = parts.blocks[before].parent;
    let far_parent = [&cut[..], &[n as u8, 0]].concat();
    let bad_text = [&cut[..], &[parent, 2]].concat();
    let far_child = [&cut[..], &[parent, 1, 2, 0, n as u8]].concat();
    let left_over = [&good[..], &[0]].concat();
    let mut forgotten = parts.clone();
    forget_name(c, n, &mut forgotten.blocks);
    let unused = forgotten.bytes();
    let bad = [(&cut, 2), (&far_parent, 6), (&bad_text, 16), (&far_child, 6), (&left_over, 7), (&unused, 17)];
    let mut calls = Vec::new();
    for size in [room, 0] {
        for (book, number) in bad {
            calls.push(refused(Call::WriteDtd { book: book.clone(), buffer: buffer(c, size) }, number));
        }
    }
    calls
}

/// After each block, or after some of very many, the DTD is that of the blocks so far. Up to some block names are
/// unused; with blocks in front that use all names there is a DTD after each.
fn beginnings(c: &mut Chance, parts: &Parts) -> Vec<Due> {
    let all = parts.blocks.len();
    let some: Vec<usize> = (0..9).map(|_| c.below(all)).chain([all]).collect();
    let counts = if all <= 24 { (0..=all).collect() } else { some };
    let mut front = Vec::new();
    use_names(c, parts.names.len(), &mut front);
    let mut calls = Vec::new();
    for m in counts {
        for front in [&[], &front[..]] {
            let book = bytes_of(&parts.names, &[front, &parts.blocks[..m]].concat());
            let size = second::calls::dtd(&book).len() + c.below(4);
            calls.push((Call::WriteDtd { book, buffer: buffer(c, size) }, None));
        }
    }
    calls
}

pub fn calls(c: &mut Chance, case: u64) -> Vec<Due> {
    let parts = many_parents(c);
    let book = parts.bytes();
    let mut calls: Vec<Due> = calls_of_buffers(c, &book).into_iter().map(|call| (call, None)).collect();
    calls.extend(beginnings(c, &parts));
    calls.extend(refused_books(c, &parts));
    if case % 8 == 0 {
        calls.push((Call::Dtd { book }, None));
    }
    calls
}
