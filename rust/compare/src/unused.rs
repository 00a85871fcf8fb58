//! Names that no block uses, by request U6 of paper 02: at each place, beside other faults of a call, and by chance.

use crate::calls::Call;
use crate::cases::{calls_of_limit, edge_parents, refused, Books, Due};
use crate::chance::Chance;
use crate::documents;
use crate::make::*;
use second::book::{bytes_of, Block, MOST_BYTES};
use second::record::{Record, EMPTY};

fn block(parent: u8, word: &[u8]) -> Block {
    Block { parent, text: 0, word: word.to_vec() }
}

fn numbered(n: u8) -> Vec<Vec<u8>> {
    (0..n).map(|i| format!("n{i:02}").into_bytes()).collect()
}

/// Blocks that use all of n names but this one: as children of one parent, and as parents alone.
fn blocks_without(n: u8, name: u8) -> [Vec<Block>; 2] {
    let used: Vec<u8> = (0..n).filter(|x| *x != name).collect();
    let children = used.last().map(|&parent| block(parent, &used)).into_iter().collect();
    [children, used.iter().map(|&parent| block(parent, &[])).collect()]
}

/// For each of n names the books in which it alone is unused. For the first, the last and one between them also those
/// in which one block more uses it, in front or behind: as a parent alone, and as a child alone.
fn at_each_place(n: u8) -> Books {
    let names = numbered(n);
    let mut books = Books::new();
    for name in 0..n {
        for blocks in blocks_without(n, name) {
            books.push((bytes_of(&names, &blocks), 17));
            if ![0, n / 2, n - 1].contains(&name) {
                continue;
            }
            for more in [[block(name, &[])], [block((name + 1) % n, &[name])]] {
                books.push((bytes_of(&names, &[&blocks[..], &more].concat()), 0));
                books.push((bytes_of(&names, &[&more, &blocks[..]].concat()), 0));
            }
        }
    }
    books
}

/// For each count of names a book without blocks, the same with a byte behind, and one whose only block uses all names.
fn of_each_count() -> Books {
    let of_count = |n: u8| {
        let none = bytes_of(&numbered(n), &[]);
        let left_over = [&none[..], &[0]].concat();
        [(none, 17), (left_over, 7), (bytes_of(&numbered(n), &[every_name(n as usize)]), 0)]
    };
    (1..=64).flat_map(of_count).collect()
}

/// Two names, and bytes behind the first block, which uses one of them: other faults of the book, which come first, and
/// blocks that use the other name or not.
fn behind_a_block() -> Books {
    let cases: [(u8, &[u8], u8); 13] = [
        (1, &[], 17),
        (1, &[0], 7),
        (1, &[1, 0, 0], 7),
        (2, &[], 2),
        (2, &[0], 2),
        (2, &[0, 0, 1], 2),
        (2, &[2], 6),
        (2, &[0, 0, 1, 2], 6),
        (2, &[0, 2], 16),
        (2, &[0, 1, 1, 0], 17),
        (2, &[0, 1, 1, 0, 1], 7),
        (2, &[0, 1, 1, 1], 0),
        (2, &[1, 1, 0], 0),
    ];
    let front = bytes_of(&numbered(2), &[block(0, &[0])]);
    let count_at = bytes_of(&numbered(2), &[]).len() - 2;
    let book = |(m, behind, number): (u8, &[u8], u8)| {
        let mut book = [&front[..], behind].concat();
        book[count_at] = m;
        (book, number)
    };
    cases.map(book).into()
}

/// Books of 60,000 bytes with 64 names, of which the last is unused, or the very last child, or the parent of the last
/// block; and one of a byte more.
fn of_most_bytes() -> Books {
    let long = block(0, &(0..255).map(|i| i % 63).collect::<Vec<u8>>());
    let names = numbered(64);
    let mut blocks = Vec::new();
    while bytes_of(&names, &blocks).len() + 3 + long.word.len() <= MOST_BYTES {
        blocks.push(long.clone());
    }
    let left = MOST_BYTES - bytes_of(&names, &blocks).len() - 3;
    let with_last = |parent: u8, word: &[u8]| bytes_of(&names, &[&blocks[..], &[block(parent, word)]].concat());
    let word = vec![0; left];
    let (as_child, longer) = ([&word[1..], &[63]].concat(), [&word[..], &[0]].concat());
    vec![(with_last(0, &word), 17), (with_last(0, &as_child), 0), (with_last(63, &word), 0), (with_last(0, &longer), 1)]
}

/// Calls with a fault of their own, on a book of three names, the parent n00 and these children.
fn faulty_calls(word: &[u8]) -> Vec<(Call, u8)> {
    let book = || bytes_of(&numbered(3), &[block(0, word)]);
    let buffer = vec![7; 99];
    let no_chain = Record { count: 1, ..EMPTY };
    let write = |parent, record, size| Call::WriteDeclaration { book: book(), parent, record, buffer: vec![7; size] };
    let read = |text: &[u8]| Call::ReadDeclaration { book: book(), text: text.to_vec() };
    vec![
        (Call::ModelOfParent { book: book(), parent: 3 }, 8),
        (Call::ModelOfParent { book: book(), parent: usize::MAX }, 8),
        (Call::ModelOfParent { book: book(), parent: 1 }, 9),
        (Call::WriteFromSample { book: book(), parent: 3, buffer: buffer.clone() }, 8),
        (Call::WriteFromSample { book: book(), parent: 2, buffer }, 9),
        (Call::WriteFromSample { book: book(), parent: 0, buffer: vec![7; 16] }, 12),
        (write(3, EMPTY, 99), 8),
        (write(3, no_chain, 0), 8),
        (write(2, no_chain, 0), 10),
        (write(2, Record { text: 2, ..EMPTY }, 99), 10),
        (write(2, EMPTY, 19), 12),
        (Call::WriteDtd { book: book(), buffer: vec![7; 16] }, 12),
        (Call::FillModels { book: book(), buffer: vec![7; 392] }, 12),
        (read(b""), 13),
        (read(b"<!ELEMENT n02 (n01,)>"), 13),
        (read(b"<!ELEMENT x EMPTY>"), 14),
        (read(b"<!ELEMENT n02 (n01|x)>"), 14),
        (read(b"<!ELEMENT n02 (n01,n01)>"), 15),
    ]
}

/// Books on both sides with their refusals; and calls with a fault that comes behind an unused name: 17 where there is
/// one, else the number of that fault.
pub fn written_down(c: &mut Chance, _: u64) -> Vec<Due> {
    let places = [1, 2, 3, 64].map(at_each_place).concat();
    let books = [places, of_each_count(), behind_a_block(), of_most_bytes()].concat();
    let mut calls: Vec<Due> = books.into_iter().flat_map(|book| calls_of_limit(c, book, true)).collect();
    calls.extend(faulty_calls(&[1]).into_iter().map(|(call, _)| refused(call, 17)));
    calls.extend(faulty_calls(&[1, 2]).into_iter().map(|(call, number)| refused(call, number)));
    calls
}

/// Every call that takes a book, with parents, records, buffers and texts that are good or bad.
fn calls_of_any(c: &mut Chance, names: &[Vec<u8>], book: &[u8]) -> Vec<Call> {
    let n = names.len();
    let (parent, good) = (c.below(n), model(c, n));
    let record = if c.once_in(2) { good } else { damaged_record(c, n, &good) };
    let text = spelling(c, names, parent, &good);
    let damaged = damaged_text(c, names, &text);
    let book = || book.to_vec();
    let mut calls = Vec::new();
    for parent in [vec![parent], edge_parents(c, n)].concat() {
        let size = *c.pick(&[0, 30, 300]);
        calls.push(Call::ModelOfParent { book: book(), parent });
        calls.push(Call::WriteFromSample { book: book(), parent, buffer: buffer(c, size) });
        calls.push(Call::WriteDeclaration { book: book(), parent, record, buffer: buffer(c, size) });
        calls.push(Call::WriteDtd { book: book(), buffer: buffer(c, size) });
    }
    calls.push(Call::FillModels { book: book(), buffer: documents::rows_buffer(c, &book()) });
    calls.extend([text, damaged].map(|text| Call::ReadDeclaration { book: book(), text }));
    calls
}

/// Takes one use of a name away: a child, or a block without children. The name may be used elsewhere.
fn drop_use(c: &mut Chance, blocks: &mut Vec<Block>) {
    let at = c.below(blocks.len());
    let word = &mut blocks[at].word;
    if word.is_empty() {
        blocks.remove(at);
    } else {
        word.remove(c.below(word.len()));
    }
}

/// A good book, the same with one use of a name less, and one with one unused name or more, also with a byte behind it.
pub fn by_chance(c: &mut Chance, case: u64) -> Vec<Due> {
    let mut parts = small_book(c);
    let n = parts.names.len();
    use_names(c, n, &mut parts.blocks);
    let good = parts.bytes();
    let mut calls = calls_of_any(c, &parts.names, &good);
    let mut near = parts.clone();
    drop_use(c, &mut near.blocks);
    calls.extend(calls_of_any(c, &near.names, &near.bytes()));
    let mut calls: Vec<Due> = calls.into_iter().map(|call| (call, None)).collect();
    for _ in 0..c.from_to(1, 3) {
        forget_name(c, n, &mut parts.blocks);
    }
    let bad = parts.bytes();
    for (book, number) in [([&bad[..], &[0]].concat(), 7), (bad, 17)] {
        calls.extend(calls_of_any(c, &parts.names, &book).into_iter().map(|call| refused(call, number)));
        if case % 8 == 0 {
            calls.push(refused(Call::Dtd { book }, number));
        }
    }
    calls
}
