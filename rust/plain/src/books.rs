//! Books for the benchmark, each near 60,000 bytes and the same in every run.

use crate::{model_of_parent, Model, PLACES};

/// The limit that the books come close to.
pub const SIZE: usize = 60_000;

/// Numbers by chance.
pub(crate) struct Next(pub(crate) u64);

impl Next {
    pub(crate) fn below(&mut self, n: usize) -> usize {
        self.0 = self.0.wrapping_mul(6364136223846793005).wrapping_add(1442695040888963407);
        ((self.0 >> 33) % n as u64) as usize
    }
}

/// A block: its parent, whether it has text, and its word.
type Block = (u8, bool, Vec<u8>);

/// A book with these names, rising, and as many of the blocks as fit.
fn book(names: &[String], mut block: impl FnMut(usize) -> Block) -> Vec<u8> {
    let mut out = (names.len() as u16).to_le_bytes().to_vec();
    for name in names {
        out.push(name.len() as u8);
        out.extend(name.bytes());
    }
    let count_at = out.len();
    out.extend([0, 0]);
    let mut m = 0u16;
    loop {
        let (parent, text, word) = block(m as usize);
        if out.len() + 3 + word.len() > SIZE {
            break;
        }
        out.extend([parent, u8::from(text), word.len() as u8]);
        out.extend(word);
        m += 1;
    }
    out[count_at..count_at + 2].copy_from_slice(&m.to_le_bytes());
    out
}

fn names(n: usize) -> Vec<String> {
    (0..n).map(|i| format!("name-{i:02}")).collect()
}

/// Words of no name to three, for all 64 parents.
pub fn short_words() -> Vec<u8> {
    let mut next = Next(1);
    book(&names(64), |i| ((i % 64) as u8, false, (0..next.below(4)).map(|_| next.below(64) as u8).collect()))
}

/// A word of 255 names, which rise slowly up to this one and repeat.
fn long_word(next: &mut Next, most: u8) -> Vec<u8> {
    (0..255).map(|k| ((k / 4 + next.below(2)) as u8).min(most)).collect()
}

/// Words of 255 names, which rise slowly and repeat, for all 64 parents.
pub fn long_words() -> Vec<u8> {
    let mut next = Next(2);
    book(&names(64), |i| ((i % 64) as u8, false, long_word(&mut next, 63)))
}

/// The same, but name 63 is the very last child alone: a name is unused to the end, the worst case for that check.
pub fn last_name_late() -> Vec<u8> {
    let mut next = Next(2);
    let mut all = book(&names(64), |i| ((i % 63) as u8, false, long_word(&mut next, 62)));
    *all.last_mut().unwrap() = 63;
    all
}

/// Empty words alone, for all 64 parents; every second one has text.
pub fn empty_words() -> Vec<u8> {
    book(&names(64), |i| ((i % 64) as u8, i % 2 == 1, vec![]))
}

/// All names in one loop group, for eight parents.
pub fn one_group() -> Vec<u8> {
    let mut next = Next(3);
    book(&names(64), |i| ((i % 8) as u8, false, (0..200).map(|_| next.below(64) as u8).collect()))
}

/// No loops and as many levels as there are names: the names in order, some left out, for all 64 parents.
pub fn many_levels() -> Vec<u8> {
    let mut next = Next(4);
    book(&names(64), |i| ((i % 64) as u8, false, (0..64u8).filter(|_| i < 64 || next.below(8) > 0).collect()))
}

/// The same in falling order, the name with the largest number first.
pub fn falling_levels() -> Vec<u8> {
    let mut next = Next(4);
    book(&names(64), |i| ((i % 64) as u8, false, (0..64u8).rev().filter(|_| i < 64 || next.below(8) > 0).collect()))
}

/// One parent with words of several kinds.
pub fn one_parent() -> Vec<u8> {
    let mut next = Next(5);
    book(&names(60), |i| {
        let word = match i % 3 {
            0 => (0..next.below(6)).map(|k| (10 * k + next.below(10)) as u8).collect(),
            1 => (0..60u8).filter(|_| next.below(3) == 0).collect(),
            _ => (0..next.below(40)).map(|k| 40 + (k % 3) as u8).collect(),
        };
        (0, false, word)
    })
}

/// The feed of paper 01, again and again: each entry, and behind it its children, which have text alone.
pub fn feed() -> Vec<u8> {
    let names: Vec<String> =
        ["contribution", "entry", "leaver", "member", "reason", "total"].iter().map(|n| n.to_string()).collect();
    book(&names, |i| {
        let entry = [[3, 0, 5], [3, 2, 4], [3, 0, 4]][i / 4 % 3];
        match i % 4 {
            0 => (1, false, entry.to_vec()),
            child => (entry[child - 1], true, vec![]),
        }
    })
}

/// A chain expression by chance over some of 64 names: the names of each factor and its mode.
fn chain(next: &mut Next) -> Vec<(Vec<u8>, usize)> {
    let mut left: Vec<u8> = (0..64).collect();
    let mut factors = Vec::new();
    for _ in 0..5 + next.below(16) {
        let names = (0..1 + next.below(4)).map(|_| left.swap_remove(next.below(left.len()))).collect();
        factors.push((names, next.below(4)));
    }
    factors
}

/// A word of the chain, drawn by chance.
fn word_of(chain: &[(Vec<u8>, usize)], next: &mut Next) -> Vec<u8> {
    let mut word = Vec::new();
    for (names, mode) in chain {
        let many = [1, next.below(2), 1 + next.below(3), next.below(4)][*mode];
        word.extend((0..many).map(|_| names[next.below(names.len())]));
    }
    word
}

/// For each of the 64 parents words of a chain of its own.
pub fn hidden_chain() -> Vec<u8> {
    let mut next = Next(6);
    let chains: Vec<_> = (0..64).map(|_| chain(&mut next)).collect();
    book(&names(64), |i| ((i % 64) as u8, false, word_of(&chains[i % 64], &mut next)))
}

/// Text and some of 64 names in any order, for all 64 parents; one block in two has text.
pub fn mixed_content() -> Vec<u8> {
    let mut next = Next(8);
    book(&names(64), |i| ((i % 64) as u8, i / 64 % 2 == 0, (0..next.below(8)).map(|_| next.below(64) as u8).collect()))
}

/// The parent of a book that is timed, and its model: the first whose model has names, else the first with a block.
pub fn timed_parent(book: &[u8]) -> (usize, Model) {
    let models: Vec<_> = (0..PLACES).filter_map(|parent| Some((parent, model_of_parent(book, parent).ok()?))).collect();
    *models.iter().find(|(_, model)| model.count > 0).unwrap_or(&models[0])
}

/// A kind of book: its name, and what makes it.
pub type Kind = (&'static str, fn() -> Vec<u8>);

pub const KINDS: &[Kind] = &[
    ("many short words", short_words),
    ("words of 255 names", long_words),
    ("empty words", empty_words),
    ("one loop group of all names", one_group),
    ("no loops, many levels", many_levels),
    ("no loops, names falling", falling_levels),
    ("one parent", one_parent),
    ("the feed repeated", feed),
    ("words of a hidden chain", hidden_chain),
    ("mixed content", mixed_content),
    ("a name used in the last block alone", last_name_late),
];
