//! Names, words, records, books and texts by chance.

use crate::chance::Chance;
use second::book::{bytes_of, Block};
use second::record::{Record, EMPTY, NONE};
use std::collections::BTreeSet;

pub const START: &[u8] = b"ABCDEFGHIJKLMNOPQRSTUVWXYZabcdefghijklmnopqrstuvwxyz_";
pub const LATER: &[u8] = b"ABCDEFGHIJKLMNOPQRSTUVWXYZabcdefghijklmnopqrstuvwxyz_0123456789-.";

/// A good name. Many are short, some have the full 32 bytes, and `EMPTY`, `ANY` and `PCDATA` are names too.
pub fn name(c: &mut Chance) -> Vec<u8> {
    match c.below(24) {
        0 => return b"EMPTY".to_vec(),
        1 => return b"ANY".to_vec(),
        2 => return b"ELEMENT".to_vec(),
        3 => return b"PCDATA".to_vec(),
        _ => {}
    }
    let size = match c.below(6) {
        0 => 1,
        1..=3 => c.from_to(1, 4),
        4 => c.from_to(1, 32),
        _ => 32,
    };
    // Few letters, so that many names are prefixes of others.
    let few = c.once_in(2);
    let mut name = vec![if few { *c.pick(b"aAz_") } else { *c.pick(START) }];
    while name.len() < size {
        name.push(if few { *c.pick(b"a.-9") } else { *c.pick(LATER) });
    }
    name
}

/// So many names, rising.
pub fn names(c: &mut Chance, n: usize) -> Vec<Vec<u8>> {
    let mut all = BTreeSet::new();
    while all.len() < n {
        all.insert(name(c));
    }
    all.into_iter().collect()
}

/// A count of names: small ones mostly, and both ends.
pub fn count(c: &mut Chance) -> usize {
    match c.below(8) {
        0 => 1,
        1..=3 => c.from_to(2, 5),
        4..=5 => c.from_to(2, 12),
        6 => c.from_to(1, 64),
        _ => 64,
    }
}

/// Some of the names below n, in any order.
pub fn some_names(c: &mut Chance, n: usize, most: usize) -> Vec<u8> {
    let mut all: Vec<u8> = (0..n as u8).collect();
    c.shuffle(&mut all);
    all.truncate(c.from_to(1, most.min(n)));
    all
}

/// A chain over n names.
pub fn chain(c: &mut Chance, n: usize) -> Record {
    if c.once_in(12) {
        return EMPTY;
    }
    let held = if c.once_in(4) { some_names(c, n, 64) } else { some_names(c, n, 8) };
    let mut factors: Vec<(Vec<u8>, u8)> = Vec::new();
    let join = c.from_to(1, 5);
    for x in held {
        if factors.is_empty() || !c.once_in(join) {
            factors.push((Vec::new(), c.below(4) as u8));
        }
        factors.last_mut().unwrap().0.push(x);
    }
    Record::of(&factors)
}

/// A model with text over n names: one of six without names.
pub fn model_with_text(c: &mut Chance, n: usize) -> Record {
    let most = if c.once_in(4) { 64 } else { 8 };
    Record::with_text(if c.once_in(6) { vec![] } else { some_names(c, n, most) })
}

/// A model over n names, one of three with text.
pub fn model(c: &mut Chance, n: usize) -> Record {
    if c.once_in(3) {
        model_with_text(c, n)
    } else {
        chain(c, n)
    }
}

/// Makes the text byte one that fits no chain, or may not fit this one.
fn damage_text_byte(c: &mut Chance, r: &mut Record) {
    match c.below(5) {
        0 => r.text = *c.pick(&[2, 3, 128, 255]),
        1 => r.text = c.byte(),
        2 if r.count == 1 => (r.text, r.mode[0]) = (1, c.below(4) as u8),
        _ => r.text = 1,
    }
}

/// A record that is no model over n names, or may be none.
pub fn damaged_record(c: &mut Chance, n: usize, good: &Record) -> Record {
    let mut r = *good;
    let place = c.below(64);
    match c.below(15) {
        0 => r.count = *c.pick(&[0, r.count + 1, r.count.wrapping_sub(1), 64, 65, 256, 256 + r.count, usize::MAX]),
        1 => r.factor[place] = c.byte(),
        2 => r.factor[place] = r.count as u8,
        3 => r.factor[place] = 254,
        4 => r.factor[place] = NONE,
        5 if n < 64 => r.factor[c.from_to(n, 63)] = if c.once_in(2) { 0 } else { c.byte() },
        6 => r.mode[place] = c.from_to(1, 3) as u8,
        7 => r.mode[place] = c.byte(),
        8 if r.count > 0 => r.mode[c.below(r.count)] = *c.pick(&[3, 4, 5, 128, 255]),
        9 if r.count < 64 => r.mode[r.count] = c.from_to(1, 3) as u8,
        10 => {
            // A factor without names.
            if r.count > 0 {
                let i = c.below(r.count) as u8;
                for x in r.factor.iter_mut().filter(|x| **x == i) {
                    *x = NONE;
                }
            }
        }
        11..=13 => damage_text_byte(c, &mut r),
        _ => {
            r.count = c.below(70);
            for x in 0..64 {
                r.factor[x] = if c.once_in(2) { NONE } else { c.below(5) as u8 };
                r.mode[x] = c.below(5) as u8;
            }
        }
    }
    r
}

/// A word that the chain accepts.
pub fn accepted_word(c: &mut Chance, r: &Record) -> Vec<u8> {
    let most = if c.once_in(10) { 60 } else { 3 };
    let mut word = Vec::new();
    for i in 0..r.count {
        let times = match r.mode[i] {
            0 => 1,
            1 => c.below(2),
            2 => c.from_to(1, most),
            _ => c.below(most + 1),
        };
        let held = r.names_of(i);
        for _ in 0..times {
            word.push(*c.pick(&held));
        }
    }
    word
}

/// A word near this one: a name put in, taken out, replaced, doubled or two of them exchanged.
pub fn near_word(c: &mut Chance, n: usize, word: &[u8]) -> Vec<u8> {
    let mut w = word.to_vec();
    for _ in 0..c.from_to(1, 2) {
        let at = c.below(w.len() + 1);
        match c.below(5) {
            0 => w.insert(at, c.below(n) as u8),
            1 if at < w.len() => drop(w.remove(at)),
            2 if at < w.len() => w[at] = c.below(n) as u8,
            3 if at < w.len() => w.insert(at, w[at]),
            _ if at + 1 < w.len() => w.swap(at, at + 1),
            _ => {}
        }
    }
    w
}

/// A sample over n names, of one of several shapes; no word has more than 255 names.
pub fn sample(c: &mut Chance, n: usize) -> Vec<Vec<u8>> {
    let mut words: Vec<Vec<u8>> = Vec::new();
    let many = c.from_to(1, 7);
    match c.below(9) {
        // Short words over a few names.
        0 => {
            let few = some_names(c, n, 4);
            for _ in 0..many {
                words.push((0..c.below(6)).map(|_| *c.pick(&few)).collect());
            }
        }
        // Names in one order, some left out: no loops.
        1 => {
            let order = some_names(c, n, 12);
            let keep = c.from_to(1, 4);
            for _ in 0..many {
                words.push(order.iter().copied().filter(|_| c.below(keep + 1) > 0).collect());
            }
        }
        // The same, with some names more than once in a row.
        2 => {
            let order = some_names(c, n, 10);
            let repeats: Vec<bool> = order.iter().map(|_| c.once_in(3)).collect();
            for _ in 0..many {
                let mut w = Vec::new();
                for (i, &x) in order.iter().enumerate() {
                    if c.once_in(3) {
                        continue;
                    }
                    w.push(x);
                    if repeats[i] {
                        w.extend(vec![x; c.below(3)]);
                    }
                }
                words.push(w);
            }
        }
        // Words of a chain.
        3 | 4 => {
            let r = chain(c, n);
            for _ in 0..many {
                words.push(accepted_word(c, &r));
            }
        }
        // One long word, with few or many names.
        5 => {
            let held = some_names(c, n, 64);
            let size = c.from_to(200, 255);
            words.push((0..size).map(|_| *c.pick(&held)).collect());
            words.push(held[..held.len().min(3)].to_vec());
        }
        // Layers of singles and loop groups.
        6 | 7 => words = layered(c, n),
        // Every name, in order or in a ring.
        _ => {
            let mut w: Vec<u8> = (0..n as u8).collect();
            if c.once_in(2) {
                c.shuffle(&mut w);
            }
            if c.once_in(2) {
                w.push(w[0]);
            }
            words.push(w);
        }
    }
    if c.once_in(5) {
        words.push(Vec::new());
    }
    if c.once_in(4) {
        let again = c.pick(&words).clone();
        words.push(again);
    }
    for w in &mut words {
        w.truncate(255);
    }
    words
}

/// Words that go through layers, each of several singles and loop groups, one of them in each layer; some layers are left out.
fn layered(c: &mut Chance, n: usize) -> Vec<Vec<u8>> {
    let mut left = some_names(c, n, 24);
    let mut layers: Vec<Vec<Vec<u8>>> = Vec::new();
    // A group of one name is a single where its name stands once.
    while !left.is_empty() {
        let mut layer = Vec::new();
        for _ in 0..c.from_to(1, 4) {
            let size = if c.once_in(2) { 1 } else { c.from_to(1, 4) };
            let group: Vec<u8> = left.drain(..size.min(left.len())).collect();
            if !group.is_empty() {
                layer.push(group);
            }
        }
        layers.push(layer);
    }
    let looped = c.once_in(2);
    let leave_out = c.from_to(2, 8);
    let mut words = Vec::new();
    for _ in 0..c.from_to(2, 14) {
        let mut word = Vec::new();
        for layer in &layers {
            if c.once_in(leave_out) {
                continue;
            }
            let group = c.pick(layer);
            word.extend(group);
            if group.len() > 1 || (looped && group[0] % 2 == 0) {
                word.extend(group);
                word.truncate(word.len() - c.below(group.len()));
            }
        }
        words.push(word);
    }
    words
}

/// A book in parts. It is a good one where it has no unused name.
#[derive(Clone)]
pub struct Parts {
    pub names: Vec<Vec<u8>>,
    pub blocks: Vec<Block>,
}

impl Parts {
    pub fn bytes(&self) -> Vec<u8> {
        bytes_of(&self.names, &self.blocks)
    }

    /// The names that are neither a parent nor a child in any block.
    pub fn unused(&self) -> Vec<u8> {
        unused(self.names.len(), &self.blocks)
    }
}

fn unused(n: usize, blocks: &[Block]) -> Vec<u8> {
    let names = |block: &Block| [&block.word[..], &[block.parent]].concat();
    let used: BTreeSet<u8> = blocks.iter().flat_map(names).collect();
    (0..n as u8).filter(|name| !used.contains(name)).collect()
}

/// A block that has each of n names as a child.
pub fn every_name(n: usize) -> Block {
    Block { parent: 0, text: 0, word: (0..n as u8).collect() }
}

/// Adds blocks that use those of n names which no block uses so far: as parents alone, as parents of others of them, or
/// as children of any parent.
pub fn use_names(c: &mut Chance, n: usize, blocks: &mut Vec<Block>) {
    let mut left = unused(n, blocks);
    c.shuffle(&mut left);
    while let Some(name) = left.pop() {
        let from = if c.once_in(2) { 0 } else { c.from_to(0, left.len()) };
        let (parent, text) = (name, u8::from(c.once_in(4)));
        blocks.push(match c.below(3) {
            0 => Block { parent, text, word: vec![] },
            1 => Block { parent, text, word: left.split_off(from) },
            _ => Block { parent: c.below(n) as u8, text: 0, word: [vec![name], left.split_off(from)].concat() },
        });
    }
}

/// Puts another name everywhere in the place of one of n names, which is then unused. Without another, the blocks go.
pub fn forget_name(c: &mut Chance, n: usize, blocks: &mut Vec<Block>) {
    if n == 1 {
        blocks.clear();
        return;
    }
    let name = c.below(n);
    let other = (name + c.from_to(1, n - 1)) % n;
    for block in blocks {
        for x in block.word.iter_mut().chain([&mut block.parent]).filter(|x| **x as usize == name) {
            *x = other as u8;
        }
    }
}

/// Completes the blocks of a book over n names. In 19 of 20 books every name is used; the others have no block, or one
/// unused name, or those that were unused before.
fn complete(c: &mut Chance, n: usize, blocks: &mut Vec<Block>) {
    match c.below(60) {
        0 => blocks.clear(),
        1 => {}
        kind => {
            use_names(c, n, blocks);
            if kind == 2 {
                forget_name(c, n, blocks);
            }
        }
    }
}

/// A book over n names, for calls that look at no block of it but to check it.
pub fn book_of_names(c: &mut Chance, n: usize) -> Parts {
    let names = names(c, n);
    let mut blocks = Vec::new();
    complete(c, n, &mut blocks);
    Parts { names, blocks }
}

/// The blocks of a parent with a sample over n names. Of three parents one has text in some of them or in all, and of three with
/// text one has no children.
pub fn blocks(c: &mut Chance, n: usize, parent: u8) -> Vec<Block> {
    let mut words = sample(c, n);
    let has_text = c.once_in(3);
    if has_text && c.once_in(3) {
        words.iter_mut().for_each(Vec::clear);
    }
    let sure = c.below(words.len());
    let among = *c.pick(&[1, 2, 9 * words.len()]);
    let block = |(i, word)| Block { parent, text: u8::from(has_text && (i == sure || c.once_in(among))), word };
    words.into_iter().enumerate().map(block).collect()
}

/// A small book: a few parents with samples of several shapes, their blocks in any order.
pub fn small_book(c: &mut Chance) -> Parts {
    let n = count(c);
    let names = names(c, n);
    let mut blocks: Vec<Block> = Vec::new();
    for parent in some_names(c, n, 4) {
        blocks.extend(self::blocks(c, n, parent));
    }
    complete(c, n, &mut blocks);
    c.shuffle(&mut blocks);
    Parts { names, blocks }
}

/// A good book of exactly `size` bytes: many blocks, some of them long. Every fourth parent has text in some blocks.
pub fn large_book(c: &mut Chance, size: usize) -> Parts {
    let n = c.from_to(1, 64);
    let names = names(c, n);
    let parents = some_names(c, n, 64);
    let shape = c.below(3);
    let mut blocks: Vec<Block> = Vec::new();
    use_names(c, n, &mut blocks);
    let mut left = size - bytes_of(&names, &blocks).len();
    while left >= 3 {
        let parent = *c.pick(&parents);
        let words = match shape {
            0 => sample(c, n),
            1 => vec![(0..c.below(4)).map(|_| c.below(n) as u8).collect()],
            _ => vec![(0..255).map(|i| ((i * n / 255) as u8 + c.below(2) as u8).min(n as u8 - 1)).collect()],
        };
        for mut word in words {
            if left < 3 {
                break;
            }
            word.truncate(left - 3);
            left -= 3 + word.len();
            blocks.push(Block { parent, text: u8::from(parent % 4 == 1 && c.once_in(3)), word });
        }
    }
    // One byte or two that no block can fill lengthen the shortest word.
    let shortest = blocks.iter_mut().min_by_key(|b| b.word.len()).unwrap();
    shortest.word.extend(vec![0; left]);
    c.shuffle(&mut blocks);
    Parts { names, blocks }
}

/// A book with one change by chance, which most often makes it bad.
pub fn damaged_book(c: &mut Chance, good: &[u8]) -> Vec<u8> {
    let mut b = good.to_vec();
    let at = c.below(b.len());
    match c.below(8) {
        0 => b.truncate(at),
        1 => b[at] = c.byte(),
        2 => b[at] = b[at].wrapping_add(1),
        3 => b[at] = b[at].wrapping_sub(1),
        4 => b.insert(at, c.byte()),
        5 => drop(b.remove(at)),
        6 => b.extend((0..c.from_to(1, 3)).map(|_| c.byte())),
        _ => {
            // In the names more often: they come first.
            let near = c.below(b.len().min(40));
            b[near] = *c.pick(&[0, 1, 2, 32, 33, 63, 64, 65, 97, 255]);
        }
    }
    b
}

/// A book with bad names, numbers or text bytes where all else is good: names out of order, twice or misspelled, a number not
/// below N, or a text byte above 1.
pub fn damaged_parts(c: &mut Chance, parts: &mut Parts) -> Vec<u8> {
    let n = parts.names.len();
    let i = c.below(n);
    match c.below(6) {
        0 if i + 1 < n => parts.names.swap(i, i + 1),
        1 if i + 1 < n => parts.names[i + 1] = parts.names[i].clone(),
        2 => {
            let name = &mut parts.names[i];
            let at = c.below(name.len());
            name[at] = c.byte();
        }
        3 if !parts.blocks.is_empty() => {
            let k = c.below(parts.blocks.len());
            parts.blocks[k].parent = *c.pick(&[n as u8 - 1, n as u8, 255]);
        }
        4 if !parts.blocks.is_empty() => {
            let k = c.below(parts.blocks.len());
            parts.blocks[k].text = *c.pick(&[0, 1, 2, 3, 255]);
        }
        _ if !parts.blocks.is_empty() => {
            let k = c.below(parts.blocks.len());
            let word = &mut parts.blocks[k].word;
            if !word.is_empty() {
                let at = c.below(word.len());
                word[at] = *c.pick(&[n as u8 - 1, n as u8, 64, 255]);
            }
        }
        _ => {}
    }
    parts.bytes()
}

/// What stands for text in a declaration.
pub const PCDATA: &[u8] = b"#PCDATA";

/// White space of a declaration: production 3 of XML 1.0.
pub const WHITE: &[u8] = b" \t\r\n";

fn some_white(c: &mut Chance, text: &mut Vec<u8>) {
    for _ in 0..c.from_to(1, 3) {
        text.push(*c.pick(WHITE));
    }
}

/// White space where any number of its bytes may be: mostly none.
fn any_white(c: &mut Chance, text: &mut Vec<u8>) {
    if c.once_in(4) {
        some_white(c, text);
    }
}

/// Factor i with its names in any order, in brackets if there are several or if it is told so, and its mark.
fn factor(c: &mut Chance, names: &[Vec<u8>], r: &Record, i: usize, bracketed: bool, t: &mut Vec<u8>) {
    let mut held = r.names_of(i);
    c.shuffle(&mut held);
    if held.len() == 1 && !bracketed {
        t.extend(&names[held[0] as usize]);
    } else {
        for (k, &x) in held.iter().enumerate() {
            t.push(if k == 0 { b'(' } else { b'|' });
            any_white(c, t);
            t.extend(&names[x as usize]);
            any_white(c, t);
        }
        t.push(b')');
    }
    if r.mode[i] > 0 {
        t.push(b"?+*"[r.mode[i] as usize - 1]);
    }
}

/// A model with text: its names in any order, and a star, which may also be there without names.
fn text_model(c: &mut Chance, names: &[Vec<u8>], r: &Record, t: &mut Vec<u8>) {
    let mut held = r.names_of(0);
    c.shuffle(&mut held);
    t.push(b'(');
    any_white(c, t);
    t.extend(PCDATA);
    any_white(c, t);
    for x in held {
        t.push(b'|');
        any_white(c, t);
        t.extend(&names[x as usize]);
        any_white(c, t);
    }
    t.push(b')');
    if r.count > 0 || c.once_in(3) {
        t.push(b'*');
    }
}

/// A spelling of a declaration that the reader takes.
pub fn spelling(c: &mut Chance, names: &[Vec<u8>], parent: usize, r: &Record) -> Vec<u8> {
    let mut t = b"<!ELEMENT".to_vec();
    some_white(c, &mut t);
    t.extend(&names[parent]);
    some_white(c, &mut t);
    if r.text == 1 {
        text_model(c, names, r, &mut t);
    } else if r.count == 0 {
        t.extend(b"EMPTY");
    } else if r.count == 1 && c.once_in(2) {
        factor(c, names, r, 0, true, &mut t);
    } else {
        for i in 0..r.count {
            t.push(if i == 0 { b'(' } else { b',' });
            any_white(c, &mut t);
            let bracketed = c.once_in(4);
            factor(c, names, r, i, bracketed, &mut t);
            any_white(c, &mut t);
        }
        t.push(b')');
    }
    any_white(c, &mut t);
    t.push(b'>');
    t
}

/// Where the names of a text stand, the parent's first: runs of name bytes behind the keyword.
fn name_places(text: &[u8]) -> Vec<(usize, usize)> {
    let mut places = Vec::new();
    let mut at = text.len().min(9);
    while at < text.len() {
        let size = text[at..].iter().take_while(|b| LATER.contains(b)).count();
        if size > 0 {
            places.push((at, at + size));
        }
        at += size.max(1);
    }
    places
}

/// Bytes that mean something in a declaration, and some that do not; of white space also what XML does not count as such.
const BYTES: &[u8] = b"()|,?+*<>!EMPTYa1-._#% \t\r\n\x0b\x0c\x85\xa0";

/// A name by another of the book, an unknown one or a bad one.
fn rename(c: &mut Chance, names: &[Vec<u8>], t: &mut Vec<u8>) {
    let places = name_places(t);
    if let Some(&(a, b)) = places.get(c.below(places.len().max(1))) {
        let other = match c.below(5) {
            0 | 1 => c.pick(names).clone(),
            2 => name(c),
            3 => vec![b'x'; c.from_to(31, 34)],
            _ => b"9x".to_vec(),
        };
        t.splice(a..b, other);
    }
}

/// White space, characters that are none, brackets and marks.
const BESIDE: &[&[u8]] =
    &[b" ", b"\t", b"\r", b"\n", b"\x0b", b"\x0c", b"\x85", b"\xa0", b"\xc2\x85", b"\xc2\xa0", b"(", b")", b"?", b"+", b"*"];

/// One of these before or behind a sign.
fn beside_sign(c: &mut Chance, t: &mut Vec<u8>) {
    let signs: Vec<usize> = (0..t.len()).filter(|&i| b"()|,?+*>".contains(&t[i])).collect();
    if !signs.is_empty() {
        let at = *c.pick(&signs) + c.below(2);
        t.splice(at..at, c.pick(BESIDE).iter().copied());
    }
}

/// Brackets around a piece of the model that begins and ends with a name or a bracket, perhaps with a mark.
fn bracket(c: &mut Chance, t: &mut Vec<u8>) {
    let brackets = (0..t.len()).filter(|&i| b"()".contains(&t[i])).map(|i| (i, i + 1));
    let ends: Vec<(usize, usize)> = name_places(t).into_iter().skip(1).chain(brackets).collect();
    if !ends.is_empty() {
        let (one, other) = (*c.pick(&ends), *c.pick(&ends));
        let to = one.1.max(other.1);
        if c.once_in(2) {
            t.insert(to, *c.pick(b"?+*"));
        }
        t.insert(to, b')');
        t.insert(one.0.min(other.0), b'(');
    }
}

/// What may be by mistake where `#PCDATA` is due.
const MISSPELLED: &[&[u8]] = &[
    b"",
    b"PCDATA",
    b"#pcdata",
    b"# PCDATA",
    b"#P CDATA",
    b"#PCDAT",
    b"#PCDATAx",
    b"#PCDATA.",
    b"##PCDATA",
    b"#PCDATA#",
    b"#PCDATA*",
    b"#PCDATA a",
    b"#PCDATA,",
    b"(#PCDATA)",
    b"#PCDATA|#PCDATA",
];

/// Puts `#PCDATA` before a name or behind it. Where it is there already, it is misspelled or exchanged with a name, or what is
/// behind the last bracket is changed.
fn damage_pcdata(c: &mut Chance, t: &mut Vec<u8>) {
    let places = name_places(t);
    let Some(of_model) = places.get(1..).filter(|some| !some.is_empty()) else { return };
    let &(a, b) = c.pick(of_model);
    let Some(at) = t.windows(PCDATA.len()).position(|bytes| bytes == PCDATA) else {
        let (to, new) = *c.pick(&[(a, &b"#PCDATA|"[..]), (a, b"#PCDATA,"), (b, b"|#PCDATA"), (a, b"#")]);
        t.splice(to..to, new.iter().copied());
        return;
    };
    match c.below(4) {
        0 => drop(t.splice(at..at + PCDATA.len(), c.pick(MISSPELLED).iter().copied())),
        1 if at + PCDATA.len() < a => {
            let name = t[a..b].to_vec();
            t.splice(a..b, PCDATA.iter().copied());
            t.splice(at..at + PCDATA.len(), name);
        }
        _ => {
            let close = t.iter().rposition(|b| *b == b')').unwrap_or(0) + 1;
            let star = usize::from(t.get(close) == Some(&b'*'));
            let new = *c.pick(&[&b""[..], b"*", b"?", b"+", b" *", b"**"]);
            t.splice(close..close + star, new.iter().copied());
        }
    }
}

/// A text near a good one: bytes changed, brackets, marks or white space added, names replaced by others of the book, by unknown
/// ones or by bad ones, `#PCDATA` put in or changed.
pub fn damaged_text(c: &mut Chance, names: &[Vec<u8>], good: &[u8]) -> Vec<u8> {
    let mut t = good.to_vec();
    if t.is_empty() {
        return t;
    }
    let at = c.below(t.len());
    match c.below(20) {
        0 => drop(t.remove(at)),
        1 => t.insert(at, *c.pick(BYTES)),
        2 => t[at] = *c.pick(BYTES),
        3 => t.insert(at, t[at]),
        4 if at + 1 < t.len() => t.swap(at, at + 1),
        5 => t.truncate(at),
        6 => t.push(*c.pick(b"\n >")),
        7..=10 => rename(c, names, &mut t),
        11 | 12 => beside_sign(c, &mut t),
        13 | 14 => bracket(c, &mut t),
        15..=18 => damage_pcdata(c, &mut t),
        _ => {
            // A piece twice: brackets, commas and names with them.
            let to = c.from_to(at, (at + 12).min(t.len()));
            let piece = t[at..to].to_vec();
            t.splice(to..to, piece);
        }
    }
    t
}

/// A buffer of this length with bytes by chance.
pub fn buffer(c: &mut Chance, size: usize) -> Vec<u8> {
    (0..size).map(|_| c.byte()).collect()
}
