// Prints the DTD of a book, scanning all blocks of the book again for each parent.
//
// This program is only for comparison. Request U2 of paper 02 asks for the facts of all parents in one reading of the
// book, measured against a simple program that rescans for each parent: this one. `docs/BENCHMARK.md` has the figures.
// It follows paper 01 and requests U5 and U6 of paper 02 sentence by sentence, with tables of yes and no. The book is
// checked once; then each parent takes one scan of the blocks, one chain if it has no text, and one line.
//
//     rustc -O docs/src/rescan.rs -o target/rescan
//     target/rescan < samples/feed.book

use std::io::{Read, Write};

const MOST_BYTES: usize = 60_000;
const MOST_NAMES: usize = 64;
const MOST_NAME_BYTES: usize = 32;

/// A row has a yes or no for each name, a table a row for each name.
type Row = [bool; MOST_NAMES];
type Table = [Row; MOST_NAMES];

/// The number of a refusal.
type Refusal = u8;

/// The names of a checked book, and its blocks as bytes.
struct Book<'a> {
    names: Vec<&'a [u8]>,
    blocks: &'a [u8],
}

/// Takes so many bytes off the front; 2 if there are fewer.
fn take<'a>(left: &mut &'a [u8], size: usize) -> Result<&'a [u8], Refusal> {
    if left.len() < size {
        return Err(2);
    }
    let (taken, rest) = left.split_at(size);
    *left = rest;
    Ok(taken)
}

/// Takes a two-byte count, the low byte first.
fn take_count(left: &mut &[u8]) -> Result<usize, Refusal> {
    let bytes = take(left, 2)?;
    Ok(bytes[0] as usize + 256 * bytes[1] as usize)
}

fn is_start(byte: u8) -> bool {
    byte.is_ascii_alphabetic() || byte == b'_'
}

fn is_name(name: &[u8]) -> bool {
    let later = |byte: &u8| is_start(*byte) || byte.is_ascii_digit() || *byte == b'-' || *byte == b'.';
    is_start(name[0]) && name.iter().all(later)
}

/// Takes the names; each is above the one before it.
fn take_names<'a>(left: &mut &'a [u8], count: usize) -> Result<Vec<&'a [u8]>, Refusal> {
    let mut names: Vec<&[u8]> = Vec::new();
    for _ in 0..count {
        let size = take(left, 1)?[0] as usize;
        if size == 0 || size > MOST_NAME_BYTES {
            return Err(4);
        }
        let name = take(left, size)?;
        if !is_name(name) {
            return Err(4);
        }
        if names.last().is_some_and(|before| name <= *before) {
            return Err(5);
        }
        names.push(name);
    }
    Ok(names)
}

/// Takes one block and checks it: its parent, its text byte and its word. Marks the names that it uses.
fn take_block(left: &mut &[u8], names: usize, used: &mut Row) -> Result<(), Refusal> {
    let parent = take(left, 1)?[0] as usize;
    if parent >= names {
        return Err(6);
    }
    if take(left, 1)?[0] > 1 {
        return Err(16);
    }
    let size = take(left, 1)?[0] as usize;
    let word = take(left, size)?;
    if word.iter().any(|&child| child as usize >= names) {
        return Err(6);
    }
    used[parent] = true;
    for &child in word {
        used[child as usize] = true;
    }
    Ok(())
}

/// Checks a whole book.
fn check(bytes: &[u8]) -> Result<Book<'_>, Refusal> {
    if bytes.len() > MOST_BYTES {
        return Err(1);
    }
    let mut left = bytes;
    let count = take_count(&mut left)?;
    if count == 0 || count > MOST_NAMES {
        return Err(3);
    }
    let names = take_names(&mut left, count)?;
    let many = take_count(&mut left)?;
    let blocks = left;
    let mut used = [false; MOST_NAMES];
    for _ in 0..many {
        take_block(&mut left, count, &mut used)?;
    }
    if !left.is_empty() {
        return Err(7);
    }
    if used[..count].contains(&false) {
        return Err(17);
    }
    Ok(Book { names, blocks })
}

/// The follow facts of one parent.
struct Facts {
    /// Whether some block has text.
    text: bool,
    /// Whether some word is empty.
    empty: bool,
    start: Row,
    end: Row,
    /// follow[a][b]: b follows a.
    follow: Table,
}

/// The facts of a parent, by a scan of all blocks of a checked book; None if no block has it.
fn scan(book: &Book, parent: usize) -> Option<Facts> {
    let no = [false; MOST_NAMES];
    let mut facts = Facts { text: false, empty: false, start: no, end: no, follow: [no; MOST_NAMES] };
    let mut found = false;
    let mut left = book.blocks;
    while let [here, text, size, rest @ ..] = left {
        let (word, after) = rest.split_at(*size as usize);
        left = after;
        if *here as usize != parent {
            continue;
        }
        found = true;
        facts.text |= *text == 1;
        if let (Some(&first), Some(&last)) = (word.first(), word.last()) {
            facts.start[first as usize] = true;
            facts.end[last as usize] = true;
        } else {
            facts.empty = true;
        }
        for pair in word.windows(2) {
            facts.follow[pair[0] as usize][pair[1] as usize] = true;
        }
    }
    found.then_some(facts)
}

/// reach[a][b]: one or more follow steps lead from a to b.
fn reach(follow: &Table) -> Table {
    let mut reach = *follow;
    for between in 0..MOST_NAMES {
        let through = reach[between];
        for row in &mut reach {
            if row[between] {
                for b in 0..MOST_NAMES {
                    row[b] |= through[b];
                }
            }
        }
    }
    reach
}

/// For each name the smallest name of its loop group, or itself if it is a single.
fn leaders(reach: &Table) -> [usize; MOST_NAMES] {
    let leader = |a: usize| (0..a).find(|&b| reach[a][b] && reach[b][a]).unwrap_or(a);
    std::array::from_fn(leader)
}

/// The level of each name, that of its group; 0 if it is in no word. Levels are raised until no step asks for more.
fn levels(facts: &Facts, leader: &[usize; MOST_NAMES]) -> [usize; MOST_NAMES] {
    let mut level = [0; MOST_NAMES];
    for a in (0..MOST_NAMES).filter(|&a| facts.start[a]) {
        level[leader[a]] = 1;
    }
    let mut again = true;
    while again {
        again = false;
        for a in 0..MOST_NAMES {
            for b in (0..MOST_NAMES).filter(|&b| facts.follow[a][b]) {
                let (from, to) = (leader[a], leader[b]);
                if from != to && level[from] > 0 && level[to] <= level[from] {
                    level[to] = level[from] + 1;
                    again = true;
                }
            }
        }
    }
    std::array::from_fn(|a| level[leader[a]])
}

/// Whether some step goes from below this level to above it. The end is above every level that has a name.
fn is_skipped(facts: &Facts, level: &[usize; MOST_NAMES], this: usize) -> bool {
    let below = |a: usize| 0 < level[a] && level[a] < this;
    let from_start = |b: usize| facts.start[b] && level[b] > this;
    let to_end = |a: usize| facts.end[a] && below(a);
    let between = |a: usize| below(a) && (0..MOST_NAMES).any(|b| facts.follow[a][b] && level[b] > this);
    facts.empty || (0..MOST_NAMES).any(|a| from_start(a) || to_end(a) || between(a))
}

/// A factor of the chain: its names, rising, and its mark.
struct Factor {
    names: Vec<usize>,
    mark: &'static str,
}

/// The chain that the levels give.
fn chain(facts: &Facts) -> Vec<Factor> {
    let reach = reach(&facts.follow);
    let leader = leaders(&reach);
    let level = levels(facts, &leader);
    let last = level.iter().copied().max().unwrap_or(0);
    let mut factors = Vec::new();
    for this in 1..=last {
        let here = || (0..MOST_NAMES).filter(|&a| level[a] == this);
        let singles: Vec<usize> = here().filter(|&a| !reach[a][a]).collect();
        let leading = here().filter(|&a| reach[a][a] && leader[a] == a);
        let groups: Vec<Vec<usize>> = leading.map(|a| here().filter(|&b| leader[b] == a).collect()).collect();
        let many = groups.len() + usize::from(!singles.is_empty());
        let optional = many > 1 || is_skipped(facts, &level, this);
        if !singles.is_empty() {
            factors.push(Factor { names: singles, mark: if optional { "?" } else { "" } });
        }
        for names in groups {
            factors.push(Factor { names, mark: if optional { "*" } else { "+" } });
        }
    }
    factors
}

/// The names that are in some word.
fn occurring(facts: &Facts) -> Vec<usize> {
    let occurs = |a: &usize| facts.start[*a] || facts.follow.iter().any(|row| row[*a]);
    (0..MOST_NAMES).filter(occurs).collect()
}

/// Adds the declaration of a parent that has text, and a line feed.
fn print_with_text(names: &[&[u8]], parent: usize, held: &[usize], out: &mut Vec<u8>) {
    out.extend(b"<!ELEMENT ");
    out.extend(names[parent]);
    out.extend(b" (#PCDATA");
    for &a in held {
        out.push(b'|');
        out.extend(names[a]);
    }
    out.extend(if held.is_empty() { &b")>\n"[..] } else { b")*>\n" });
}

/// Adds the declaration of a parent without text, and a line feed.
fn print(names: &[&[u8]], parent: usize, chain: &[Factor], out: &mut Vec<u8>) {
    out.extend(b"<!ELEMENT ");
    out.extend(names[parent]);
    out.extend(if chain.is_empty() { &b" EMPTY"[..] } else { b" (" });
    for (i, factor) in chain.iter().enumerate() {
        if i > 0 {
            out.push(b',');
        }
        let spelled: Vec<&[u8]> = factor.names.iter().map(|&a| names[a]).collect();
        if spelled.len() == 1 {
            out.extend(spelled[0]);
        } else {
            out.push(b'(');
            out.extend(spelled.join(&b'|'));
            out.push(b')');
        }
        out.extend(factor.mark.bytes());
    }
    out.extend(if chain.is_empty() { &b">\n"[..] } else { b")>\n" });
}

/// What the program prints of a book.
pub fn rescan(bytes: &[u8]) -> Vec<u8> {
    let book = match check(bytes) {
        Ok(book) => book,
        Err(number) => return format!("refused {number}\n").into_bytes(),
    };
    let mut out = Vec::new();
    for parent in 0..book.names.len() {
        match scan(&book, parent) {
            Some(facts) if facts.text => print_with_text(&book.names, parent, &occurring(&facts), &mut out),
            Some(facts) => print(&book.names, parent, &chain(&facts), &mut out),
            None => {}
        }
    }
    out
}

fn main() -> std::io::Result<()> {
    let mut book = Vec::new();
    // One byte more than a book may have is enough to refuse it.
    std::io::stdin().take(MOST_BYTES as u64 + 1).read_to_end(&mut book)?;
    std::io::stdout().write_all(&rescan(&book))
}
