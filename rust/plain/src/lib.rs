//! The product's method in plain Rust, for the benchmark: sets of names are the bits of a word, follow facts are rows of such
//! words, and a book is read once for all its parents. Nothing is proved here; the tests compare it with the second implementation.

pub mod books;
/// Acceptance with the record copied for each name, for the benchmark.
#[path = "../../../docs/src/by_value.rs"]
pub mod by_value;
pub mod declaration;
pub mod document;
pub mod documents;
pub mod inclusion;
#[cfg(feature = "libxml2")]
pub mod libxml2;
pub mod pairs;
/// The program that rescans for each parent, for the benchmark; its `main` is not used here.
#[allow(dead_code)]
#[path = "../../../docs/src/rescan.rs"]
pub mod rescan;

pub use document::{accepts_document, fill_models, put_model};
pub use inclusion::within;

pub const PLACES: usize = 64;
pub const NONE: u8 = 255;

/// The longest DTD of a book: the longest declaration and a line feed for each name.
pub const LONGEST_DTD: usize = PLACES * (declaration::LONGEST + 1);

#[derive(Clone, Copy, PartialEq, Eq, Debug)]
pub struct Model {
    pub count: usize,
    pub factor: [u8; PLACES],
    pub mode: [u8; PLACES],
    pub text: u8,
}

pub const EMPTY: Model = Model { count: 0, factor: [NONE; PLACES], mode: [0; PLACES], text: 0 };

/// The names of a set, rising.
struct Members(u64);

impl Iterator for Members {
    type Item = usize;

    fn next(&mut self) -> Option<usize> {
        if self.0 == 0 {
            return None;
        }
        let first = self.0.trailing_zeros() as usize;
        self.0 &= self.0 - 1;
        Some(first)
    }
}

/// The follow facts of one parent.
#[derive(Clone, Copy)]
pub struct Facts {
    /// Whether the parent has a block.
    seen: bool,
    /// Whether one of its blocks has text.
    text: bool,
    empty: bool,
    start: u64,
    end: u64,
    follow: [u64; PLACES],
}

const NO_FACTS: Facts = Facts { seen: false, text: false, empty: false, start: 0, end: 0, follow: [0; PLACES] };

impl Facts {
    /// Adds a block: whether it has text, and its word, whose names are below 64.
    fn add(&mut self, text: bool, word: &[u8]) {
        self.seen = true;
        self.text |= text;
        let (Some(&first), Some(&last)) = (word.first(), word.last()) else {
            self.empty = true;
            return;
        };
        self.start |= 1 << first;
        self.end |= 1 << last;
        let mut before = first as usize % PLACES;
        for &x in &word[1..] {
            self.follow[before] |= 1 << x;
            before = x as usize % PLACES;
        }
    }

    /// The names that are in some word: each begins one or follows a name.
    fn names(&self) -> u64 {
        self.follow.iter().fold(self.start, |all, row| all | row)
    }
}

/// The names of a book: where each stands.
pub struct Names<'a> {
    pub count: usize,
    names: [&'a [u8]; PLACES],
}

impl<'a> Names<'a> {
    pub fn get(&self, i: usize) -> &'a [u8] {
        self.names[i]
    }

    pub fn find(&self, name: &[u8]) -> Option<usize> {
        self.names[..self.count].binary_search(&name).ok()
    }
}

/// 0 for no name byte, 1 for a later byte only, 2 for a byte that may start a name too.
pub const CLASS: [u8; 256] = {
    let mut table = [0; 256];
    let mut b = 0;
    while b < 256 {
        let c = b as u8;
        if c.is_ascii_alphabetic() || c == b'_' {
            table[b] = 2;
        } else if c.is_ascii_digit() || c == b'-' || c == b'.' {
            table[b] = 1;
        }
        b += 1;
    }
    table
};

fn good_bytes(name: &[u8]) -> bool {
    CLASS[name[0] as usize] == 2 && name.iter().all(|&b| CLASS[b as usize] > 0)
}

/// Reads the names from byte 2 on, and says where they end.
fn read_names<'a>(bytes: &'a [u8], names: &mut [&'a [u8]]) -> Result<usize, u8> {
    let mut at = 2;
    let mut before: &[u8] = &[];
    for name in names {
        let size = *bytes.get(at).ok_or(2)? as usize;
        if size == 0 || size > 32 {
            return Err(4);
        }
        let here = bytes.get(at + 1..at + 1 + size).ok_or(2)?;
        if !good_bytes(here) {
            return Err(4);
        }
        if here <= before {
            return Err(5);
        }
        *name = here;
        before = here;
        at += 1 + size;
    }
    Ok(at)
}

/// A block: its parent, whether it has text, and its word.
type Block<'a> = (u8, bool, &'a [u8]);

/// The block over n names at a place.
// In line, so that no loop over blocks makes a call for each of them.
#[inline(always)]
fn block_at(bytes: &[u8], n: usize, at: usize) -> Result<Block<'_>, u8> {
    let parent = *bytes.get(at).ok_or(2)?;
    if parent as usize >= n {
        return Err(6);
    }
    let text = *bytes.get(at + 1).ok_or(2)?;
    if text > 1 {
        return Err(16);
    }
    let size = *bytes.get(at + 2).ok_or(2)? as usize;
    let word = bytes.get(at + 3..at + 3 + size).ok_or(2)?;
    if word.iter().fold(0, |most, &x| most.max(x)) as usize >= n {
        return Err(6);
    }
    Ok((parent, text == 1, word))
}

/// The names that a block uses.
fn used_in(parent: u8, word: &[u8]) -> u64 {
    word.iter().fold(1 << parent, |used, &x| used | 1 << x)
}

/// Reads the blocks over n names, from the byte at which their count is, and hands each one's parent, text and word to
/// `block`. Says where they end, and which names none of them uses. Once all are used, a loop without the set goes on.
fn read_blocks<'a>(bytes: &'a [u8], n: usize, at: usize, mut block: impl FnMut(u8, bool, &'a [u8])) -> Result<(usize, u64), u8> {
    let m = bytes.get(at..at + 2).ok_or(2)?;
    let (mut at, mut left) = (at + 2, m[0] as usize + 256 * m[1] as usize);
    let mut unused = u64::MAX >> (PLACES - n);
    while left > 0 && unused != 0 {
        let (parent, text, word) = block_at(bytes, n, at)?;
        unused &= !used_in(parent, word);
        block(parent, text, word);
        at += 3 + word.len();
        left -= 1;
    }
    for _ in 0..left {
        let (parent, text, word) = block_at(bytes, n, at)?;
        block(parent, text, word);
        at += 3 + word.len();
    }
    Ok((at, unused))
}

/// Reads a book, hands each block's parent, text and word to `block`, and gives the names back: 1 to 7, 16, 17.
pub fn read_book<'a>(bytes: &'a [u8], block: impl FnMut(u8, bool, &'a [u8])) -> Result<Names<'a>, u8> {
    if bytes.len() > 60_000 {
        return Err(1);
    }
    if bytes.len() < 2 {
        return Err(2);
    }
    let n = bytes[0] as usize + 256 * bytes[1] as usize;
    if n == 0 || n > PLACES {
        return Err(3);
    }
    let mut names: [&[u8]; PLACES] = [&[]; PLACES];
    let at = read_names(bytes, &mut names[..n])?;
    let (end, unused) = read_blocks(bytes, n, at, block)?;
    if end < bytes.len() {
        return Err(7);
    }
    if unused != 0 {
        return Err(17);
    }
    Ok(Names { count: n, names })
}

/// The chain under construction.
struct Building(Model);

impl Building {
    fn factor(&mut self, names: u64, mode: u8) {
        let i = self.0.count;
        for x in Members(names) {
            self.0.factor[x] = i as u8;
        }
        self.0.mode[i] = mode;
        self.0.count += 1;
    }
}

/// What each name reaches by one or more steps: in each round one more name may stand in the middle.
fn reach_of(follow: [u64; PLACES]) -> [u64; PLACES] {
    let mut reach = follow;
    for k in 0..PLACES {
        let row = reach[k];
        if row != 0 {
            // Without a branch, so that the compiler can take several rows at once.
            for other in &mut reach {
                *other |= row & (*other >> k & 1).wrapping_neg();
            }
        }
    }
    reach
}

/// Rows and columns exchanged: in blocks of 32, then in each of those in blocks of 16, and so on.
fn transposed(mut rows: [u64; PLACES]) -> [u64; PLACES] {
    let mut size = PLACES / 2;
    let mut mask = u64::MAX >> size;
    while size > 0 {
        for i in (0..PLACES).filter(|i| i & size == 0) {
            let exchanged = (rows[i] >> size ^ rows[i + size]) & mask;
            rows[i] ^= exchanged << size;
            rows[i + size] ^= exchanged;
        }
        size /= 2;
        mask ^= mask << size;
    }
    rows
}

/// The model that these facts give: with text one starred factor of all names, without it the chain.
pub fn model(facts: &Facts) -> Model {
    if !facts.text {
        return chain(facts);
    }
    let mut building = Building(Model { text: 1, ..EMPTY });
    let names = facts.names();
    if names != 0 {
        building.factor(names, 3);
    }
    building.0
}

/// The chain that the levels of these facts give.
pub fn chain(facts: &Facts) -> Model {
    let mut left = facts.names();
    if left == 0 {
        return EMPTY;
    }
    let reach = reach_of(facts.follow);
    let reached_by = transposed(reach);
    let group_of = |x: usize| reach[x] & reached_by[x];
    let mut building = Building(EMPTY);
    let mut below = 0u64;
    // What one step leads to: from the level below, and from any lower level.
    let mut next = facts.start;
    let mut next_of_lower = facts.start;
    while left != 0 {
        // The points behind the level below that no other point which is left reaches.
        let first = |x: &usize| reached_by[*x] & !reach[*x] & left == 0;
        let level = Members(next & left).filter(first).fold(0, |all, x| all | 1 << x | group_of(x));
        let above = left & !level;
        let skipped = facts.empty || facts.end & below != 0 || next_of_lower & above != 0;
        let mut loops = Members(level).filter(|&x| reach[x] >> x & 1 == 1).fold(0, |all, x| all | 1 << x);
        let singles = level & !loops;
        let one_group = loops != 0 && group_of(loops.trailing_zeros() as usize) == loops;
        let alone = !skipped && (loops == 0 || (singles == 0 && one_group));
        if singles != 0 {
            building.factor(singles, if alone { 0 } else { 1 });
        }
        while loops != 0 {
            let group = group_of(loops.trailing_zeros() as usize);
            building.factor(group, if alone { 2 } else { 3 });
            loops &= !group;
        }
        below |= level;
        next = Members(level).fold(0, |all, x| all | facts.follow[x]);
        next_of_lower |= next;
        left = above;
    }
    building.0
}

/// The facts of one parent in a book, with the book's names.
fn facts_of(bytes: &[u8], parent: usize) -> Result<(Names<'_>, Facts), u8> {
    let mut facts = NO_FACTS;
    let names = read_book(bytes, |p, text, word| {
        if p as usize == parent {
            facts.add(text, word);
        }
    })?;
    if parent >= names.count {
        return Err(8);
    }
    Ok((names, facts))
}

pub fn model_of_parent(bytes: &[u8], parent: usize) -> Result<Model, u8> {
    let (_, facts) = facts_of(bytes, parent)?;
    if !facts.seen {
        return Err(9);
    }
    Ok(model(&facts))
}

/// Whether a record is a model over n names: a chain whose text byte fits.
pub fn is_model(n: usize, m: &Model) -> bool {
    let fits = match m.text {
        0 => true,
        1 => m.count == 0 || (m.count == 1 && m.mode[0] == 3),
        _ => false,
    };
    fits && is_chain(n, m)
}

fn is_chain(n: usize, m: &Model) -> bool {
    if m.count > PLACES {
        return false;
    }
    let mut used = 0u64;
    for x in 0..PLACES {
        let f = m.factor[x];
        if f != NONE {
            if x >= n || f as usize >= m.count {
                return false;
            }
            used |= 1 << f;
        }
    }
    let all = if m.count == PLACES { u64::MAX } else { (1 << m.count) - 1 };
    used == all && m.mode[..m.count].iter().all(|&k| k <= 3) && m.mode[m.count..].iter().all(|&k| k == 0)
}

/// Whether a chain accepts a word, from left to right.
pub fn accepted(m: &Model, word: &[u8]) -> bool {
    let mut factor = 0;
    let mut taken = false;
    for &x in word {
        let own = m.factor[x as usize % PLACES] as usize;
        loop {
            if factor >= m.count {
                return false;
            }
            let mode = m.mode[factor];
            if own == factor && (!taken || mode >= 2) {
                taken = true;
                break;
            }
            if !taken && mode % 2 == 0 {
                return false;
            }
            factor += 1;
            taken = false;
        }
    }
    (factor..m.count).all(|i| m.mode[i] % 2 == 1 || (i == factor && taken))
}

/// The checks of a call on a word.
// Not inlined, so that acceptance by value runs the same machine code here: its time depends on where it lies in memory.
#[inline(never)]
fn check_word(n: usize, m: &Model, word: &[u8]) -> Result<(), u8> {
    if n == 0 || n > PLACES {
        return Err(3);
    }
    if !is_model(n, m) {
        return Err(10);
    }
    if word.len() > 255 || word.iter().fold(0, |most, &x| most.max(x)) as usize >= n {
        return Err(11);
    }
    Ok(())
}

pub fn accepts_word(n: usize, m: &Model, word: &[u8]) -> Result<bool, u8> {
    check_word(n, m, word)?;
    Ok(accepted(m, word))
}

/// A word that the model accepts, as long as the call allows where a factor repeats, for the benchmark.
pub fn a_word(m: &Model) -> Vec<u8> {
    let mut word: Vec<u8> = Vec::new();
    let mut repeated = None;
    for i in 0..m.count {
        let x = m.factor.iter().position(|&f| f as usize == i).unwrap() as u8;
        if m.mode[i] >= 2 {
            repeated = Some((word.len(), x));
        }
        word.push(x);
    }
    if let Some((at, x)) = repeated {
        let more = 255 - word.len();
        word.splice(at..at, std::iter::repeat_n(x, more));
    }
    assert!(accepted(m, &word));
    word
}

fn put(names: &Names, parent: usize, m: &Model, buffer: &mut [u8]) -> Result<usize, u8> {
    let mut text = [0u8; declaration::LONGEST];
    let size = declaration::write(names, parent, m, &mut text);
    buffer.get_mut(..size).ok_or(12)?.copy_from_slice(&text[..size]);
    Ok(size)
}

pub fn write_declaration(bytes: &[u8], parent: usize, m: &Model, buffer: &mut [u8]) -> Result<usize, u8> {
    let names = read_book(bytes, |_, _, _| {})?;
    if parent >= names.count {
        return Err(8);
    }
    if !is_model(names.count, m) {
        return Err(10);
    }
    put(&names, parent, m, buffer)
}

pub fn write_from_sample(bytes: &[u8], parent: usize, buffer: &mut [u8]) -> Result<usize, u8> {
    let (names, facts) = facts_of(bytes, parent)?;
    if !facts.seen {
        return Err(9);
    }
    put(&names, parent, &model(&facts), buffer)
}

pub fn read_declaration(bytes: &[u8], text: &[u8]) -> Result<(usize, Model), u8> {
    let names = read_book(bytes, |_, _, _| {})?;
    declaration::read(&names, text)
}

/// For each parent with a block, in rising number, its declaration and a line feed, by one pass over the blocks.
fn lines(bytes: &[u8]) -> Result<Vec<u8>, u8> {
    let mut all = vec![NO_FACTS; PLACES];
    let names = read_book(bytes, |parent, text, word| all[parent as usize].add(text, word))?;
    let mut out = Vec::new();
    let mut text = [0u8; declaration::LONGEST];
    for (parent, facts) in all[..names.count].iter().enumerate() {
        if facts.seen {
            let size = declaration::write(&names, parent, &model(facts), &mut text);
            out.extend_from_slice(&text[..size]);
            out.push(b'\n');
        }
    }
    Ok(out)
}

pub fn write_dtd(bytes: &[u8], buffer: &mut [u8]) -> Result<usize, u8> {
    let text = lines(bytes)?;
    buffer.get_mut(..text.len()).ok_or(12)?.copy_from_slice(&text);
    Ok(text.len())
}

/// What the program prints of a book.
pub fn dtd(bytes: &[u8]) -> Vec<u8> {
    lines(bytes).unwrap_or_else(|number| format!("refused {number}\n").into_bytes())
}
