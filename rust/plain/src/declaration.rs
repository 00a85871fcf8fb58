//! One declaration, written and read.

use crate::{Model, Names, CLASS, EMPTY, NONE, PLACES};

/// The longest declaration.
pub const LONGEST: usize = 2253;

struct Out<'a> {
    text: &'a mut [u8; LONGEST],
    at: usize,
}

impl Out<'_> {
    fn put(&mut self, bytes: &[u8]) {
        self.text[self.at..self.at + bytes.len()].copy_from_slice(bytes);
        self.at += bytes.len();
    }
}

impl Out<'_> {
    /// The names of a set, rising; the first has this before it, and the others a bar.
    fn put_names(&mut self, names: &Names, mut set: u64, first: &[u8]) {
        let mut before = first;
        while set != 0 {
            self.put(before);
            self.put(names.get(set.trailing_zeros() as usize));
            set &= set - 1;
            before = b"|";
        }
    }
}

/// The names of each factor.
fn held(m: &Model) -> [u64; PLACES] {
    let mut held = [0u64; PLACES];
    for (x, &f) in m.factor.iter().enumerate() {
        if f != NONE {
            held[f as usize] |= 1 << x;
        }
    }
    held
}

/// Writes the declaration of a model over these names, and gives its length.
pub fn write(names: &Names, parent: usize, m: &Model, text: &mut [u8; LONGEST]) -> usize {
    let mut out = Out { text, at: 0 };
    out.put(b"<!ELEMENT ");
    out.put(names.get(parent));
    match (m.text, m.count) {
        (0, 0) => out.put(b" EMPTY>"),
        (0, _) => write_factors(names, m, &mut out),
        (_, 0) => out.put(b" (#PCDATA)>"),
        _ => {
            out.put(b" (#PCDATA");
            out.put_names(names, held(m)[0], b"|");
            out.put(b")*>");
        }
    }
    out.at
}

fn write_factors(names: &Names, m: &Model, out: &mut Out) {
    let held = held(m);
    out.put(b" ");
    for i in 0..m.count {
        out.put(if i == 0 { b"(" } else { b"," });
        let group = held[i].count_ones() > 1;
        out.put_names(names, held[i], if group { b"(" } else { b"" });
        if group {
            out.put(b")");
        }
        out.put([&b""[..], b"?", b"+", b"*"][m.mode[i] as usize]);
    }
    out.put(b")>");
}

/// How many bytes `<!ELEMENT` has.
const OPENING: usize = 9;

/// Kinds of tokens, numbered for this program: 0 any other byte or the end of the text, 1 a word, 2 `(`, 3 `)`, 4 `,`, 5 `|`,
/// 6 `>`, 7 `?`, 8 `+`, 9 `*`, 10 the word `EMPTY`, 11 `#PCDATA`.
const WORD: u8 = 1;
const OPEN: u8 = 2;
const COMMA: u8 = 4;
const QUESTION: u8 = 7;
const STAR: u8 = 9;
const EMPTY_WORD: u8 = 10;
const PCDATA: u8 = 11;

/// The kind of a token that begins with each byte: a byte of words, a sign, `#` or any other.
const KIND: [u8; 256] = {
    let mut table = [0; 256];
    let mut b = 0;
    while b < 256 {
        table[b] = if CLASS[b] > 0 { WORD } else { 0 };
        b += 1;
    }
    let signs = b"(),|>?+*";
    let mut i = 0;
    while i < signs.len() {
        table[signs[i] as usize] = OPEN + i as u8;
        i += 1;
    }
    table[b'#' as usize] = PCDATA;
    table
};

/// Two states: behind `>`, and nowhere.
const CLOSED: u8 = 13;
const NOWHERE: u8 = 14;

/// The next state for each kind of token, a row for each state.
const STATES: [[u8; 12]; 20] = [
    [14, 1, 14, 14, 14, 14, 14, 14, 14, 14, 1, 14],   // 0 before the parent
    [14, 14, 2, 14, 14, 14, 14, 14, 14, 14, 12, 14],  // 1 before the model
    [14, 3, 8, 14, 14, 14, 14, 14, 14, 14, 3, 15],    // 2 behind its bracket
    [14, 14, 14, 6, 7, 4, 14, 11, 11, 11, 14, 14],    // 3 behind a name there
    [14, 5, 14, 14, 14, 14, 14, 14, 14, 14, 5, 14],   // 4 behind a bar, where the group is the whole model
    [14, 14, 14, 6, 14, 4, 14, 14, 14, 14, 14, 14],   // 5 behind a later name of it
    [14, 14, 14, 14, 14, 14, 13, 12, 12, 12, 14, 14], // 6 behind that group
    [14, 10, 8, 14, 14, 14, 14, 14, 14, 14, 10, 14],  // 7 before a later factor
    [14, 9, 14, 14, 14, 14, 14, 14, 14, 14, 9, 14],   // 8 before a name of a factor's group
    [14, 14, 14, 10, 14, 8, 14, 14, 14, 14, 14, 14],  // 9 behind a name of it
    [14, 14, 14, 12, 7, 14, 14, 11, 11, 11, 14, 14],  // 10 behind a factor's names
    [14, 14, 14, 12, 7, 14, 14, 14, 14, 14, 14, 14],  // 11 behind its mark
    [14, 14, 14, 14, 14, 14, 13, 14, 14, 14, 14, 14], // 12 before `>`
    [14, 14, 14, 14, 14, 14, 14, 14, 14, 14, 14, 14], // 13 behind `>`
    [14, 14, 14, 14, 14, 14, 14, 14, 14, 14, 14, 14], // 14 nowhere
    [14, 14, 14, 16, 14, 17, 14, 14, 14, 14, 14, 14], // 15 behind `#PCDATA`
    [14, 14, 14, 14, 14, 14, 13, 14, 14, 12, 14, 14], // 16 behind `(#PCDATA)`
    [14, 18, 14, 14, 14, 14, 14, 14, 14, 14, 18, 14], // 17 before a name of a mixed model
    [14, 14, 14, 19, 14, 17, 14, 14, 14, 14, 14, 14], // 18 behind a name of it
    [14, 14, 14, 14, 14, 14, 14, 14, 14, 12, 14, 14], // 19 behind its names and bracket
];

/// A token: whether white space is before it, its kind, its bytes, and where it ends.
struct Token<'a> {
    spaced: bool,
    kind: u8,
    bytes: &'a [u8],
    to: usize,
}

impl Token<'_> {
    fn is_word(&self) -> bool {
        self.kind == WORD || self.kind == EMPTY_WORD
    }

    /// Whether white space is where it has to be and not where it may not be, and a word is a name.
    fn fits(&self, behind_word: bool) -> bool {
        let apart = self.spaced || !behind_word;
        match self.kind {
            WORD | EMPTY_WORD => apart && self.bytes.len() <= 32 && CLASS[self.bytes[0] as usize] == 2,
            OPEN => apart,
            QUESTION..=STAR => !self.spaced,
            _ => true,
        }
    }
}

/// The token from a place on.
fn token(text: &[u8], at: usize) -> Token<'_> {
    let mut from = at;
    while from < text.len() && matches!(text[from], b' ' | b'\t' | b'\r' | b'\n') {
        from += 1;
    }
    let spaced = from > at;
    let Some(&first) = text.get(from) else {
        return Token { spaced, kind: 0, bytes: &[], to: from };
    };
    let mut kind = KIND[first as usize];
    let mut to = from + 1;
    if kind == WORD || kind == PCDATA {
        while to < text.len() && CLASS[text[to] as usize] > 0 {
            to += 1;
        }
        kind = match &text[from..to] {
            b"EMPTY" => EMPTY_WORD,
            b"#PCDATA" => PCDATA,
            _ if kind == PCDATA => 0,
            _ => WORD,
        };
    }
    Token { spaced, kind, bytes: &text[from..to], to }
}

/// Whether a text has the form of a declaration: a walk along its tokens.
fn has_form(text: &[u8]) -> bool {
    if !text.starts_with(b"<!ELEMENT") {
        return false;
    }
    let mut at = OPENING;
    let mut state = 0;
    let mut behind_word = true;
    while at < text.len() {
        let t = token(text, at);
        if !t.fits(behind_word) {
            return false;
        }
        state = STATES[state as usize][t.kind as usize];
        if state == NOWHERE {
            return false;
        }
        behind_word = t.is_word();
        at = t.to;
    }
    state == CLOSED
}

/// The model of the factors from a place on, in a text that has the form.
fn factors(names: &Names, text: &[u8], mut at: usize) -> Result<Model, u8> {
    let mut m = EMPTY;
    let mut twice = false;
    let mut index = 0;
    while at < text.len() {
        let t = token(text, at);
        match t.kind {
            WORD | EMPTY_WORD => {
                let x = names.find(t.bytes).ok_or(14u8)?;
                twice |= m.factor[x] != NONE;
                m.factor[x] = index as u8;
            }
            COMMA => index += 1,
            PCDATA => m.text = 1,
            // Where the record has no place for a factor, some name is there twice.
            QUESTION..=STAR if index < PLACES => m.mode[index] = t.kind - QUESTION + 1,
            _ => {}
        }
        at = t.to;
    }
    if twice {
        return Err(15);
    }
    if m.factor == EMPTY.factor {
        // Only `#PCDATA` can be without a name, and its star is no factor's.
        return Ok(Model { text: 1, ..EMPTY });
    }
    m.count = index + 1;
    Ok(m)
}

pub fn read(names: &Names, text: &[u8]) -> Result<(usize, Model), u8> {
    if !has_form(text) {
        return Err(13);
    }
    let parent = token(text, OPENING);
    let number = names.find(parent.bytes).ok_or(14u8)?;
    let model = match token(text, parent.to).kind {
        EMPTY_WORD => EMPTY,
        _ => factors(names, text, parent.to)?,
    };
    Ok((number, model))
}
