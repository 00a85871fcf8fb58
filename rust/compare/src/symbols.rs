//! Every short model of a declaration, with what is due of it. Which models have the form is found by expanding the productions
//! of the grammar, from the names up. That is no reader, so a model on which two readers are wrong alike is found too.

use crate::calls::{Answer, Call};
use crate::cases::Due;
use crate::chance::Chance;
use crate::make::{every_name, PCDATA};
use second::book::bytes_of;
use second::record::{Record, EMPTY};
use std::collections::BTreeSet;

/// Models in symbols: `a` and `b` make names, `#` is `#PCDATA`, `*` is a mark, the space is white space, and the others are
/// signs.
type Models = BTreeSet<Vec<u8>>;

/// Which models there are, and what their symbols are in a text.
struct Alphabet {
    /// What every model begins with.
    front: &'static [u8],
    /// The symbols behind it, and how many of them there are at most.
    symbols: &'static [u8],
    most: usize,
    /// What `b`, `*` and the space are in a text.
    b: &'static [u8],
    mark: u8,
    white: u8,
}

const ALL: Alphabet = Alphabet { front: b"", symbols: b"ab(),|* ", most: 6, b: b"b", mark: b'*', white: b' ' };

/// With `#PCDATA` those that have it anywhere, such as `(a|#)*`, and longer ones that begin with it, such as `(#|(a))*`, with
/// each mark. Without it longer models of fewer symbols, such as `(a|a) *`, `((a|a))*` and `((a) ,a)*`; then those of every other
/// symbol, with each mark and each white space.
const ALPHABETS: &[Alphabet] = &[
    Alphabet { symbols: b"a#()|*", ..ALL },
    Alphabet { symbols: b"a#()|* ", most: 5, ..ALL },
    Alphabet { front: b"(#|", symbols: b"ab)|* ", most: 5, ..ALL },
    Alphabet { front: b"(#", symbols: b"a()|* ", most: 4, mark: b'?', white: b'\n', ..ALL },
    Alphabet { front: b"(#", symbols: b"a()|* ", most: 4, mark: b'+', white: b'\t', ..ALL },
    Alphabet { front: b"(#", symbols: b"a(),|* ", ..ALL },
    Alphabet { front: b"(", symbols: b"a(),|* ", ..ALL },
    Alphabet { front: b"(", symbols: b"a(),|*", most: 7, ..ALL },
    Alphabet { front: b"((a", symbols: b"a(),|* ", ..ALL },
    ALL,
    Alphabet { mark: b'?', white: b'\t', ..ALL },
    Alphabet { mark: b'+', white: b'\n', ..ALL },
    Alphabet { b: b"EMPTY", white: b'\r', ..ALL },
];

/// The names of the book; other words are unknown.
const NAMES: [&[u8]; 3] = [b"a", b"ab", b"b"];

/// How many models a case has.
const SIZE: u64 = 40_000;

/// How many cases there are.
pub const CASES: u64 = {
    let mut cases = 0;
    let mut i = 0;
    while i < ALPHABETS.len() {
        cases += ALPHABETS[i].cases();
        i += 1;
    }
    cases
};

/// The models of one case.
pub fn calls(_: &mut Chance, case: u64) -> Vec<Due> {
    let mut case = case % CASES;
    for alphabet in ALPHABETS {
        if case < alphabet.cases() {
            return alphabet.calls(case);
        }
        case -= alphabet.cases();
    }
    unreachable!()
}

impl Alphabet {
    /// How many models there are: n for one symbol, n times n for two, and so on, and the one without a symbol.
    const fn count(&self) -> u64 {
        let n = self.symbols.len() as u64;
        (n.pow(self.most as u32 + 1) - 1) / (n - 1)
    }

    const fn cases(&self) -> u64 {
        self.count().div_ceil(SIZE)
    }

    fn calls(&self, case: u64) -> Vec<Due> {
        let names = self.names();
        let book = bytes_of(&names, &[every_name(names.len())]);
        let formed = self.formed();
        let mut calls = Vec::new();
        for i in case * SIZE..self.count().min((case + 1) * SIZE) {
            let model = self.model(i);
            let text = [b"<!ELEMENT a ", &self.spelled(&model)[..], b">"].concat();
            let due = self.due(&names, &formed, &model);
            calls.push((Call::ReadDeclaration { book: book.clone(), text }, Some(due)));
        }
        calls
    }

    /// Model number i, the shorter ones first.
    fn model(&self, mut i: u64) -> Vec<u8> {
        let n = self.symbols.len() as u64;
        let mut model = self.front.to_vec();
        while i > 0 {
            i -= 1;
            model.push(self.symbols[(i % n) as usize]);
            i /= n;
        }
        model
    }

    /// The bytes of a model, or of a part of it.
    fn spelled(&self, model: &[u8]) -> Vec<u8> {
        let mut text = Vec::new();
        for symbol in model {
            match symbol {
                b'b' => text.extend(self.b),
                b'#' => text.extend(PCDATA),
                b'*' => text.push(self.mark),
                b' ' => text.push(self.white),
                _ => text.push(*symbol),
            }
        }
        text
    }

    /// The names of the book, rising.
    fn names(&self) -> Vec<Vec<u8>> {
        BTreeSet::from(NAMES.map(|name| self.spelled(name))).into_iter().collect()
    }

    /// What is due of a model.
    fn due(&self, names: &[Vec<u8>], formed: &Models, model: &[u8]) -> Answer {
        let number = |word: &[u8]| names.iter().position(|name| *name == self.spelled(word)).map(|x| x as u8);
        let parent = number(b"a").unwrap() as usize;
        if !formed.contains(model) {
            return Answer::Read(13, 0, EMPTY);
        }
        // Without brackets it is the word `EMPTY`. Commas separate the factors, and a factor has one mark at most.
        if !model.contains(&b'(') {
            return Answer::Read(0, parent, EMPTY);
        }
        let mut factors = Vec::new();
        for part in model.split(|symbol| *symbol == b',') {
            let words = part.split(|symbol| !b"ab".contains(symbol)).filter(|word| !word.is_empty());
            let Some(held) = words.map(number).collect::<Option<Vec<u8>>>() else { return Answer::Read(14, 0, EMPTY) };
            factors.push((held, if part.contains(&b'*') { self.mode() } else { 0 }));
        }
        let all: Vec<u8> = factors.iter().flat_map(|(held, _)| held.clone()).collect();
        if all.iter().collect::<BTreeSet<_>>().len() < all.len() {
            return Answer::Read(15, 0, EMPTY);
        }
        let text = model.contains(&b'#');
        Answer::Read(0, parent, if text { Record::with_text(all) } else { Record::of(&factors) })
    }

    /// The mode that the mark gives.
    fn mode(&self) -> u8 {
        1 + b"?+*".iter().position(|mark| *mark == self.mark).unwrap() as u8
    }
}

/// The expansion of the grammar.
impl Alphabet {
    /// Every model that has the form, with white space around it.
    fn formed(&self) -> Models {
        let white = self.any_number(&self.one(b' '));
        let letter = &self.one(b'a') | &self.one(b'b');
        let name = self.sequence(&[&letter, &self.any_number(&letter)]);
        let mark = &self.one(b'*') | &nothing();
        let group = self.bracketed(&white, &name, b'|');
        let factor = self.sequence(&[&(&name | &group), &mark]);
        let list = self.bracketed(&white, &factor, b',');
        let empty = if self.b == b"EMPTY" { self.one(b'b') } else { Models::new() };
        let content = &(&empty | &self.sequence(&[&group, &mark])) | &list;
        self.sequence(&[&white, &(&content | &self.mixed(&white, &name)), &white])
    }

    /// '(' S* '#PCDATA' S* ')' '*'? | '(' S* '#PCDATA' (S* '|' S* Name)+ S* ')*'
    fn mixed(&self, white: &Models, name: &Models) -> Models {
        let star = if self.mark == b'*' { self.one(b'*') } else { Models::new() };
        let front = self.sequence(&[&self.one(b'('), white, &self.one(b'#')]);
        let later = self.sequence(&[white, &self.one(b'|'), white, name]);
        let close = self.sequence(&[white, &self.one(b')')]);
        let alone = self.sequence(&[&front, &close, &(&star | &nothing())]);
        &alone | &self.sequence(&[&front, &later, &self.any_number(&later), &close, &star])
    }

    /// '(' S* part (S* sign S* part)* S* ')'
    fn bracketed(&self, white: &Models, part: &Models, sign: u8) -> Models {
        let later = self.sequence(&[white, &self.one(sign), white, part]);
        self.sequence(&[&self.one(b'('), white, part, &self.any_number(&later), white, &self.one(b')')])
    }

    /// One symbol, where the alphabet or the front has it.
    fn one(&self, symbol: u8) -> Models {
        self.symbols.iter().chain(self.front).filter(|s| **s == symbol).map(|s| vec![*s]).collect()
    }

    /// One of each, one after the other; not those that are too long.
    fn sequence(&self, parts: &[&Models]) -> Models {
        let mut all = nothing();
        for part in parts {
            let fits = |a: &[u8], b: &[u8]| a.len() + b.len() <= self.front.len() + self.most;
            let behind = |a: &Vec<u8>| part.iter().filter(|b| fits(a, b)).map(|b| [&a[..], b].concat()).collect::<Vec<_>>();
            all = all.iter().flat_map(behind).collect();
        }
        all
    }

    /// Any number of these, none included.
    fn any_number(&self, of: &Models) -> Models {
        let mut all = nothing();
        loop {
            let more = &all | &self.sequence(&[&all, of]);
            if more == all {
                return all;
            }
            all = more;
        }
    }
}

fn nothing() -> Models {
    Models::from([vec![]])
}
