//! Documents for the benchmark, each of 60,000 bytes and the same in every run, with their models, and as XML with a DTD.

use crate::books::Next;
use crate::document::{put_model, LONGEST, ROW};
use crate::{declaration, write_declaration, Model, EMPTY, PLACES};

/// The pairs of the longest document.
pub const PAIRS: usize = LONGEST / 2;

/// A document over 64 names: the models of those that it has, and its pairs.
pub struct Document {
    pub models: Vec<Model>,
    pub pairs: Vec<[u8; 2]>,
}

/// The model with these factors, each its names and its mode.
fn chain(factors: &[(&[u8], u8)]) -> Model {
    let mut model = Model { count: factors.len(), ..EMPTY };
    for (i, (names, mode)) in factors.iter().enumerate() {
        for &name in *names {
            model.factor[name as usize] = i as u8;
        }
        model.mode[i] = *mode;
    }
    model
}

/// Text and these names in any order.
fn mixed(names: &[u8]) -> Model {
    let children = if names.is_empty() { EMPTY } else { chain(&[(names, 3)]) };
    Model { text: 1, ..children }
}

impl Document {
    /// A document whose root is open.
    fn of(models: Vec<Model>) -> Document {
        Document { models, pairs: vec![[0, 0]] }
    }

    fn add(&mut self, name: u8, inside: impl FnOnce(&mut Document)) {
        self.pairs.push([0, name]);
        inside(self);
        self.pairs.push([1, name]);
    }

    fn add_text(&mut self) {
        self.pairs.push([2, 0]);
    }

    /// An element with text alone.
    fn add_leaf(&mut self, name: u8) {
        self.add(name, Document::add_text);
    }

    /// Adds elements of this name until so many pairs are left: one with text where the number is odd, the others empty.
    fn fill(&mut self, name: u8, left: usize) {
        if (self.left() - left) % 2 == 1 {
            self.add_leaf(name);
        }
        while self.left() > left {
            self.add(name, |_| {});
        }
    }

    /// How many pairs are left before the root's close.
    fn left(&self) -> usize {
        PAIRS - 1 - self.pairs.len()
    }

    fn ended(mut self) -> Document {
        self.pairs.push([1, 0]);
        self
    }

    /// As a table of models.
    pub fn table(&self) -> Vec<u8> {
        let mut table = vec![0; PLACES * ROW];
        for (name, model) in self.models.iter().enumerate() {
            put_model(PLACES, name, model, &mut table).expect("the model is one");
        }
        table
    }

    /// As XML: name 0 is n00, and each text is one letter.
    pub fn xml(&self) -> String {
        let tag = |[kind, name]: &[u8; 2]| match kind {
            0 => format!("<n{name:02}>"),
            1 => format!("</n{name:02}>"),
            _ => String::from("x"),
        };
        self.pairs.iter().map(tag).collect()
    }

    /// The declarations of the models.
    pub fn dtd(&self) -> String {
        let name = |i: u8| format!("\x03n{i:02}").into_bytes();
        let names: Vec<u8> = (0..PLACES as u8).flat_map(name).collect();
        let every_name: Vec<u8> = (0..PLACES as u8).collect();
        let book = [&[PLACES as u8, 0], &names[..], &[1, 0, 0, 0, PLACES as u8], &every_name].concat();
        let mut line = [0; declaration::LONGEST];
        let mut out = String::new();
        for (parent, model) in self.models.iter().enumerate() {
            let size = write_declaration(&book, parent, model, &mut line).expect("the model is one");
            out += &format!("{}\n", String::from_utf8_lossy(&line[..size]));
        }
        out
    }
}

/// One long word: (n01+).
fn list() -> Document {
    let mut document = Document::of(vec![chain(&[(&[1], 2)]), EMPTY]);
    document.fill(1, 0);
    document.ended()
}

/// Elements in each other down to depth 32, again and again.
fn deep() -> Document {
    let models = (0..32).map(|name| if name == 31 { EMPTY } else { chain(&[(&[name + 1], if name == 0 { 3 } else { 1 })]) });
    let mut document = Document::of(models.collect());
    while document.left() > 0 {
        let depth = (document.left() / 2).min(31) as u8;
        document.pairs.extend((1..=depth).map(|name| [0, name]));
        document.pairs.extend((1..=depth).rev().map(|name| [1, name]));
    }
    document.ended()
}

/// Text and 63 names by turns in any order; about every second child has text.
fn texts() -> Document {
    let mut next = Next(9);
    let names: Vec<u8> = (1..64).collect();
    let mut document = Document::of([vec![mixed(&names)], vec![mixed(&[]); 63]].concat());
    while document.left() > 7 {
        document.add_text();
        let name = 1 + next.below(63) as u8;
        if next.below(2) == 0 {
            document.add_leaf(name);
        } else {
            document.add(name, |_| {});
        }
    }
    document.fill(1, 0);
    document.ended()
}

const EMPLOYER: u8 = 1;
const SCHEME: u8 = 2;
const PERIOD: u8 = 3;
const ENTRY: u8 = 4;
const MEMBER: u8 = 5;
const CONTRIBUTION: u8 = 6;
const LEAVER: u8 = 7;
const REASON: u8 = 8;
const TOTAL: u8 = 9;
const NOTE: u8 = 10;
const EM: u8 = 11;

/// The models of a payroll feed: employers with their periods, entries of members, and notes with text in bold type.
fn payroll_models() -> Vec<Model> {
    let mut models = vec![mixed(&[]); 12];
    models[0] = chain(&[(&[EMPLOYER], 2), (&[NOTE], 3)]);
    models[EMPLOYER as usize] = chain(&[(&[SCHEME], 0), (&[PERIOD], 2)]);
    models[PERIOD as usize] = chain(&[(&[ENTRY], 2), (&[TOTAL], 0), (&[NOTE], 1)]);
    models[ENTRY as usize] = chain(&[(&[MEMBER], 0), (&[CONTRIBUTION, LEAVER], 0), (&[REASON, TOTAL], 1)]);
    models[LEAVER as usize] = EMPTY;
    models[NOTE as usize] = mixed(&[EM]);
    models
}

fn add_entry(document: &mut Document, next: &mut Next) {
    let leaves = next.below(4) == 0;
    let last = next.below(3);
    document.add(ENTRY, |entry| {
        entry.add_leaf(MEMBER);
        if leaves {
            entry.add(LEAVER, |_| {});
        } else {
            entry.add_leaf(CONTRIBUTION);
        }
        if last < 2 {
            entry.add_leaf([REASON, TOTAL][last]);
        }
    });
}

fn add_period(document: &mut Document, next: &mut Next) {
    document.add(PERIOD, |period| {
        (0..1 + next.below(12)).for_each(|_| add_entry(period, next));
        period.add_leaf(TOTAL);
        if next.below(3) == 0 {
            period.add(NOTE, |note| {
                note.add_text();
                note.add_leaf(EM);
                note.add_text();
            });
        }
    });
}

/// A payroll feed. With a fault the very last note has a total in it.
fn payroll_with(fault: bool) -> Document {
    let mut next = Next(10);
    let mut document = Document::of(payroll_models());
    while document.left() > 600 {
        document.add(EMPLOYER, |employer| {
            employer.add_leaf(SCHEME);
            (0..1 + next.below(4)).for_each(|_| add_period(employer, &mut next));
        });
    }
    document.fill(NOTE, 4);
    let inner = if fault { TOTAL } else { EM };
    document.add(NOTE, |note| note.add(inner, |_| {}));
    document.ended()
}

fn payroll() -> Document {
    payroll_with(false)
}

fn payroll_with_fault() -> Document {
    payroll_with(true)
}

/// One long word through 63 factors, each with about as many names.
fn through_factors() -> Document {
    let factors: Vec<[u8; 1]> = (1..64).map(|name| [name]).collect();
    let borrowed: Vec<(&[u8], u8)> = factors.iter().map(|names| (&names[..], 2 + names[0] % 2)).collect();
    let mut document = Document::of([vec![chain(&borrowed)], vec![EMPTY; 63]].concat());
    let all = document.left() / 2;
    for i in 0..all {
        document.add(1 + (i * 63 / all) as u8, |_| {});
    }
    document.ended()
}

/// Short words that leave out 60 of 62 factors: the first name of the model, then the last.
fn over_factors() -> Document {
    let factors: Vec<[u8; 1]> = (2..64).map(|name| [name]).collect();
    let borrowed: Vec<(&[u8], u8)> = factors.iter().map(|names| (&names[..], 1)).collect();
    let mut document = Document::of([vec![chain(&[(&[1], 3)]), chain(&borrowed)], vec![EMPTY; 62]].concat());
    while document.left() > 0 {
        let room = document.left();
        document.add(1, |child| {
            child.add(2, |_| {});
            if room >= 6 {
                child.add(63, |_| {});
            }
        });
    }
    document.ended()
}

/// A kind of document: its name, what makes it, and whether it is valid.
pub type Kind = (&'static str, fn() -> Document, bool);

pub const KINDS: &[Kind] = &[
    ("a list of one name", list, true),
    ("elements down to depth 32", deep, true),
    ("text and elements mixed", texts, true),
    ("a payroll feed", payroll, true),
    ("a payroll feed, a wrong child at its end", payroll_with_fault, false),
    ("a word through 63 factors", through_factors, true),
    ("words that leave out 60 factors", over_factors, true),
];
