//! Whole documents, by request U7 of paper 02, and the table of models: every fault at every pair of small documents, every
//! pair at four places, depths, tables and lengths on both sides of their limits, and trees by chance with models that they fit.

use crate::calls::{Answer, Call};
use crate::cases::{bad_texts, edge_parents, record, refused, word, Due};
use crate::chance::Chance;
use crate::make::*;
use second::document::{CLOSE, DEEPEST, MOST_BYTES, OPEN, TEXT};
use second::models::{row_of, ROW};
use second::record::{Record, EMPTY};

/// A kind and a number.
type Pair = [u8; 2];

/// The pairs of a document: a capital letter opens the element of that name, a small one closes it, and `#` is text.
fn pairs(signs: &str) -> Vec<Pair> {
    let pair = |sign: u8| match sign {
        b'#' => [TEXT, 0],
        b'A'..=b'Z' => [OPEN, sign - b'A'],
        _ => [CLOSE, sign - b'a'],
    };
    signs.bytes().map(pair).collect()
}

fn table(models: &[Option<Record>]) -> Vec<u8> {
    models.iter().flat_map(|model| model.map_or(vec![0; ROW], |model| row_of(&model))).collect()
}

fn asked(names: usize, models: &[u8], document: &[u8]) -> Due {
    (Call::AcceptsDocument { names, models: models.to_vec(), document: document.to_vec() }, None)
}

/// The same, with the verdict that is due.
fn judged(names: usize, models: &[u8], document: &[u8], yes: bool) -> Due {
    (asked(names, models, document).0, Some(Answer::Verdict(0, yes)))
}

fn not_judged(names: usize, models: &[u8], document: &[u8], number: u8) -> Due {
    refused(asked(names, models, document).0, number)
}

/// Models of three names that take all names and text, so that a document over them is valid or refused.
fn all_allowed() -> Vec<u8> {
    table(&[Some(Record::with_text(word("abc"))); 3])
}

/// Good documents over three names.
const SMALL: &[&str] = &["Aa", "A#a", "ABba", "BAab", "AAaa", "A#BCcb#a", "CABbaCCcc#Bbc", "ABbBbBb##a", "ABCABCcbacba"];

/// Pairs that are bad wherever they are, over three names.
const BAD_PAIRS: &[Pair] =
    &[[3, 0], [4, 1], [128, 2], [255, 0], [255, 255], [0, 3], [1, 3], [2, 3], [0, 64], [1, 255], [2, 1], [2, 2]];

/// A document with each change at one pair, or before it, or behind the last one. Beside it stands whether it is valid still;
/// all others are refused with 18.
fn faults_at(document: &[Pair], at: usize) -> Vec<(Vec<Pair>, bool)> {
    let put = |pairs: &[Pair]| [&document[..at], pairs, &document[at..]].concat();
    let inside = at > 0 && at < document.len();
    let mut all: Vec<(Vec<Pair>, bool)> = BAD_PAIRS.iter().map(|pair| (put(&[*pair]), false)).collect();
    for name in 0..3 {
        all.extend([[OPEN, name], [CLOSE, name]].map(|pair| (put(&[pair]), false)));
        all.push((put(&[[OPEN, name], [CLOSE, (name + 1) % 3]]), false));
        all.push((put(&[[OPEN, name], [CLOSE, name]]), inside));
    }
    for far in [3, 64, 255] {
        all.push((put(&[[OPEN, far], [CLOSE, far]]), false));
    }
    all.push((put(&[[TEXT, 0]]), inside));
    all.push((put(document), inside));
    let Some(&old) = document.get(at) else { return all };
    let instead = |pairs: &[Pair]| [&document[..at], pairs, &document[at + 1..]].concat();
    let others = [[OPEN, 0], [OPEN, 1], [OPEN, 2], [CLOSE, 0], [CLOSE, 1], [CLOSE, 2], [TEXT, 0]];
    let other = |pair: &&Pair| **pair != old;
    all.extend(BAD_PAIRS.iter().chain(others.iter().filter(other)).map(|pair| (instead(&[*pair]), false)));
    all.push((instead(&[]), old == [TEXT, 0]));
    all.push((document[..at].to_vec(), false));
    all
}

/// The same at one byte: one is more, or one is left out.
fn odd_at(document: &[u8], at: usize) -> Vec<Vec<u8>> {
    let mut all: Vec<Vec<u8>> = [0, 1, 2, 3, 255].map(|byte| [&document[..at], &[byte], &document[at..]].concat()).into();
    if at < document.len() {
        all.push([&document[..at], &document[at + 1..]].concat());
    }
    all
}

/// Every fault at every place of small documents.
pub fn faults(_: &mut Chance, _: u64) -> Vec<Due> {
    let models = all_allowed();
    let mut calls = Vec::new();
    for signs in SMALL {
        let document = pairs(signs);
        calls.push(judged(3, &models, &document.concat(), true));
        for at in 0..=document.len() {
            for (pairs, yes) in faults_at(&document, at) {
                let bytes = pairs.concat();
                calls.push(if yes { judged(3, &models, &bytes, true) } else { not_judged(3, &models, &bytes, 18) });
            }
        }
        for at in 0..=2 * document.len() {
            calls.extend(odd_at(&document.concat(), at).iter().map(|bytes| not_judged(3, &models, bytes, 18)));
        }
    }
    calls
}

/// How many kinds a pair may have, bad ones included. A case has all numbers with one of them.
pub const PAIR_KINDS: u64 = 256;

/// A pair before the root, in it, behind it, and in an element at depth 32.
pub fn every_pair(_: &mut Chance, case: u64) -> Vec<Due> {
    let kind = (case % PAIR_KINDS) as u8;
    let models = all_allowed();
    let [root, end] = [pairs("A").concat(), pairs("a").concat()];
    let (opens, closes) = (root.repeat(DEEPEST), end.repeat(DEEPEST));
    let mut calls = Vec::new();
    for number in 0..=255 {
        let pair = [kind, number];
        let text = pair == [TEXT, 0];
        let inside = [&root[..], &pair, &end].concat();
        calls.push(if text { judged(3, &models, &inside, true) } else { not_judged(3, &models, &inside, 18) });
        calls.push(not_judged(3, &models, &[&pair, &root[..], &end].concat(), 18));
        calls.push(not_judged(3, &models, &[&root[..], &end, &pair].concat(), 18));
        let deep = [&opens[..], &pair, &closes].concat();
        calls.push(match pair {
            [TEXT, 0] => judged(3, &models, &deep, true),
            [OPEN, 0..=2] => not_judged(3, &models, &deep, 19),
            _ => not_judged(3, &models, &deep, 18),
        });
    }
    calls
}

/// Elements in each other, and a pair that is bad by itself at each place: the first fault counts, and at one pair 18 does.
fn of_depth(depth: usize) -> Vec<Due> {
    let models = all_allowed();
    let nested = [vec![[OPEN, 0]; depth], vec![[CLOSE, 0]; depth]].concat();
    let due = |pairs: &[Pair], fault: Option<usize>| {
        let too_deep = (depth > DEEPEST).then_some(DEEPEST);
        match (fault, too_deep) {
            (None, None) => judged(3, &models, &pairs.concat(), true),
            (Some(fault), deep) if deep.is_none_or(|at| fault <= at) => not_judged(3, &models, &pairs.concat(), 18),
            _ => not_judged(3, &models, &pairs.concat(), 19),
        }
    };
    let mut calls = vec![due(&nested, None)];
    for at in 0..=nested.len() {
        for pair in [[0, 3], [3, 0], [2, 1], [1, 2], [255, 255]] {
            calls.push(due(&[&nested[..at], &[pair], &nested[at..]].concat(), Some(at)));
            if at < nested.len() {
                calls.push(due(&[&nested[..at], &[pair], &nested[at + 1..]].concat(), Some(at)));
            }
        }
        // The end is a fault behind the last pair.
        calls.push(due(&nested[..at], (at < nested.len()).then_some(at)));
        // One more element, with text or not, at each depth.
        for more in ["Bb", "#", "BCcb", "BCAacb"] {
            calls.push(asked(3, &models, &[&nested[..at], &pairs(more), &nested[at..]].concat().concat()));
        }
    }
    // An odd length is seen before any pair.
    calls.extend([0, 1, 255].map(|byte| not_judged(3, &models, &[&nested.concat()[..], &[byte]].concat(), 18)));
    calls
}

/// Elements a (b,a?,c) in each other, so many; the one at this depth has these signs in the place of `Bb` and `Cc`.
fn nested(depth: usize, at: usize, (front, back): (&str, &str)) -> String {
    let around = |level: usize| if level == at { (front, back) } else { ("Bb", "Cc") };
    (1..=depth).rev().fold(String::new(), |inside, level| format!("A{}{inside}{}a", around(level).0, around(level).1))
}

/// An element that is not as its model says at each depth, all others being so.
fn at_each_depth(depth: usize) -> Vec<Due> {
    let a = record(&[("b", 0), ("a", 1), ("c", 0)]);
    let models = table(&[Some(a), Some(EMPTY), Some(Record::with_text(vec![])), None]);
    let mut calls = Vec::new();
    for at in 1..=depth {
        for good in [("Bb", "Cc"), ("Bb", "C#c"), ("Bb", "C##c")] {
            calls.push(judged(4, &models, &pairs(&nested(depth, at, good)).concat(), true));
        }
        for bad in
            [("", "Cc"), ("Bb", ""), ("Cc", "Bb"), ("BbBb", "Cc"), ("Bb", "CcCc"), ("B#b", "Cc"), ("Bb#", "Cc"), ("BbDd", "Cc")]
        {
            calls.push(judged(4, &models, &pairs(&nested(depth, at, bad)).concat(), false));
        }
    }
    calls
}

/// Depths on both sides of the limit, and what is wrong at each depth.
pub fn depths(_: &mut Chance, _: u64) -> Vec<Due> {
    let of_limit = (30..=35).flat_map(of_depth);
    of_limit.chain([1, 2, 3, DEEPEST - 1].into_iter().flat_map(at_each_depth)).collect()
}

/// The name of the element that is open before each pair; none outside the root.
fn open_before(document: &[Pair]) -> Vec<Option<u8>> {
    let mut open: Vec<u8> = Vec::new();
    let mut names = Vec::new();
    for [kind, name] in document {
        names.push(open.last().copied());
        match *kind {
            OPEN => open.push(*name),
            CLOSE => drop(open.pop()),
            _ => {}
        }
    }
    names
}

/// Text at every place, where one name or another allows none, and models missing for one name after the other.
fn text_and_missing() -> Vec<Due> {
    let mut calls = Vec::new();
    for signs in SMALL {
        let document = pairs(signs);
        let open = open_before(&document);
        for name in 0..3u8 {
            let mut models = [Some(Record::with_text(word("abc"))); 3];
            let has = |pair: Pair| {
                open.iter().zip(&document).any(|(open, one)| *one == pair && (pair[0] == OPEN || *open == Some(name)))
            };
            models[name as usize] = Some(record(&[("abc", 3)]));
            let text_there = has([TEXT, 0]);
            calls.push(judged(3, &table(&models), &document.concat(), !text_there));
            for at in 1..document.len() {
                let yes = !text_there && open[at] != Some(name);
                let with_text = [&document[..at], &[[TEXT, 0]], &document[at..]].concat().concat();
                calls.push(judged(3, &table(&models), &with_text, yes));
            }
            models[name as usize] = None;
            calls.push(judged(3, &table(&models), &document.concat(), !has([OPEN, name])));
            calls.push(not_judged(3, &table(&models), &document[1..].concat(), 18));
        }
    }
    calls
}

/// Models of three names: a (b+,c?), b (#PCDATA), c EMPTY.
fn three_models() -> [Record; 3] {
    [record(&[("b", 2), ("c", 1)]), Record::with_text(vec![]), EMPTY]
}

/// Tables cut at each byte, with each byte in front of a row, with other bytes behind the rows, and with each byte changed.
fn rows() -> Vec<Due> {
    let models = table(&three_models().map(Some));
    let mut calls = Vec::new();
    for (signs, rows) in [("Cc", 3), ("Bb", 2), ("ABba", 2), ("AB#bBbCca", 3)] {
        let document = pairs(signs).concat();
        for size in 0..=models.len() {
            calls.push(judged(3, &models[..size], &document, size >= rows * ROW));
        }
        for first in 0..=255 {
            let mut other = models.clone();
            (0..3).for_each(|name| other[ROW * name] = first);
            calls.push(judged(3, &other, &document, first > 0));
        }
        for more in [1, 100, ROW, 61 * ROW, 62 * ROW] {
            calls.push(judged(3, &[&models[..], &vec![255; more]].concat(), &document, true));
        }
        for at in 0..models.len() {
            for byte in [0, 1, 2, 3, 4, 63, 64, 65, 254, 255] {
                let mut other = models.clone();
                other[at] = byte;
                calls.push(asked(3, &other, &document));
            }
        }
    }
    calls
}

/// Records that are no model over n names: F, a factor, a mode or the text byte is bad.
fn no_models(n: usize) -> Vec<Record> {
    let good = Record::of(&[(vec![0], 2)]);
    let mut bad = Vec::new();
    for count in [0, 2, 64, 65, 255] {
        bad.push(Record { count, ..good });
    }
    for text in [1, 2, 255] {
        bad.push(Record { text, ..good });
    }
    for (place, factor) in [(0, 1), (0, 254), (0, 255), (n.min(63), 1), (63, 64)] {
        bad.push(good);
        bad.last_mut().unwrap().factor[place] = factor;
    }
    for (place, mode) in [(0, 4), (0, 255), (1, 1), (63, 3)] {
        bad.push(good);
        bad.last_mut().unwrap().mode[place] = mode;
    }
    bad
}

/// A bad record in each row, also with 0 in front of it, in a row that is not whole, and in a row from the count of names on.
fn bad_rows() -> Vec<Due> {
    let (good, document) = (row_of(&EMPTY), pairs("Aa").concat());
    let mut calls = Vec::new();
    for n in [1, 2, 3, 63, 64] {
        let all = good.repeat(n);
        for bad in no_models(n) {
            for name in [0, 1, n / 2, n - 1].into_iter().filter(|name| *name < n) {
                let models = [&all[..ROW * name], &row_of(&bad), &all[ROW * (name + 1)..]].concat();
                for bytes in [&document[..], &[], &[9], &[0; MOST_BYTES]] {
                    calls.push(not_judged(n, &models, bytes, 10));
                }
                calls.push(not_judged(0, &models, &document, 3));
                calls.push(not_judged(n, &models, &[0; MOST_BYTES + 1], 1));
                let mut without = models.clone();
                without[ROW * name] = 0;
                calls.push(judged(n, &without, &document, name > 0));
                calls.push(judged(n, &models[..ROW * (name + 1) - 1], &document, name > 0));
                if name > 0 {
                    calls.push(judged(name, &models, &document, true));
                }
            }
        }
    }
    calls
}

/// Counts of names on both sides of their limits, also such as would be good if they lost part of their number.
fn counts() -> Vec<Due> {
    let mut calls = Vec::new();
    for n in [1, 2, 63, 64, 65, 128, 255] {
        let models = row_of(&EMPTY).repeat(n);
        for name in [0, n - 1, n, n + 1] {
            let document = [OPEN, name as u8, CLOSE, name as u8];
            calls.push(match (n, name < n) {
                (65.., _) => not_judged(n, &models, &document, 3),
                (_, true) => judged(n, &models, &document, true),
                (_, false) => not_judged(n, &models, &document, 18),
            });
        }
    }
    let models = row_of(&EMPTY);
    for names in [0, 65, 256, 257, 65536, 65537, 1 << 32, (1 << 32) + 1, usize::MAX, usize::MAX - 63] {
        for document in [&pairs("Aa").concat()[..], &[], &[9]] {
            calls.push(not_judged(names, &models, document, 3));
            calls.push(not_judged(names, &[], document, 3));
        }
        calls.push(not_judged(names, &models, &[0; MOST_BYTES + 1], 1));
    }
    calls
}

/// Puts a record into a table of so many bytes; what is then due.
fn put(names: usize, parent: usize, record: Record, buffer: Vec<u8>, number: u8) -> Due {
    let mut after = buffer.clone();
    if number == 0 {
        after[ROW * parent..ROW * (parent + 1)].copy_from_slice(&row_of(&record));
    }
    (Call::PutModel { names, parent, record, buffer }, Some(Answer::Put(number, after)))
}

/// Records put into each row, with tables on both sides of the limit, and refused for each reason beside those behind it.
fn puts(c: &mut Chance) -> Vec<Due> {
    let mut calls = Vec::new();
    for n in [1, 3, 64] {
        let good = [EMPTY, Record::of(&[(vec![n as u8 - 1], 2)]), Record::with_text((0..n as u8).collect())];
        for parent in 0..n {
            let end = ROW * (parent + 1);
            for record in good {
                for (size, number) in [(0, 12), (ROW * parent, 12), (end - 1, 12), (end, 0), (end + 1, 0), (64 * ROW + 9, 0)] {
                    calls.push(put(n, parent, record, buffer(c, size), number));
                }
            }
        }
        for size in [0, n * ROW] {
            for bad in no_models(n) {
                calls.push(put(n, n - 1, bad, buffer(c, size), 10));
                calls.push(put(n, n, bad, buffer(c, size), 8));
                calls.push(put(0, n, bad, buffer(c, size), 3));
            }
            for parent in [n, n + 1, 64, 255, 256, 65536, 1 << 32, usize::MAX / ROW, usize::MAX / ROW + 1, usize::MAX] {
                calls.push(put(n, parent, EMPTY, buffer(c, size), 8));
            }
            for names in [0, 65, 256 + n, 65536 + n, (1 << 32) + n, usize::MAX] {
                calls.push(put(names, 0, EMPTY, buffer(c, size), 3));
            }
        }
    }
    calls.extend(bad_texts().into_iter().map(|bad| put(26, 0, bad, vec![7; ROW], 10)));
    calls
}

/// Text at every place, tables and records put into them.
pub fn tables(c: &mut Chance, _: u64) -> Vec<Due> {
    [text_and_missing(), rows(), bad_rows(), counts(), puts(c)].concat()
}

/// A root with these children, each without content.
fn list(children: impl Iterator<Item = u8>) -> Vec<u8> {
    let child = |name| [OPEN, name, CLOSE, name];
    [vec![OPEN, 0], children.flat_map(child).collect(), vec![CLOSE, 0]].concat()
}

/// Words of many lengths: of one factor that repeats, with one name wrong at each end, and through many factors.
fn long_words() -> Vec<Due> {
    let mut calls = Vec::new();
    let of = |root: Record| table(&[vec![Some(root)], vec![Some(EMPTY); 63]].concat());
    let (plus, mixed) = (of(Record::of(&[(vec![1], 2), (vec![2], 1)])), of(Record::with_text(vec![1, 2])));
    let each = of(Record::of(&(1..64).map(|name| (vec![name], 2)).collect::<Vec<_>>()));
    for size in [1, 2, 254, 255, 256, 257, 258, 300, 511, 512, 513, 1000, 14_998, 14_999] {
        let with = |at: usize, other: u8| list((0..size).map(move |i| if i == at { other } else { 1 }));
        calls.push(judged(64, &plus, &with(size, 0), true));
        calls.push(judged(64, &plus, &with(size - 1, 2), size > 1));
        for (at, other) in [(0, 2), (0, 3), (size - 1, 3), (size / 2, 3), (254, 3), (255, 3), (256, 3)] {
            calls.push(judged(64, &plus, &with(at, other), at >= size));
        }
        for other in 0..4 {
            calls.push(judged(64, &mixed, &with(size - 1, other), [1, 2].contains(&other)));
        }
        let rising = |names: usize| list((0..size).map(move |i| 1 + (i * names / size) as u8));
        calls.push(judged(64, &each, &rising(63), size >= 63));
        calls.push(judged(64, &each, &rising(62), false));
    }
    calls
}

/// Documents around the most bytes: valid, not valid and refused. A longer one is refused before all else.
fn long_documents() -> Vec<Due> {
    let models = table(&[Some(Record::with_text(vec![0, 1])), Some(EMPTY)]);
    let list = |size: usize| list(std::iter::repeat_n(1, size));
    let texts = |size: usize| [&[OPEN, 0], &[TEXT, 0].repeat(size - 2)[..], &[CLOSE, 0]].concat();
    let longest = list(14_999);
    assert_eq!(longest.len(), MOST_BYTES);
    let mut calls = vec![judged(2, &models, &longest, true), judged(2, &models, &texts(30_000), true)];
    calls.push(judged(2, &models[..ROW], &longest, false));
    calls.push(not_judged(2, &models, &[0; MOST_BYTES], 19));
    for size in [59_997, 59_998, 59_999] {
        calls.push(not_judged(2, &models, &longest[..size], 18));
        calls.push(not_judged(2, &models, &longest[MOST_BYTES - size..], 18));
    }
    for longer in [texts(30_001), list(15_000), [&longest[..], &[1]].concat(), vec![0; 65_536], vec![255; 131_073]] {
        for names in [0, 1, 2, 65, usize::MAX] {
            calls.push(not_judged(names, &models, &longer, 1));
            calls.push(not_judged(names, &[9; ROW], &longer, 1));
        }
    }
    calls
}

/// Words of many names, and documents around the most bytes.
pub fn lengths(_: &mut Chance, _: u64) -> Vec<Due> {
    [long_words(), long_documents()].concat()
}

/// Models of n names in which a tree can always end: a factor that must be there has names of a higher level alone.
fn models_by_chance(c: &mut Chance, n: usize) -> Vec<Record> {
    let levels: Vec<usize> = (0..n).map(|_| c.below(4)).collect();
    let model = |c: &mut Chance, name: usize| {
        let mut model = if c.once_in(8) { EMPTY } else { model(c, n) };
        for i in 0..model.count {
            let higher = model.names_of(i).iter().all(|&child| levels[child as usize] > levels[name]);
            let many = (0..i).filter(|&before| model.mode[before] % 2 == 0).count() >= 3;
            if !higher || many {
                model.mode[i] |= 1;
            }
        }
        model
    };
    (0..n).map(|name| model(c, name)).collect()
}

/// A tree that is valid by these models, made from the root on.
struct Tree<'a> {
    models: &'a [Record],
    pairs: Vec<Pair>,
    /// From this depth and from this many pairs on only children that must be there are added.
    most_depth: usize,
    most_pairs: usize,
    depth: usize,
}

impl Tree<'_> {
    fn text(&mut self, c: &mut Chance, model: &Record) {
        while model.text == 1 && c.once_in(3) {
            self.pairs.push([TEXT, 0]);
        }
    }

    fn word(&self, c: &mut Chance, model: &Record, depth: usize) -> Vec<u8> {
        if depth < self.most_depth && self.pairs.len() < self.most_pairs {
            return accepted_word(c, model);
        }
        let needed: Vec<usize> = (0..model.count).filter(|&i| model.mode[i] % 2 == 0).collect();
        needed.into_iter().map(|i| *c.pick(&model.names_of(i))).collect()
    }

    fn add(&mut self, c: &mut Chance, name: u8, depth: usize) {
        let model = self.models[name as usize];
        self.depth = self.depth.max(depth);
        self.pairs.push([OPEN, name]);
        for child in self.word(c, &model, depth) {
            self.text(c, &model);
            self.add(c, child, depth + 1);
        }
        self.text(c, &model);
        self.pairs.push([CLOSE, name]);
    }
}

/// The last pair of the element that a pair opens; of any other pair it is that pair.
fn end_of(document: &[Pair], at: usize) -> usize {
    let mut open = 0;
    for (i, [kind, _]) in document.iter().enumerate().skip(at) {
        match *kind {
            OPEN => open += 1,
            CLOSE => open -= 1,
            _ => {}
        }
        if open <= 0 {
            return i;
        }
    }
    document.len() - 1
}

/// A document near a good one, which has one root too: an element is renamed, taken out, put in, doubled or put elsewhere.
fn near_document(c: &mut Chance, n: usize, good: &[Pair]) -> Vec<Pair> {
    let mut d = good.to_vec();
    let at = c.below(d.len());
    let end = end_of(&d, at);
    let (inside, name) = (at > 0 && end + 1 < d.len(), c.below(n) as u8);
    match c.below(7) {
        0 if d[at][0] == OPEN => (d[at][1], d[end][1]) = (name, name),
        1 if inside && d[at][0] != CLOSE => drop(d.drain(at..=end)),
        2 if inside && d[at][0] != CLOSE => {
            let again = d[at..=end].to_vec();
            d.splice(at..at, again);
        }
        3 if inside && d[at][0] == OPEN => {
            let moved: Vec<Pair> = d.drain(at..=end).collect();
            let to = c.from_to(1, d.len() - 1);
            d.splice(to..to, moved);
        }
        4 if at > 0 => drop(d.splice(at..at, [[OPEN, name], [CLOSE, name]])),
        5 if d[at][0] != CLOSE => {
            d.insert(end + 1, [CLOSE, name]);
            d.insert(at, [OPEN, name]);
        }
        _ if at > 0 => d.insert(at, [TEXT, 0]),
        _ => {}
    }
    d
}

/// The place behind the first pair that opens an element at the greatest depth.
fn deepest_place(document: &[Pair]) -> usize {
    let depths = document.iter().scan(0i32, |depth, [kind, _]| {
        *depth += [1, -1, 0][*kind as usize];
        Some(*depth)
    });
    1 + depths.enumerate().max_by_key(|(at, depth)| (*depth, std::cmp::Reverse(*at))).map_or(0, |(at, _)| at)
}

/// The bytes of a document with one change by chance, which most often makes it none.
fn damaged_document(c: &mut Chance, n: usize, good: &[Pair]) -> Vec<u8> {
    let mut bytes = good.concat();
    let at = c.below(bytes.len());
    let pair = 2 * if c.once_in(3) { deepest_place(good) } else { c.below(good.len()) };
    match c.below(10) {
        0 => bytes[at] = c.byte(),
        1 => bytes[pair] = c.below(4) as u8,
        2 => bytes[pair + 1] = c.below(n + 1) as u8,
        3 => drop(bytes.drain(pair..pair + 2)),
        4 => drop(bytes.splice(pair..pair, [c.below(4) as u8, c.below(n + 1) as u8])),
        5 => drop(bytes.remove(at)),
        6 => bytes.truncate(at),
        7 => drop(bytes.splice(pair..pair, [OPEN, *c.pick(&[n as u8, 64, 255])])),
        8 => bytes.extend(good[at / 2..=end_of(good, at / 2)].concat()),
        _ => bytes.extend([c.below(4) as u8, c.below(n + 1) as u8]),
    }
    bytes
}

/// A table near a good one: a model is missing, another or damaged, a byte is any, the table is cut, or bytes are behind it.
fn near_table(c: &mut Chance, n: usize, models: &[Record]) -> Vec<u8> {
    let mut some: Vec<Option<Record>> = models.iter().copied().map(Some).collect();
    let name = c.below(n);
    match c.below(4) {
        0 => some[name] = None,
        1 => some[name] = Some(model(c, n)),
        2 => {
            let damaged = damaged_record(c, n, &models[name]);
            some[name] = Some(Record { count: damaged.count.min(255), ..damaged });
        }
        _ => {}
    }
    let mut rows = table(&some);
    if some[name].is_none() {
        // What is behind a 0 is not looked at.
        rows[ROW * name + 1..ROW * (name + 1)].fill(c.byte());
    }
    let at = c.below(rows.len());
    match c.below(6) {
        0 => rows.truncate(at),
        1 => rows[at] = c.byte(),
        2 => rows[ROW * name] = c.byte(),
        3 => rows.extend(buffer(c, 300)),
        _ => {}
    }
    rows
}

/// A valid tree, by chance a deep or a long one, and its models; documents and tables near them.
pub fn by_chance(c: &mut Chance, case: u64) -> Vec<Due> {
    let n = count(c);
    let models = models_by_chance(c, n);
    let (shallow, deep) = (c.from_to(1, 8), c.from_to(25, 40));
    let most_depth = *c.pick(&[shallow, shallow, deep, DEEPEST]);
    let most_pairs = if case % 500 == 0 { 25_000 } else { *c.pick(&[4, 20, 60, 200]) };
    let mut tree = Tree { models: &models, pairs: Vec::new(), most_depth, most_pairs, depth: 0 };
    let root = c.below(n) as u8;
    tree.add(c, root, 1);
    let (good, bytes) = (&tree.pairs, tree.pairs.concat());
    let rows = table(&models.iter().copied().map(Some).collect::<Vec<_>>());
    let mut calls = vec![match (bytes.len() > MOST_BYTES, tree.depth > DEEPEST) {
        (true, _) => not_judged(n, &rows, &bytes, 1),
        (_, true) => not_judged(n, &rows, &bytes, 19),
        _ => judged(n, &rows, &bytes, true),
    }];
    for _ in 0..3 {
        let near = near_document(c, n, good);
        calls.push(asked(n, &rows, &near.concat()));
        calls.push(asked(n, &rows, &near_document(c, n, &near).concat()));
        calls.push(asked(n, &rows, &damaged_document(c, n, good)));
    }
    let damaged = damaged_document(c, n, good);
    for _ in 0..2 {
        let near = near_table(c, n, &models);
        calls.extend([&bytes, &damaged].map(|document| asked(n, &near, document)));
    }
    let other = *c.pick(&[0, 1, n - 1, n + 1, 63, 64, 65, 256 + n, 65536 + n, (1 << 32) + n, usize::MAX]);
    calls.extend([&bytes, &damaged].map(|document| asked(other, &rows, document)));
    calls
}

/// A buffer for the rows of a book's names, as far as its first byte tells how many there are: exact, short, longer or none.
pub fn rows_buffer(c: &mut Chance, book: &[u8]) -> Vec<u8> {
    let exact = ROW * book.first().map_or(1, |n| *n as usize % 65);
    let any = c.below(64 * ROW + 1);
    let size = *c.pick(&[exact, exact, exact.saturating_sub(1), exact + 1, 64 * ROW, 0, any]);
    buffer(c, size)
}

/// Tables filled from a book and changed by single records, and a document of the book's names judged by them.
pub fn models(c: &mut Chance, _: u64) -> Vec<Due> {
    let parts = small_book(c);
    let (n, book) = (parts.names.len(), parts.bytes());
    let bad = damaged_book(c, &book);
    let mut calls = Vec::new();
    for book in [&book, &book, &book, &bad] {
        calls.push((Call::FillModels { book: book.clone(), buffer: rows_buffer(c, book) }, None));
    }
    let good = model(c, n);
    let records = [good, damaged_record(c, n, &good)];
    for parent in [vec![c.below(n)], edge_parents(c, n)].concat() {
        let end = ROW * (parent % 64 + 1);
        let any = c.below(64 * ROW);
        let size = *c.pick(&[end, end, end - 1, end + 1, end - ROW, n * ROW, 0, any]);
        let names = if c.once_in(6) { *c.pick(&[0, 1, n + 1, 64, 65, 256 + n, usize::MAX]) } else { n };
        calls.push((Call::PutModel { names, parent, record: *c.pick(&records), buffer: buffer(c, size) }, None));
    }
    let mut rows = buffer(c, ROW * n);
    if second::calls::fill_models(&book, &mut rows).is_ok() {
        let block = c.pick(&parts.blocks);
        let child = |name: &u8| [OPEN, *name, CLOSE, *name];
        let document =
            [vec![OPEN, block.parent], block.word.iter().flat_map(child).collect(), vec![CLOSE, block.parent]].concat();
        calls.push(asked(n, &rows, &document));
        for parent in 0..n {
            if rows[ROW * parent] == 0 {
                rows[ROW * parent..ROW * (parent + 1)].copy_from_slice(&row_of(&EMPTY));
            }
        }
        calls.push(asked(n, &rows, &document));
    }
    calls
}
