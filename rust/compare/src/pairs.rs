//! Calls on two records: every pair of chains over three names; pairs by chance over up to 64 names, most of them near each other
//! or one wider than the other, some with text; records, counts and buffers that are refused; and pairs whose answers are written
//! down.

use crate::calls::{Answer, Call};
use crate::cases::{bad_texts, record, word, Due, Factors};
use crate::chance::Chance;
use crate::make::*;
use second::calls::MOST_COUNTEREXAMPLE;
use second::chain::chain as inferred;
use second::facts::Facts;
use second::record::{chains, Record, EMPTY};

/// How many chains there are over three names. A case has all pairs with one of them as the first.
pub const CHAINS: u64 = 605;

pub fn all_pairs(c: &mut Chance, case: u64) -> Vec<Due> {
    let all = chains(3);
    assert_eq!(all.len() as u64, CHAINS);
    let first = all[(case % CHAINS) as usize];
    all.into_iter().map(|second| asked(c, 3, first, second)).collect()
}

/// A buffer that is long enough, by chance exactly so.
fn long_buffer(c: &mut Chance) -> Vec<u8> {
    let more = *c.pick(&[0, 0, 1, 2, 190, 191, 235]);
    buffer(c, MOST_COUNTEREXAMPLE + more)
}

/// A buffer that is too short, by chance by one place.
fn short_buffer(c: &mut Chance) -> Vec<u8> {
    let size = *c.pick(&[0, 1, 63, 64, 64]);
    buffer(c, size)
}

fn any_buffer(c: &mut Chance) -> Vec<u8> {
    if c.once_in(3) {
        short_buffer(c)
    } else {
        long_buffer(c)
    }
}

fn asked(c: &mut Chance, names: usize, first: Record, second: Record) -> Due {
    (Call::Within { names, first, second, buffer: long_buffer(c) }, None)
}

/// A call with the answer that is due of it: yes or refused, and the buffer is kept.
fn kept(names: usize, first: Record, second: Record, buffer: Vec<u8>, number: u8) -> Due {
    let due = Answer::Inclusion(number, number == 0, 0, buffer.clone());
    (Call::Within { names, first, second, buffer }, Some(due))
}

/// A call with the answer no, shown by this word.
fn shown(names: usize, first: Record, second: Record, buffer: Vec<u8>, word: &[u8]) -> Due {
    let due = Answer::Inclusion(0, false, word.len(), [word, &buffer[word.len()..]].concat());
    (Call::Within { names, first, second, buffer }, Some(due))
}

/// The factors of a chain in a list, each its names and its mode.
type List = Vec<(Vec<u8>, u8)>;

fn list_of(chain: &Record) -> List {
    (0..chain.count).map(|i| (chain.names_of(i), chain.mode[i])).collect()
}

/// A chain that has all n names, many of them in factors of their own, in any order. In some all factors must be there.
fn full_chain(c: &mut Chance, n: usize) -> Record {
    let mut all: Vec<u8> = (0..n as u8).collect();
    c.shuffle(&mut all);
    let apart = c.once_in(2);
    let join = c.from_to(2, 6);
    let modes: &[u8] = if c.once_in(2) { &[0, 2] } else { &[0, 1, 2, 3] };
    let mut list = List::new();
    for x in all {
        if apart || list.is_empty() || !c.once_in(join) {
            list.push((Vec::new(), *c.pick(modes)));
        }
        list.last_mut().unwrap().0.push(x);
    }
    Record::of(&list)
}

/// A name that the chain does not have, if there is one.
fn new_name(c: &mut Chance, n: usize, list: &List) -> Option<u8> {
    let left: Vec<u8> = (0..n as u8).filter(|x| !list.iter().any(|(names, _)| names.contains(x))).collect();
    (!left.is_empty()).then(|| *c.pick(&left))
}

/// Leaves some of the names or none, and gives the others.
fn split(c: &mut Chance, names: &mut Vec<u8>) -> Vec<u8> {
    c.shuffle(names);
    names.split_off(c.below(names.len()))
}

/// A chain near this one: a mode changed, a factor split, two joined or exchanged, a name moved, dropped or added.
fn near(c: &mut Chance, n: usize, chain: &Record) -> Record {
    let mut list = list_of(chain);
    let i = c.below(list.len().max(1));
    let j = c.below(list.len().max(1));
    match c.below(8) {
        0 | 1 if i < list.len() => list[i].1 = c.below(4) as u8,
        2 if i < list.len() => {
            let back = split(c, &mut list[i].0);
            let mode = if c.once_in(2) { list[i].1 } else { c.below(4) as u8 };
            list.insert(i + 1, (back, mode));
        }
        3 if i + 1 < list.len() => {
            let (names, mode) = list.remove(i + 1);
            list[i].0.extend(names);
            list[i].1 |= mode;
        }
        4 if i + 1 < list.len() => list.swap(i, i + 1),
        5 | 6 if i < list.len() => {
            let name = list[i].0.pop();
            if c.once_in(2) {
                list[j].0.extend(name);
            }
        }
        _ => {
            if let Some(name) = new_name(c, n, &list) {
                let mode = c.below(4) as u8;
                list.insert(i.min(list.len()), (vec![name], mode));
            }
        }
    }
    list.retain(|(names, _)| !names.is_empty());
    Record::of(&list)
}

/// Makes a chain wider: a factor may be left out or repeats, two are joined, one that takes one name at most is split, or a name
/// is added.
fn widen(c: &mut Chance, n: usize, list: &mut List) {
    let i = c.below(list.len().max(1));
    match c.below(5) {
        0 if i < list.len() => list[i].1 |= c.from_to(1, 3) as u8,
        1 if i + 1 < list.len() => {
            // Where one of the two must be there, so must both together.
            let (names, mode) = list.remove(i + 1);
            list[i].0.extend(names);
            list[i].1 = 2 | (list[i].1 & mode);
        }
        2 if i < list.len() && list[i].1 < 2 => {
            let back = split(c, &mut list[i].0);
            list[i].1 = *c.pick(&[1, 3]);
            list.insert(i + 1, (back, *c.pick(&[1, 3])));
        }
        kind => {
            let Some(name) = new_name(c, n, list) else { return };
            if kind == 3 && i < list.len() {
                list[i].0.push(name);
            } else {
                list.insert(i.min(list.len()), (vec![name], *c.pick(&[1, 3])));
            }
        }
    }
    list.retain(|(names, _)| !names.is_empty());
}

/// A chain that accepts all that this one does.
fn wider(c: &mut Chance, n: usize, chain: &Record) -> Record {
    let mut list = list_of(chain);
    for _ in 0..c.from_to(1, 8) {
        widen(c, n, &mut list);
    }
    Record::of(&list)
}

/// The chains of a sample and of some of its words.
fn of_samples(c: &mut Chance, n: usize) -> (Record, Record) {
    let words = sample(c, n);
    let mut some: Vec<&[u8]> = words.iter().map(|word| &word[..]).collect();
    let all = inferred(&Facts::of(some.iter().copied()));
    c.shuffle(&mut some);
    some.truncate(c.from_to(1, some.len()));
    (inferred(&Facts::of(some)), all)
}

/// Two chains that only a word of one name more than the first has factors tells apart.
fn once_more(c: &mut Chance, n: usize) -> (Record, Record) {
    let mut first = full_chain(c, n);
    for mode in &mut first.mode[..first.count] {
        *mode &= 2;
    }
    let repeated = c.below(first.count);
    let mut second = first;
    (first.mode[repeated], second.mode[repeated]) = (2, 0);
    (first, second)
}

/// Records with and without text that accept the same words, with one name more and with names by chance.
fn with_text(c: &mut Chance, n: usize) -> (Record, Record) {
    let first = model_with_text(c, n);
    match c.below(3) {
        0 => (first, Record { text: 0, ..first }),
        1 => {
            let more = new_name(c, n, &list_of(&first));
            (first, Record::with_text(first.names_of(0).into_iter().chain(more).collect()))
        }
        _ => (first, model_with_text(c, n)),
    }
}

/// Two models over n names.
fn pair(c: &mut Chance, n: usize) -> (Record, Record) {
    let first = if c.once_in(2) { full_chain(c, n) } else { chain(c, n) };
    match c.below(10) {
        0 => (first, chain(c, n)),
        1 => (first, full_chain(c, n)),
        2 => of_samples(c, n),
        3 => once_more(c, n),
        4 => {
            let second = near(c, n, &first);
            (first, near(c, n, &second))
        }
        5 => (first, model_with_text(c, n)),
        6 => with_text(c, n),
        _ => (first, near(c, n, &first)),
    }
}

/// No is due where a word of the first by chance is none of the second.
fn tried(c: &mut Chance, names: usize, first: Record, second: Record) -> Due {
    let word = accepted_word(c, &first);
    if word.len() <= MOST_COUNTEREXAMPLE && !second.accepts(&word) {
        return shown(names, first, second, long_buffer(c), &word);
    }
    asked(c, names, first, second)
}

/// Calls that are refused, or most of them: bad records as the first, as the second and as both; bad counts; short buffers.
fn refused(c: &mut Chance, n: usize, first: Record, second: Record) -> Vec<Due> {
    let bad = [&first, &second].map(|good| damaged_record(c, n, good));
    let other = *c.pick(&[0, 1, n - 1, n + 1, 63, 64, 65, 256 + n, 65536 + n, (1 << 32) + n, usize::MAX]);
    let mut calls = Vec::new();
    for names in [n, other] {
        for (first, second) in [(bad[0], second), (first, bad[1]), (bad[0], bad[1])] {
            calls.push((Call::Within { names, first, second, buffer: any_buffer(c) }, None));
        }
    }
    calls.push((Call::Within { names: other, first, second, buffer: any_buffer(c) }, None));
    calls.push(kept(n, first, second, short_buffer(c), 12));
    calls.push(kept(n, first, first, short_buffer(c), 12));
    calls
}

pub fn by_chance(c: &mut Chance, _: u64) -> Vec<Due> {
    let n = if c.once_in(2) { 64 } else { count(c) };
    let (first, second) = pair(c, n);
    let wide = wider(c, n, &first);
    let mut calls = vec![tried(c, n, first, second), tried(c, n, second, first)];
    calls.push(kept(n, first, wide, long_buffer(c), 0));
    calls.push(tried(c, n, wide, first));
    calls.push(kept(n, second, second, long_buffer(c), 0));
    calls.extend(refused(c, n, first, second));
    calls
}

/// Pairs of chains with a word that shows that the first is not within the second, `-` for the empty one; none where it is.
const PAIRS: &[(Factors, Factors, Option<&str>)] = &[
    (&[], &[], None),
    (&[], &[("a", 1)], None),
    (&[], &[("a", 0)], Some("-")),
    (&[("a", 0)], &[], Some("a")),
    (&[("a", 0)], &[("a", 1)], None),
    (&[("a", 0)], &[("a", 2)], None),
    (&[("a", 1)], &[("a", 0)], Some("-")),
    (&[("a", 1)], &[("a", 2)], Some("-")),
    (&[("a", 2)], &[("a", 0)], Some("aa")),
    (&[("a", 2)], &[("a", 3)], None),
    (&[("a", 3)], &[("a", 1)], Some("aa")),
    (&[("a", 3)], &[("a", 2)], Some("-")),
    (&[("a", 0), ("b", 0)], &[("a", 1), ("b", 2)], None),
    (&[("a", 1), ("b", 2)], &[("a", 0), ("b", 0)], Some("b")),
    (&[("a", 0), ("b", 0)], &[("ab", 3)], None),
    (&[("a", 1), ("b", 2)], &[("ab", 3)], None),
    (&[("ab", 3)], &[("a", 1), ("b", 2)], Some("-")),
    (&[("ab", 2)], &[("a", 3), ("b", 3)], Some("ba")),
    (&[("a", 3), ("b", 3)], &[("ab", 3)], None),
    (&[("ab", 0)], &[("a", 0)], Some("b")),
    (&[("a", 0), ("b", 0)], &[("b", 0), ("a", 0)], Some("ab")),
    (&[("a", 0), ("b", 0)], &[("a", 0), ("b", 0), ("c", 1)], None),
    (&[("a", 0), ("b", 0)], &[("a", 0), ("b", 0), ("c", 0)], Some("ab")),
    (&[("b", 0), ("c", 0)], &[("a", 0), ("b", 0), ("c", 0)], Some("bc")),
    (&[("a", 0), ("b", 1), ("c", 0)], &[("a", 0), ("b", 0), ("c", 0)], Some("ac")),
    (&[("a", 0), ("bc", 2), ("d", 0)], &[("a", 0), ("b", 1), ("c", 3), ("d", 0)], Some("abbd")),
];

/// 64 factors of a name each, falling; all are plain but this one.
fn repeats_at(factor: u8) -> Record {
    Record::of(&(0..64).map(|i| (vec![63 - i], if i == factor { 2 } else { 0 })).collect::<Vec<_>>())
}

/// The record, and the same with text where that is a model too.
fn with_and_without_text(record: Record) -> Vec<Record> {
    [record, Record { text: 1, ..record }].into_iter().filter(|record| record.is_model(26)).collect()
}

/// Two records with the word that shows a no, if there is one, and buffers on both sides of the limit.
fn answered(first: Record, second: Record, shown_by: Option<&str>) -> Vec<Due> {
    let refused = [0, 1, 64].map(|size| kept(26, first, second, vec![0xa5; size], 12));
    let answered = [65, 66, 300].map(|size| match shown_by {
        None => kept(26, first, second, vec![0xa5; size], 0),
        Some(letters) => shown(26, first, second, vec![0xa5; size], &word(letters)),
    });
    refused.into_iter().chain(answered).collect()
}

/// Pairs with their answers, which text does not change, and the limits of the buffer and of the word's length.
pub fn written_down() -> Vec<Due> {
    let mut calls = Vec::new();
    for (first, second, shown_by) in PAIRS {
        for first in with_and_without_text(record(first)) {
            for second in with_and_without_text(record(second)) {
                calls.extend(answered(first, second, *shown_by));
            }
        }
    }
    for factor in 0..64 {
        let mut longest: Vec<u8> = (0..64).rev().collect();
        longest.insert(factor as usize, 63 - factor);
        calls.push(shown(64, repeats_at(factor), repeats_at(64), vec![0xa5; 65], &longest));
        calls.push(kept(64, repeats_at(64), repeats_at(factor), vec![0xa5; 65], 0));
    }
    let bad = Record { count: 1, ..EMPTY };
    let mut refused = vec![(0, bad, bad, 3), (65, EMPTY, EMPTY, 3), (1, bad, EMPTY, 10), (64, EMPTY, bad, 10)];
    refused.extend(bad_texts().into_iter().flat_map(|bad| [(2, bad, EMPTY, 10), (2, EMPTY, bad, 10), (65, bad, bad, 3)]));
    for (names, first, second, number) in refused {
        for size in [0, 65] {
            calls.push(kept(names, first, second, vec![0xa5; size], number));
        }
    }
    calls
}
