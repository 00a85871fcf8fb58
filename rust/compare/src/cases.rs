//! The kinds of cases. Each makes, from a seed and a number, the calls of one case.

use crate::calls::{Answer, Call};
use crate::chance::Chance;
use crate::make::*;
use crate::{documents, dtds, forms, pairs, symbols, unused};
use second::book::{bytes_of, Block};
use second::record::{Record, EMPTY};

/// A call, and its answer where it is written down; else the second implementation's is due.
pub type Due = (Call, Option<Answer>);

pub struct Kind {
    pub name: &'static str,
    /// How many cases a plain run has.
    pub cases: u64,
    /// Whether these are all there are. Of other kinds a longer run has as many times more.
    pub fixed: bool,
    pub make: fn(&mut Chance, u64) -> Vec<Due>,
}

impl Kind {
    /// How many cases a run has that is so many times as long as a plain one.
    pub fn cases_in(&self, times: u64) -> u64 {
        if self.fixed {
            self.cases
        } else {
            self.cases * times
        }
    }
}

/// The quick ones first; those of two records behind all others.
pub const KINDS: &[Kind] = &[
    Kind { name: "paper", cases: 1, fixed: true, make: paper },
    Kind { name: "places", cases: 1, fixed: true, make: unused::written_down },
    Kind { name: "limits", cases: 1, fixed: true, make: limits },
    Kind { name: "texts", cases: 4000, fixed: false, make: texts },
    Kind { name: "records", cases: 3000, fixed: false, make: records },
    Kind { name: "writing", cases: 1500, fixed: false, make: writing },
    Kind { name: "damaged", cases: 2000, fixed: false, make: damaged },
    Kind { name: "unused", cases: 600, fixed: false, make: unused::by_chance },
    Kind { name: "small", cases: 1000, fixed: false, make: small },
    Kind { name: "dtds", cases: 400, fixed: false, make: dtds::calls },
    Kind { name: "large", cases: 12, fixed: false, make: large },
    Kind { name: "faults", cases: 1, fixed: true, make: documents::faults },
    Kind { name: "depths", cases: 1, fixed: true, make: documents::depths },
    Kind { name: "tables", cases: 1, fixed: true, make: documents::tables },
    Kind { name: "lengths", cases: 1, fixed: true, make: documents::lengths },
    Kind { name: "documents", cases: 4000, fixed: false, make: documents::by_chance },
    Kind { name: "models", cases: 600, fixed: false, make: documents::models },
    Kind { name: "bytes", cases: documents::PAIR_KINDS, fixed: true, make: documents::every_pair },
    Kind { name: "symbols", cases: symbols::CASES, fixed: true, make: symbols::calls },
    Kind { name: "within", cases: 6000, fixed: false, make: pairs::by_chance },
    Kind { name: "pairs", cases: pairs::CHAINS, fixed: true, make: pairs::all_pairs },
];

fn undue(calls: Vec<Call>) -> Vec<Due> {
    calls.into_iter().map(|call| (call, None)).collect()
}

/// Parents on both sides of the limit, also such as would be good if they lost part of their number.
pub fn edge_parents(c: &mut Chance, n: usize) -> Vec<usize> {
    let p = c.below(n);
    vec![n - 1, n, n + 1, *c.pick(&[64, 255, 256, 256 + p, 65536 + p, (1 << 32) + p, usize::MAX])]
}

/// Buffers around a declaration's length.
fn buffers(c: &mut Chance, length: usize) -> Vec<Vec<u8>> {
    let mut sizes = vec![length, length.saturating_sub(1)];
    sizes.push(match c.below(4) {
        0 => 0,
        1 => 2253,
        2 => length + c.from_to(1, 40),
        _ => c.below(length + 1),
    });
    sizes.into_iter().map(|size| buffer(c, size)).collect()
}

/// What is asked of a parent of a book.
fn calls_of_parent(c: &mut Chance, parts: &Parts, book: &[u8], parent: usize, calls: &mut Vec<Call>) {
    let n = parts.names.len();
    calls.push(Call::ModelOfParent { book: book.to_vec(), parent });
    let Ok(record) = second::calls::model_of_parent(book, parent) else {
        calls.push(Call::WriteFromSample { book: book.to_vec(), parent, buffer: buffer(c, 60) });
        return;
    };
    let text = second::declaration::written(&parts.names, parent, &record);
    for buffer in buffers(c, text.len()) {
        calls.push(Call::WriteFromSample { book: book.to_vec(), parent, buffer });
    }
    calls.push(Call::WriteDeclaration { book: book.to_vec(), parent, record, buffer: buffer(c, text.len() + 3) });
    calls.push(Call::ReadDeclaration { book: book.to_vec(), text });
    let words: Vec<&Block> = parts.blocks.iter().filter(|b| b.parent as usize == parent).collect();
    for _ in 0..4 {
        let word = &c.pick(&words).word;
        calls.push(Call::AcceptsWord { names: n, record, word: word.clone() });
        calls.push(Call::AcceptsWord { names: n, record, word: near_word(c, n, word) });
    }
    for _ in 0..2 {
        let word = accepted_word(c, &record);
        calls.push(Call::AcceptsWord { names: n, record, word });
    }
}

fn small(c: &mut Chance, case: u64) -> Vec<Due> {
    let parts = small_book(c);
    let book = parts.bytes();
    let mut calls = Vec::new();
    let mut parents: Vec<usize> = parts.blocks.iter().map(|b| b.parent as usize).collect();
    parents.sort();
    parents.dedup();
    parents.extend(edge_parents(c, parts.names.len()));
    parents.push(c.below(parts.names.len()));
    for parent in parents {
        calls_of_parent(c, &parts, &book, parent, &mut calls);
    }
    calls.extend(dtds::calls_of_buffers(c, &book));
    if case % 8 == 0 {
        calls.push(Call::Dtd { book });
    }
    undue(calls)
}

fn large(c: &mut Chance, case: u64) -> Vec<Due> {
    let size = match case % 3 {
        0 => 60_000,
        1 => c.from_to(59_000, 59_999),
        _ => c.from_to(4_000, 59_999),
    };
    let mut parts = large_book(c, size);
    let book = parts.bytes();
    assert!(book.len() == size, "{} bytes for {size}", book.len());
    let mut calls = Vec::new();
    for _ in 0..2 {
        let parent = parts.blocks[c.below(parts.blocks.len())].parent as usize;
        calls_of_parent(c, &parts, &book, parent, &mut calls);
    }
    calls.extend(dtds::calls_of_buffers(c, &book));
    calls.push(Call::FillModels { book: book.clone(), buffer: documents::rows_buffer(c, &book) });
    calls.push(Call::Dtd { book: book.clone() });
    let mut longer = book.clone();
    longer.extend(vec![0; 60_001 - size]);
    let bad = damaged_book(c, &book);
    forget_name(c, parts.names.len(), &mut parts.blocks);
    for book in [longer, bad, parts.bytes()] {
        calls.push(Call::ModelOfParent { book: book.clone(), parent: 0 });
        calls.push(Call::WriteDtd { book: book.clone(), buffer: buffer(c, dtds::LONGEST) });
        calls.push(Call::FillModels { book: book.clone(), buffer: documents::rows_buffer(c, &book) });
        calls.push(Call::Dtd { book });
    }
    undue(calls)
}

/// Every call that takes a book, on one book.
fn calls_of_book(c: &mut Chance, book: &[u8], parent: usize) -> Vec<Call> {
    let book = || book.to_vec();
    vec![
        Call::ModelOfParent { book: book(), parent },
        Call::WriteFromSample { book: book(), parent, buffer: buffer(c, 40) },
        Call::WriteDeclaration { book: book(), parent, record: EMPTY, buffer: buffer(c, 60) },
        Call::WriteDtd { book: book(), buffer: buffer(c, 40) },
        Call::ReadDeclaration { book: book(), text: b"<!ELEMENT a EMPTY>".to_vec() },
        Call::FillModels { book: book(), buffer: documents::rows_buffer(c, &book()) },
    ]
}

fn damaged(c: &mut Chance, case: u64) -> Vec<Due> {
    let mut parts = small_book(c);
    let bad = if c.once_in(6) { damaged_parts(c, &mut parts) } else { damaged_book(c, &parts.bytes()) };
    let parent = c.below(parts.names.len() + 1);
    let mut calls = calls_of_book(c, &bad, parent);
    if case % 10 == 0 {
        calls.push(Call::Dtd { book: bad });
    }
    undue(calls)
}

fn records(c: &mut Chance, _: u64) -> Vec<Due> {
    let n = count(c);
    let good = model(c, n);
    let mut word = accepted_word(c, &good);
    if c.once_in(6) && n > 0 {
        // Up to and above the longest word of the call, by names of a factor that repeats if there is one.
        let size = c.from_to(250, 260);
        let looped = (0..good.count).find(|&i| good.mode[i] >= 2);
        let held = looped.map_or(vec![0], |i| good.names_of(i));
        let at = word.iter().position(|x| held.contains(x)).unwrap_or(0);
        while word.len() < size {
            word.insert(at, *c.pick(&held));
        }
        word.truncate(size);
    }
    let bad = damaged_record(c, n, &good);
    let mut far = word.clone();
    let any = c.byte();
    far.push(*c.pick(&[n as u8, n as u8 - 1, 64, 255, any]));
    let near = near_word(c, n, &word);
    let other_n = *c.pick(&[0, 1, n - 1, n + 1, 63, 64, 65, 256 + n, 65536 + n, (1 << 32) + n, usize::MAX]);
    undue(vec![
        Call::AcceptsWord { names: n, record: good, word: word.clone() },
        Call::AcceptsWord { names: n, record: good, word: near },
        Call::AcceptsWord { names: n, record: good, word: far.clone() },
        Call::AcceptsWord { names: n, record: good, word: (0..c.below(5)).map(|_| c.below(n) as u8).collect() },
        Call::AcceptsWord { names: n, record: bad, word: word.clone() },
        Call::AcceptsWord { names: n, record: bad, word: far },
        Call::AcceptsWord { names: other_n, record: good, word: word.clone() },
        Call::AcceptsWord { names: other_n, record: bad, word },
    ])
}

fn writing(c: &mut Chance, _: u64) -> Vec<Due> {
    let n = count(c);
    let parts = book_of_names(c, n);
    let book = parts.bytes();
    let parent = c.below(n);
    let good = model(c, n);
    let text = second::declaration::written(&parts.names, parent, &good);
    let mut calls = Vec::new();
    for buffer in buffers(c, text.len()) {
        calls.push(Call::WriteDeclaration { book: book.clone(), parent, record: good, buffer });
    }
    calls.push(Call::ReadDeclaration { book: book.clone(), text: text.clone() });
    let bad = damaged_record(c, n, &good);
    let size = *c.pick(&[0, text.len(), 2253]);
    calls.push(Call::WriteDeclaration { book: book.clone(), parent, record: bad, buffer: buffer(c, size) });
    for parent in edge_parents(c, n) {
        let record = if c.once_in(2) { good } else { bad };
        calls.push(Call::WriteDeclaration { book: book.clone(), parent, record, buffer: buffer(c, text.len()) });
    }
    undue(calls)
}

fn texts(c: &mut Chance, _: u64) -> Vec<Due> {
    let n = count(c);
    let parts = book_of_names(c, n);
    let (book, names) = (parts.bytes(), &parts.names);
    let record = model(c, n);
    let parent = c.below(n);
    let good = spelling(c, names, parent, &record);
    let due = if parts.unused().is_empty() { Answer::Read(0, parent, record) } else { Answer::Read(17, 0, EMPTY) };
    let mut calls = vec![(Call::ReadDeclaration { book: book.clone(), text: good.clone() }, Some(due))];
    for _ in 0..4 {
        let mut text = damaged_text(c, names, &good);
        if c.once_in(5) {
            text = damaged_text(c, names, &text);
        }
        calls.push((Call::ReadDeclaration { book: book.clone(), text }, None));
    }
    if c.once_in(100) {
        // No limit on a text's length.
        let held: Vec<Vec<u8>> = (0..c.from_to(60, 3000)).map(|i| names[i % n].clone()).collect();
        let list = [b" (", &held.join(&b", "[..])[..], b")>"].concat();
        let mixed = [b" (#PCDATA | ", &held.join(&b"|"[..])[..], b")*>"].concat();
        for model in [list, mixed] {
            let text = [b"<!ELEMENT ", &names[0][..], &model].concat();
            calls.push((Call::ReadDeclaration { book: book.clone(), text }, None));
        }
    }
    calls
}

/// A length byte and a name's bytes.
fn named(text: &[u8]) -> Vec<u8> {
    [&[text.len() as u8], text].concat()
}

fn two_bytes(n: usize) -> Vec<u8> {
    vec![(n % 256) as u8, (n / 256) as u8]
}

/// The count of one block and the block: a parent alone, and with another name as its child.
const ONE_USED: &[u8] = &[1, 0, 0, 0, 0];
const TWO_USED: &[u8] = &[1, 0, 0, 0, 1, 1];

/// Books with the refusal that the papers give them, 0 for none.
pub type Books = Vec<(Vec<u8>, u8)>;

/// Books of one part after the other, each as bytes.
fn joined(books: &[(&[&[u8]], u8)]) -> Books {
    books.iter().map(|(parts, number)| (parts.concat(), *number)).collect()
}

/// Books on both sides of each limit of the names.
fn name_books() -> Books {
    let many = |n: usize| -> Vec<u8> {
        let name = |i: usize| named(&[b'A' + (i / 26) as u8, b'a' + (i % 26) as u8]);
        let block = [&[0, 0, n as u8][..], &every_name(n).word].concat();
        [two_bytes(n), (0..n).flat_map(name).collect(), two_bytes(1), block].concat()
    };
    let mut books = joined(&[
        (&[], 2),
        (&[&[1]], 2),
        (&[&[0, 0]], 3),
        (&[&[65, 0]], 3),
        (&[&[0, 1]], 3),
        (&[&[1, 1]], 3),
        (&[&[255, 255]], 3),
        (&[&[1, 0]], 2),
        (&[&[1, 0, 0]], 4),
        (&[&[1, 0, 33]], 4),
        (&[&[1, 0, 255]], 4),
        (&[&[1, 0, 32]], 2),
        (&[&[1, 0], &named(&[b'a'; 32]), ONE_USED], 0),
        (&[&[1, 0], &named(&[b'a'; 33]), ONE_USED], 4),
        (&[&[1, 0, 2, b'9']], 2),
        (&[&[1, 0, 2, b'a']], 2),
        (&[&[2, 0], &named(b"ab"), &named(b"ab"), TWO_USED], 5),
        (&[&[2, 0], &named(b"b"), &named(b"a"), TWO_USED], 5),
        (&[&[2, 0], &named(b"ab"), &named(b"a"), TWO_USED], 5),
        (&[&[2, 0], &named(b"a"), &named(b"ab"), TWO_USED], 0),
        (&[&[2, 0], &named(b"B"), &named(b"a"), TWO_USED], 0),
        (&[&[2, 0], &named(b"a-"), &named(b"a."), TWO_USED], 0),
        (&[&[2, 0], &named(b"b"), &named(b"a!"), TWO_USED], 4),
        (&[&[0; 60_001]], 1),
        (&[&[255; 100_000]], 1),
    ]);
    books.extend([(many(1), 0), (many(64), 0), (many(65), 3)]);
    books
}

/// Books on both sides of each limit of the blocks.
fn block_books() -> Books {
    let a = &[two_bytes(1), named(b"a")].concat()[..];
    let ab = &[two_bytes(2), named(b"a"), named(b"b")].concat()[..];
    joined(&[
        (&[a], 2),
        (&[a, &[0]], 2),
        (&[a, &[0, 0]], 17),
        (&[a, &[0, 0, 0]], 7),
        (&[a, &[255, 255]], 2),
        (&[a, &[255, 255, 1, 0]], 6),
        (&[a, &[1, 0]], 2),
        (&[a, &[1, 0, 0]], 2),
        (&[a, &[1, 0, 0, 0]], 2),
        (&[a, &[1, 0, 0, 0, 0]], 0),
        (&[a, &[1, 0, 0, 0, 0, 0]], 7),
        (&[a, &[1, 0, 0, 0, 255], &[0; 255]], 0),
        (&[a, &[1, 0, 0, 0, 255], &[0; 254]], 2),
        (&[ab, &[1, 0, 1, 0, 1, 0]], 0),
        (&[ab, &[1, 0, 2, 0, 1, 0]], 6),
        (&[ab, &[1, 0, 2]], 6),
        (&[ab, &[1, 0, 0, 0, 1, 1]], 0),
        (&[ab, &[1, 0, 0, 0, 1, 2]], 6),
        (&[ab, &[1, 0, 0, 0, 2, 9]], 2),
        (&[ab, &[1, 0, 0, 0, 1, 2, 0]], 6),
        (&[ab, &[2, 0, 0, 0, 1, 1, 1, 0, 1, 9]], 6),
        // The text byte comes behind the parent and before the child count, in each block.
        (&[a, &[1, 0, 0, 1]], 2),
        (&[a, &[1, 0, 0, 2]], 16),
        (&[a, &[1, 0, 0, 2, 1]], 16),
        (&[a, &[1, 0, 0, 2, 1, 1]], 16),
        (&[a, &[1, 0, 0, 2, 0, 0]], 16),
        (&[a, &[1, 0, 1, 2]], 6),
        (&[a, &[1, 0, 0, 1, 1]], 2),
        (&[a, &[1, 0, 0, 1, 1, 1]], 6),
        (&[a, &[1, 0, 0, 1, 0, 2]], 7),
        (&[ab, &[2, 0, 0, 1, 0, 1, 2]], 16),
        (&[ab, &[2, 0, 0, 1, 1, 1, 1, 255, 0]], 16),
        (&[ab, &[2, 0, 0, 0, 1, 2, 1, 2, 0]], 6),
        (&[ab, &[2, 0, 0, 2, 0, 2, 0, 0]], 16),
        (&[ab, &[2, 0, 0, 0, 1, 1, 0, 1, 0]], 0),
    ])
}

/// Every byte as a name's first and second byte, and as a text byte.
fn byte_books() -> Books {
    let mut books = Books::new();
    for b in 0..=255u8 {
        let number = |good: bool, bad: u8| if good { 0 } else { bad };
        books.extend(joined(&[
            (&[&[1, 0], &named(&[b]), ONE_USED], number(START.contains(&b), 4)),
            (&[&[1, 0], &named(&[b'a', b]), ONE_USED], number(LATER.contains(&b), 4)),
            (&[&[1, 0], &named(b"a"), &[1, 0, 0, b, 0]], number(b <= 1, 16)),
        ]));
    }
    books
}

/// A book of 60,000 bytes and one of one byte more: 6 bytes, then 232 blocks of 258 and one of what is left.
fn longest_books() -> Books {
    [(60_000, 0), (60_001, 1)]
        .map(|(size, number)| {
            let block = [&[0, 0, 255][..], &[0; 255]].concat();
            let mut book = [two_bytes(1), named(b"a"), two_bytes(233), block.repeat(232)].concat();
            let rest = size - book.len() - 3;
            book.extend([0, 0, rest as u8]);
            book.extend(vec![0; rest]);
            assert_eq!(book.len(), size);
            (book, number)
        })
        .into()
}

/// Books on both sides of each limit.
fn limit_books() -> Books {
    [name_books(), block_books(), longest_books()].concat()
}

/// A call that is refused with this number, and what is then due of it.
pub fn refused(call: Call, number: u8) -> Due {
    let due = match &call {
        Call::ModelOfParent { .. } => Answer::Model(number, EMPTY),
        Call::WriteFromSample { buffer, .. }
        | Call::WriteDeclaration { buffer, .. }
        | Call::WriteDtd { buffer, .. }
        | Call::FillModels { buffer, .. } => Answer::Written(number, 0, buffer.clone()),
        Call::AcceptsDocument { .. } => Answer::Verdict(number, false),
        Call::Dtd { .. } => Answer::Printed(format!("refused {number}\n").into_bytes()),
        _ => Answer::Read(number, 0, EMPTY),
    };
    (call, Some(due))
}

/// Every call that takes a book on this one, and the program where it is told so. It has this refusal, 0 for none.
pub fn calls_of_limit(c: &mut Chance, (book, number): (Vec<u8>, u8), to_program: bool) -> Vec<Due> {
    assert_eq!(second::book::read(&book).err().unwrap_or(0), number, "{}", book.escape_ascii());
    let mut calls = calls_of_book(c, &book, 0);
    if to_program {
        calls.push(Call::Dtd { book });
    }
    calls.into_iter().map(|call| if number == 0 { (call, None) } else { refused(call, number) }).collect()
}

fn limits(c: &mut Chance, _: u64) -> Vec<Due> {
    let at_limits = limit_books().into_iter().map(|one| (one, true));
    // Of the books for each byte one in eight is tried through the program too.
    let of_bytes = byte_books().into_iter().enumerate().map(|(i, one)| (one, i % 8 == 0));
    let books = at_limits.chain(of_bytes);
    let mut calls: Vec<Due> = books.flat_map(|(book, to_program)| calls_of_limit(c, book, to_program)).collect();
    calls.extend(forms::white_space());
    calls.extend(forms::joined());
    calls
}

/// A word in letters over the names a to z; `-` is the empty word.
pub fn word(letters: &str) -> Vec<u8> {
    letters.bytes().filter(|&b| b != b'-').map(|b| b - b'a').collect()
}

/// Factors, each its names in letters and its mode.
pub type Factors = &'static [(&'static str, u8)];

/// The record with these factors, their names in letters.
pub fn record(factors: &[(&str, u8)]) -> Record {
    Record::of(&factors.iter().map(|(names, mode)| (word(names), *mode)).collect::<Vec<_>>())
}

/// The names a to z.
fn letters() -> Vec<Vec<u8>> {
    (b'a'..=b'z').map(|b| vec![b]).collect()
}

/// A book with the names a to z.
pub fn letters_book() -> Vec<u8> {
    bytes_of(&letters(), &[every_name(26)])
}

/// The longest declaration and the longest DTD, which has that declaration for each of 64 parents, each with a buffer one byte
/// short of it too; the longest output of the program; and the longest declaration with text.
fn longest() -> Vec<Due> {
    let names: Vec<String> = (0..64).map(|i| format!("n{i:031}")).collect();
    let pairs: Vec<String> = names.chunks(2).map(|pair| format!("({})*", pair.join("|"))).collect();
    let texts: Vec<String> = names.iter().map(|parent| format!("<!ELEMENT {parent} ({})>", pairs.join(","))).collect();
    let printed: String = texts.iter().map(|text| format!("{text}\n")).collect();
    assert_eq!((texts[0].len(), printed.len()), (2253, dtds::LONGEST));

    // A word for each pair makes it a loop group of its own.
    let words = |parent| (0..64).step_by(2).map(move |i| Block { parent, text: 0, word: vec![i, i + 1, i] });
    let blocks: Vec<Block> = (0..64).flat_map(words).collect();
    let names: Vec<Vec<u8>> = names.into_iter().map(String::into_bytes).collect();
    let record = Record::of(&(0..32).map(|i| (vec![2 * i, 2 * i + 1], 3)).collect::<Vec<_>>());
    let book = bytes_of(&names, &blocks);
    let write = |size| Call::WriteDeclaration { book: book.clone(), parent: 0, record, buffer: vec![1; size] };
    let write_dtd = |size| Call::WriteDtd { book: book.clone(), buffer: vec![1; size] };
    let short = dtds::LONGEST - 1;
    let mut calls = longest_with_text(&names);
    calls.extend([
        (write(2252), Some(Answer::Written(12, 0, vec![1; 2252]))),
        (write(2253), Some(Answer::Written(0, 2253, texts[0].clone().into_bytes()))),
        (write_dtd(short), Some(Answer::Written(12, 0, vec![1; short]))),
        (write_dtd(dtds::LONGEST), Some(Answer::Written(0, dtds::LONGEST, printed.clone().into_bytes()))),
        (Call::Dtd { book: book.clone() }, Some(Answer::Printed(printed.into_bytes()))),
    ]);
    calls
}

/// The longest declaration with text, which has all of these 64 names, written and read.
fn longest_with_text(names: &[Vec<u8>]) -> Vec<Due> {
    let text = [b"<!ELEMENT ", &names[0][..], b" (#PCDATA|", &names.join(&b'|'), b")*>"].concat();
    assert_eq!(text.len(), 2166);
    let (book, parent, record) = (bytes_of(names, &[every_name(64)]), 0, Record::with_text((0..64).collect()));
    let write = |(buffer, due)| (Call::WriteDeclaration { book: book.clone(), parent, record, buffer }, Some(due));
    let mut calls: Vec<Due> = exact_short_longer(&text).into_iter().map(write).collect();
    calls.push((Call::ReadDeclaration { book, text }, Some(Answer::Read(0, parent, record))));
    calls
}

/// Buffers for a text with what is due of them: exact, one byte short, and with bytes behind the text.
fn exact_short_longer(text: &[u8]) -> [(Vec<u8>, Answer); 3] {
    [text.len(), text.len() - 1, text.len() + 9].map(|size| {
        let buffer = vec![0xa5; size];
        let due = match buffer.get(text.len()..) {
            Some(behind) => Answer::Written(0, text.len(), [text, behind].concat()),
            None => Answer::Written(12, 0, buffer.clone()),
        };
        (buffer, due)
    })
}

/// Samples with their models and records, the words in letters: those of paper 01, and with `#` before a word with text those of
/// request U5 of paper 02.
fn samples() -> Vec<(&'static str, &'static str, Record)> {
    let text = |names: &str| Record::with_text(word(names));
    vec![
        ("-", "EMPTY", EMPTY),
        ("a", "(a)", record(&[("a", 0)])),
        ("- a", "(a?)", record(&[("a", 1)])),
        ("aa", "(a+)", record(&[("a", 2)])),
        ("- aa", "(a*)", record(&[("a", 3)])),
        ("ab b", "(a?,b)", record(&[("a", 1), ("b", 0)])),
        ("ab c", "((a|c),b?)", record(&[("ac", 0), ("b", 1)])),
        ("aba", "((a|b)+)", record(&[("ab", 2)])),
        ("aa bb", "(a*,b*)", record(&[("a", 3), ("b", 3)])),
        ("kkb a", "(a?,k*,b?)", record(&[("a", 1), ("k", 3), ("b", 1)])),
        ("ac bbc", "(a?,b*,c)", record(&[("a", 1), ("b", 3), ("c", 0)])),
        ("abc ade abe", "(a,(b|d),(c|e))", record(&[("a", 0), ("bd", 0), ("ce", 0)])),
        ("#-", "(#PCDATA)", text("")),
        ("#- -", "(#PCDATA)", text("")),
        ("- - #-", "(#PCDATA)", text("")),
        ("#a", "(#PCDATA|a)*", text("a")),
        ("#- a", "(#PCDATA|a)*", text("a")),
        ("b #-", "(#PCDATA|b)*", text("b")),
        ("#zb", "(#PCDATA|b|z)*", text("bz")),
        ("cba #d", "(#PCDATA|a|b|c|d)*", text("abcd")),
    ]
}

/// What is due of a sample, its model and its record.
fn calls_of_sample(sample: &str, model: &str, record: Record) -> Vec<Due> {
    let mut calls: Vec<Due> = Vec::new();
    let (parent, names) = (25, 26);
    let words: Vec<(u8, Vec<u8>)> =
        sample.split(' ').map(|w| (u8::from(w.starts_with('#')), word(w.trim_start_matches('#')))).collect();
    let block = |(text, word): &(u8, Vec<u8>)| Block { parent: 25, text: *text, word: word.clone() };
    // The first block uses all names but that of the parent.
    let others = Block { parent: 24, text: 0, word: (0..24).collect() };
    let book = bytes_of(&letters(), &[others].into_iter().chain(words.iter().map(block)).collect::<Vec<_>>());
    let text = format!("<!ELEMENT z {model}>").into_bytes();
    calls.push((Call::ModelOfParent { book: book.clone(), parent }, Some(Answer::Model(0, record))));
    let lines = [b"<!ELEMENT y (a,b,c,d,e,f,g,h,i,j,k,l,m,n,o,p,q,r,s,t,u,v,w,x)>\n", &text[..], b"\n"].concat();
    for (buffer, due) in exact_short_longer(&lines) {
        calls.push((Call::WriteDtd { book: book.clone(), buffer }, Some(due)));
    }
    calls.push((Call::Dtd { book: book.clone() }, Some(Answer::Printed(lines))));
    for (_, word) in words {
        calls.push((Call::AcceptsWord { names, record, word }, Some(Answer::Verdict(0, true))));
    }
    for (buffer, due) in exact_short_longer(&text) {
        let call = Call::WriteFromSample { book: book.clone(), parent, buffer: buffer.clone() };
        calls.push((call, Some(due.clone())));
        calls.push((Call::WriteDeclaration { book: book.clone(), parent, record, buffer }, Some(due)));
    }
    calls.push((Call::ReadDeclaration { book, text }, Some(Answer::Read(0, parent, record))));
    calls
}

/// What stands under the samples of paper 01, and words of records with text.
fn words() -> Vec<Due> {
    let chain = record(&[("a", 1), ("k", 3), ("b", 1)]);
    let star = record(&[("a", 3)]);
    let (text, mixed) = (Record::with_text(vec![]), Record::with_text(word("ac")));
    let mut calls = Vec::new();
    let mut add = |names: usize, record: Record, word: Vec<u8>, number: u8, yes: bool| {
        calls.push((Call::AcceptsWord { names, record, word }, Some(Answer::Verdict(number, yes))));
    };
    for (w, yes) in [("-", true), ("akkb", true), ("ka", false)] {
        add(26, chain, word(w), 0, yes);
    }
    add(1, star, vec![0; 255], 0, true);
    add(1, star, vec![0; 256], 11, false);
    for (names, number, yes) in [(0, 3, false), (1, 0, true), (64, 0, true), (65, 3, false)] {
        add(names, EMPTY, vec![], number, yes);
    }
    for (w, of_text, of_mixed) in [("-", true, true), ("a", false, true), ("cac", false, true), ("ab", false, false)] {
        add(26, text, word(w), 0, of_text);
        add(26, mixed, word(w), 0, of_mixed);
    }
    for bad in bad_texts() {
        add(26, bad, vec![], 10, false);
        add(26, bad, vec![0; 256], 10, false);
    }
    calls
}

/// Records that are chains over the names a and b, and whose text byte does not fit.
pub fn bad_texts() -> Vec<Record> {
    let with = |text: u8, factors: &[(&str, u8)]| Record { text, ..record(factors) };
    let mut bad = vec![with(1, &[("a", 3), ("b", 3)]), with(2, &[]), with(255, &[]), with(2, &[("ab", 3)]), with(2, &[("a", 0)])];
    bad.extend((0..3).map(|mode| with(1, &[("ab", mode)])));
    bad
}

/// The three samples of one feed; a block with both contribution and leaver is turned away.
fn feed() -> Vec<Due> {
    let feed: Vec<Vec<u8>> =
        ["contribution", "entry", "leaver", "member", "reason", "total"].iter().map(|n| n.as_bytes().to_vec()).collect();
    let block = |word: &[u8; 3]| Block { parent: 1, text: 0, word: word.to_vec() };
    let book = bytes_of(&feed, &[[3, 0, 5], [3, 2, 4], [3, 0, 4]].each_ref().map(block));
    let model = Record::of(&[(vec![3], 0), (vec![0, 2], 0), (vec![4, 5], 0)]);
    let text = b"<!ELEMENT entry (member,(contribution|leaver),(reason|total))>";
    let line = [&text[..], b"\n"].concat();
    let write = |(buffer, due)| (Call::WriteDtd { book: book.clone(), buffer }, Some(due));
    let mut calls: Vec<Due> = exact_short_longer(&line).into_iter().map(write).collect();
    calls.push((Call::Dtd { book: book.clone() }, Some(Answer::Printed(line))));
    // Without blocks no name is used.
    calls.push((Call::Dtd { book: bytes_of(&feed, &[]) }, Some(Answer::Printed(b"refused 17\n".to_vec()))));
    for (parent, due) in [(1, Answer::Model(0, model)), (0, Answer::Model(9, EMPTY)), (6, Answer::Model(8, EMPTY))] {
        calls.push((Call::ModelOfParent { book: book.clone(), parent }, Some(due)));
    }
    calls.push((Call::AcceptsWord { names: 6, record: model, word: vec![3, 0, 2, 4] }, Some(Answer::Verdict(0, false))));
    calls
}

/// What the papers write out: the samples, what stands under them, the example of paper 01, and texts of declarations. Then pairs
/// of records for request U4 of paper 02.
fn paper(_: &mut Chance, _: u64) -> Vec<Due> {
    let of_samples = samples().into_iter().flat_map(|(sample, model, record)| calls_of_sample(sample, model, record));
    of_samples.chain(words()).chain(feed()).chain(longest()).chain(forms::texts()).chain(pairs::written_down()).collect()
}
