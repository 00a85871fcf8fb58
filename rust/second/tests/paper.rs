//! Every line under the samples of paper 01, its traps, its example and its limits; the texts of request U1, the whole
//! DTD of request U2, the two records of request U4, the fields with text of request U5, the unused names of request U6
//! and the whole documents of request U7 of paper 02.

use second::book::{self, bytes_of, Block};
use second::calls::*;
use second::declaration::written;
use second::models::{row_of, ROW};
use second::record::{Record, EMPTY, NONE};

/// Words in letters: a is 0. `-` is the empty word.
fn word(letters: &str) -> Vec<u8> {
    letters.bytes().filter(|&b| b != b'-').map(|b| b - b'a').collect()
}

/// A block of this parent with a word in letters; `#` before it is text.
fn block(parent: u8, letters: &str) -> Block {
    Block { parent, text: u8::from(letters.starts_with('#')), word: word(letters.trim_start_matches('#')) }
}

/// A block that has each of n names as a child.
fn every_name(n: usize) -> Block {
    Block { parent: 0, text: 0, word: (0..n as u8).collect() }
}

/// So many names, rising.
fn numbered(n: usize) -> Vec<Vec<u8>> {
    (0..n).map(|i| format!("n{i:02}").into_bytes()).collect()
}

/// A book of the names a to l and a parent `p`, number 12, with these words. Its first block uses all other names.
fn letters(sample: &str) -> Vec<u8> {
    let names: Vec<Vec<u8>> = (b'a'..=b'l').chain([b'p']).map(|b| vec![b]).collect();
    let mut blocks = vec![block(11, "abcdefghijk")];
    blocks.extend(sample.split(", ").map(|w| block(12, w)));
    bytes_of(&names, &blocks)
}

fn model(sample: &str) -> Record {
    model_of_parent(&letters(sample), 12).unwrap()
}

/// The content model that the program prints for a sample.
fn printed(sample: &str) -> String {
    let lines = String::from_utf8(dtd(&letters(sample))).unwrap();
    let before = "<!ELEMENT l (a,b,c,d,e,f,g,h,i,j,k)>\n<!ELEMENT p ";
    lines.strip_prefix(before).unwrap().strip_suffix(">\n").unwrap().to_string()
}

#[test]
fn samples_with_their_models() {
    for (sample, expected) in [
        ("-", "EMPTY"),
        ("a", "(a)"),
        ("-, a", "(a?)"),
        ("aa", "(a+)"),
        ("-, aa", "(a*)"),
        ("ab, b", "(a?,b)"),
        ("ab, c", "((a|c),b?)"),
        ("aba", "((a|b)+)"),
        ("aa, bb", "(a*,b*)"),
        ("kkb, a", "(a?,k*,b?)"),
        ("ac, bbc", "(a?,b*,c)"),
        ("abc, ade, abe", "(a,(b|d),(c|e))"),
    ] {
        assert_eq!(printed(sample), expected, "sample {sample}");
        // In any order and however often.
        let mut back: Vec<&str> = sample.split(", ").collect();
        back.reverse();
        assert_eq!(printed(&back.join(", ")), expected);
        assert_eq!(printed(&format!("{sample}, {sample}")), expected);
        // The declaration reads back as the same parent and model.
        let text = format!("<!ELEMENT p {expected}>");
        assert_eq!(read_declaration(&letters(sample), text.as_bytes()), Ok((12, model(sample))));
        for w in sample.split(", ") {
            assert_eq!(accepts_word(13, &model(sample), &word(w)), Ok(true), "sample {sample}, word {w}");
        }
    }
}

#[test]
fn lines_under_the_samples() {
    let m = model("kkb, a");
    assert_eq!(accepts_word(13, &m, &word("-")), Ok(true));
    assert_eq!(accepts_word(13, &m, &word("akkb")), Ok(true));
    assert_eq!(accepts_word(13, &m, &word("ka")), Ok(false));
    // N = 64 passes, 65 is 3.
    let named = |n: usize| bytes_of(&numbered(n), &[every_name(n)]);
    assert!(book::read(&named(64)).is_ok());
    assert_eq!(book::read(&named(65)).err(), Some(3));
    assert_eq!(accepts_word(64, &EMPTY, &[]), Ok(true));
    assert_eq!(accepts_word(65, &EMPTY, &[]), Err(3));
    assert_eq!(accepts_word(0, &EMPTY, &[]), Err(3));
    // A 32-byte name passes, 33 is 4.
    assert!(book::read(&bytes_of(&[vec![b'a'; 32]], &[every_name(1)])).is_ok());
    assert_eq!(book::read(&bytes_of(&[vec![b'a'; 33]], &[every_name(1)])).err(), Some(4));
    // A 255-name word passes, 256 is 11.
    let star = Record::of(&[(vec![0], 3)]);
    assert_eq!(accepts_word(1, &star, &[0; 255]), Ok(true));
    assert_eq!(accepts_word(1, &star, &[0; 256]), Err(11));
    // A buffer one byte short is 12.
    let text = b"<!ELEMENT p (a?,k*,b?)>";
    let bytes = letters("kkb, a");
    for size in 0..40 {
        let mut buffer = vec![7u8; size];
        let answer = write_from_sample(&bytes, 12, &mut buffer);
        if size < text.len() {
            assert_eq!(answer, Err(12));
            assert!(buffer.iter().all(|&b| b == 7));
        } else {
            assert_eq!(answer, Ok(text.len()));
            assert_eq!(&buffer[..text.len()], text);
            assert!(buffer[text.len()..].iter().all(|&b| b == 7));
        }
    }
}

#[test]
fn traps() {
    assert_ne!(printed("kkb, a"), "(k*,a?,b?)");
    let narrower = Record::of(&[(word("k"), 3), (word("ab"), 0)]);
    for w in ["kkb", "a"] {
        assert_eq!(accepts_word(13, &narrower, &word(w)), Ok(true));
    }
    let wider = Record::of(&[(word("k"), 3), (word("a"), 1), (word("b"), 1)]);
    assert_eq!(accepts_word(13, &wider, &word("ab")), Ok(true));
    assert_eq!(accepts_word(13, &narrower, &word("ab")), Ok(false));
    assert_eq!(accepts_word(13, &Record::of(&[(word("ab"), 0)]), &word("ab")), Ok(false));
}

#[test]
fn the_example() {
    let names: Vec<Vec<u8>> =
        ["contribution", "entry", "leaver", "member", "reason", "total"].iter().map(|n| n.as_bytes().to_vec()).collect();
    let blocks: Vec<Block> =
        [[3u8, 0, 5], [3, 2, 4], [3, 0, 4]].iter().map(|w| Block { parent: 1, text: 0, word: w.to_vec() }).collect();
    let bytes = bytes_of(&names, &blocks);
    assert_eq!(dtd(&bytes), b"<!ELEMENT entry (member,(contribution|leaver),(reason|total))>\n");
    assert_eq!(dtd(&bytes_of(&names, &[])), b"refused 17\n");
    assert_eq!(dtd(&bytes[..bytes.len() - 1]), b"refused 2\n");
    assert_eq!(model_of_parent(&bytes, 6), Err(8));
    assert_eq!(model_of_parent(&bytes, 256 + 1), Err(8));
    assert_eq!(model_of_parent(&bytes, 0), Err(9));
    let m = model_of_parent(&bytes, 1).unwrap();
    let both = [3u8, 0, 2, 4];
    assert_eq!(accepts_word(6, &m, &both), Ok(false));
}

#[test]
fn the_longest_declaration() {
    let names: Vec<Vec<u8>> = (0..64).map(|i| format!("n{i:031}").into_bytes()).collect();
    let bytes = bytes_of(&names, &[every_name(64)]);
    // Half of the names in pairs with a mark each, or each name a factor with a mark: the longest of all chains.
    let mut longest = 0;
    for pairs in 0..=32 {
        let mut factors: Vec<(Vec<u8>, u8)> = (0..pairs).map(|i| (vec![2 * i, 2 * i + 1], 1)).collect();
        factors.extend((2 * pairs..64).map(|i| (vec![i], 3)));
        let mut buffer = [0u8; 4096];
        longest = longest.max(write_declaration(&bytes, 0, &Record::of(&factors), &mut buffer).unwrap());
    }
    assert_eq!(longest, 2253);
    // With text: all names in one group.
    let text = written(&names, 0, &Record::with_text((0..64).collect()));
    assert_eq!(text.len(), 2166);
    assert_eq!(read_declaration(&bytes, &text), Ok((0, Record::with_text((0..64).collect()))));
}

/// What the call that writes the whole DTD does with a buffer of every length up to some bytes more than the text has.
fn writes_dtd(book: &[u8], text: &[u8]) {
    for size in 0..text.len() + 5 {
        let mut buffer = vec![7u8; size];
        let answer = write_dtd(book, &mut buffer);
        if size < text.len() {
            assert_eq!((answer, buffer), (Err(12), vec![7; size]));
        } else {
            assert_eq!((answer, buffer), (Ok(text.len()), [text, &vec![7; size - text.len()]].concat()));
        }
    }
}

#[test]
fn the_whole_dtd() {
    let names: Vec<Vec<u8>> = (b'a'..=b'f').map(|b| vec![b]).collect();
    let block = |parent: &str, children: &str| block(word(parent)[0], children);
    let blocks = [
        // Every name is used from here on; f is no parent.
        block("d", "abcef"),
        block("e", "a"),
        block("b", "-"),
        block("e", "ab"),
        block("a", "cc"),
        block("a", "-"),
        block("b", "#-"),
        block("a", "#e"),
        block("c", "b"),
    ];
    // After each block, what the blocks so far show, `d` for its line. Lines are in the order of the parents, whatever
    // that of the blocks is.
    let printed = [
        "d",
        "d<!ELEMENT e (a)>\n",
        "<!ELEMENT b EMPTY>\nd<!ELEMENT e (a)>\n",
        "<!ELEMENT b EMPTY>\nd<!ELEMENT e (a,b?)>\n",
        "<!ELEMENT a (c+)>\n<!ELEMENT b EMPTY>\nd<!ELEMENT e (a,b?)>\n",
        "<!ELEMENT a (c*)>\n<!ELEMENT b EMPTY>\nd<!ELEMENT e (a,b?)>\n",
        "<!ELEMENT a (c*)>\n<!ELEMENT b (#PCDATA)>\nd<!ELEMENT e (a,b?)>\n",
        "<!ELEMENT a (#PCDATA|c|e)*>\n<!ELEMENT b (#PCDATA)>\nd<!ELEMENT e (a,b?)>\n",
        "<!ELEMENT a (#PCDATA|c|e)*>\n<!ELEMENT b (#PCDATA)>\n<!ELEMENT c (b)>\nd<!ELEMENT e (a,b?)>\n",
    ];
    assert_eq!(printed.len(), blocks.len());
    for (last, text) in printed.iter().enumerate() {
        let text = text.replace('d', "<!ELEMENT d (a,b,c,e,f)>\n");
        let book = bytes_of(&names, &blocks[..=last]);
        assert_eq!(dtd(&book), text.as_bytes());
        writes_dtd(&book, text.as_bytes());
    }
}

#[test]
fn no_dtd_of_a_refused_book() {
    let good = letters("ab, b");
    let cut = good[..good.len() - 1].to_vec();
    let mut far = good.clone();
    *far.last_mut().unwrap() = 13;
    let text = [&good[..good.len() - 3], &[2, 1, 1]].concat();
    for (bytes, number) in
        [(cut, 2), (far, 6), (text, 16), ([&good[..], &[0]].concat(), 7), (vec![0, 0], 3), (vec![0; 60_001], 1)]
    {
        for size in [0, 99] {
            let mut buffer = vec![7u8; size];
            assert_eq!(write_dtd(&bytes, &mut buffer), Err(number));
            assert_eq!(buffer, vec![7; size]);
        }
    }
}

#[test]
fn the_longest_dtd() {
    let names: Vec<Vec<u8>> = (0..64).map(|i| format!("n{i:031}").into_bytes()).collect();
    // A word for each pair makes it a loop group of its own.
    let words = |parent| (0..64).step_by(2).map(move |x| Block { parent, text: 0, word: vec![x, x + 1, x] });
    let blocks: Vec<Block> = (0..64).flat_map(words).collect();
    let bytes = bytes_of(&names, &blocks);
    let mut buffer = vec![7u8; 144_256];
    assert_eq!(write_dtd(&bytes, &mut buffer[1..]), Err(12));
    assert!(buffer.iter().all(|&b| b == 7));
    assert_eq!(write_dtd(&bytes, &mut buffer), Ok(144_256));
    assert_eq!(buffer, dtd(&bytes));
    assert!(buffer.chunks(2254).all(|line| line.starts_with(b"<!ELEMENT ") && line.ends_with(b">\n")));
}

#[test]
fn book_refusals() {
    let name = |text: &[u8]| [&[text.len() as u8], text].concat();
    let cases: Vec<(Vec<u8>, u8)> = vec![
        (vec![], 2),
        (vec![0], 2),
        (vec![0, 0], 3),
        (vec![65, 0], 3),
        (vec![1, 1], 3),
        (vec![1, 0], 2),
        (vec![1, 0, 0], 4),
        (vec![1, 0, 33], 4),
        (vec![1, 0, 2, b'9'], 2),
        (vec![1, 0, 1, b'9'], 4),
        ([&[2, 0][..], &name(b"b"), &name(b"a!")].concat(), 4),
        ([&[2, 0][..], &name(b"b"), &name(b"a")].concat(), 5),
        ([&[2, 0][..], &name(b"ab"), &name(b"a")].concat(), 5),
        ([&[2, 0][..], &name(b"a"), &name(b"a")].concat(), 5),
        ([&[1, 0][..], &name(b"a"), &[1, 0]].concat(), 2),
        ([&[1, 0][..], &name(b"a"), &[1, 0, 1]].concat(), 6),
        ([&[1, 0][..], &name(b"a"), &[1, 0, 1, 2]].concat(), 6),
        ([&[1, 0][..], &name(b"a"), &[1, 0, 0]].concat(), 2),
        ([&[1, 0][..], &name(b"a"), &[1, 0, 0, 2]].concat(), 16),
        ([&[1, 0][..], &name(b"a"), &[1, 0, 0, 255, 9]].concat(), 16),
        ([&[1, 0][..], &name(b"a"), &[1, 0, 0, 2, 1, 1]].concat(), 16),
        ([&[1, 0][..], &name(b"a"), &[1, 0, 0, 2, 0, 0]].concat(), 16),
        ([&[1, 0][..], &name(b"a"), &[1, 0, 0, 0]].concat(), 2),
        ([&[1, 0][..], &name(b"a"), &[1, 0, 0, 1]].concat(), 2),
        ([&[1, 0][..], &name(b"a"), &[1, 0, 0, 1, 2, 9]].concat(), 2),
        ([&[1, 0][..], &name(b"a"), &[1, 0, 0, 1, 2, 0, 1]].concat(), 6),
        ([&[1, 0][..], &name(b"a"), &[1, 0, 0, 1, 0, 0]].concat(), 7),
        ([&[1, 0][..], &name(b"a"), &[2, 0, 0, 1, 1, 1, 0, 2]].concat(), 6),
        ([&[1, 0][..], &name(b"a"), &[2, 0, 0, 2, 0, 1]].concat(), 16),
        ([&[1, 0][..], &name(b"a"), &[0, 0, 0]].concat(), 7),
        (vec![0; 60_001], 1),
    ];
    for (bytes, number) in cases {
        assert_eq!(book::read(&bytes).err(), Some(number), "{:?}", &bytes[..bytes.len().min(20)]);
    }
}

#[test]
fn records_that_are_no_chain() {
    let good = Record::of(&[(vec![0], 0), (vec![2, 3], 2)]);
    assert!(good.is_chain(4));
    let change = |f: fn(&mut Record)| {
        let mut r = good;
        f(&mut r);
        r
    };
    assert!(!good.is_chain(3));
    for bad in [
        change(|r| r.count = 1),
        change(|r| r.count = 3),
        change(|r| r.count = 65),
        change(|r| r.count = usize::MAX),
        change(|r| r.count = 256 + 2),
        change(|r| r.factor[0] = 2),
        change(|r| r.factor[0] = 254),
        change(|r| r.factor[0] = NONE),
        change(|r| r.factor[4] = 0),
        change(|r| r.factor[63] = 1),
        change(|r| r.mode[0] = 4),
        change(|r| r.mode[1] = 255),
        change(|r| r.mode[2] = 1),
        change(|r| r.mode[63] = 3),
    ] {
        assert_eq!(accepts_word(4, &bad, &[0, 2]), Err(10), "{bad:?}");
        assert_eq!(accepts_word(4, &bad, &[99; 300]), Err(10));
    }
    assert_eq!(accepts_word(4, &good, &[4]), Err(11));
    assert_eq!(accepts_word(4, &good, &[0, 3, 2, 2]), Ok(true));
    assert_eq!(accepts_word(4, &good, &[0]), Ok(false));
}

/// The record with these factors, their names in letters.
fn chain(factors: &[(&str, u8)]) -> Record {
    Record::of(&factors.iter().map(|&(names, mode)| (word(names), mode)).collect::<Vec<_>>())
}

/// The first is within the second, and the buffer is kept.
fn is_within(n: usize, first: &Record, second: &Record) {
    for size in [65, 66, 300] {
        let mut buffer = vec![7u8; size];
        assert_eq!(within(n, first, second, &mut buffer), Ok(None), "{first:?} {second:?}");
        assert_eq!(buffer, vec![7; size]);
    }
}

/// The first is not within the second. This word, one of the shortest, shows it, and the bytes past it are kept.
fn is_not_within(n: usize, first: &Record, second: &Record, word: &[u8]) {
    assert!(first.accepts(word) && !second.accepts(word), "{first:?} {second:?} {word:?}");
    for size in [65, 66, 300] {
        let mut buffer = vec![7u8; size];
        assert_eq!(within(n, first, second, &mut buffer), Ok(Some(word.len())), "{first:?} {second:?}");
        let (found, rest) = buffer.split_at(word.len());
        assert!(first.accepts(found) && !second.accepts(found), "{first:?} {second:?} {found:?}");
        assert_eq!(rest, vec![7; size - word.len()]);
    }
}

#[test]
fn one_record_within_another() {
    let ab = chain(&[("a", 0), ("b", 0)]);
    let some_ab = chain(&[("a", 1), ("b", 2)]);
    let any_ab = chain(&[("ab", 3)]);
    for (narrow, wide, word) in [(ab, some_ab, "b"), (ab, any_ab, "-"), (some_ab, any_ab, "-")] {
        is_within(2, &narrow, &wide);
        is_not_within(2, &wide, &narrow, &self::word(word));
    }
    for record in [ab, some_ab, any_ab, EMPTY] {
        is_within(64, &record, &record);
    }
}

#[test]
fn modes_within_modes() {
    // For each mode of `a` as the first and as the second, the shortest word that shows a no.
    let words: [[Option<&str>; 4]; 4] = [
        [None, None, None, None],
        [Some("-"), None, Some("-"), None],
        [Some("aa"), Some("aa"), None, None],
        [Some("-"), Some("aa"), Some("-"), None],
    ];
    for (i, row) in words.iter().enumerate() {
        for (j, shown) in row.iter().enumerate() {
            let [first, second] = [i, j].map(|mode| chain(&[("a", mode as u8)]));
            match shown {
                None => is_within(1, &first, &second),
                Some(letters) => is_not_within(1, &first, &second, &word(letters)),
            }
        }
    }
    // EMPTY accepts the empty word alone.
    for (mode, optional) in [(0, false), (1, true), (2, false), (3, true)] {
        let other = chain(&[("a", mode)]);
        is_not_within(1, &other, &EMPTY, &word("a"));
        if optional {
            is_within(1, &EMPTY, &other);
        } else {
            is_not_within(1, &EMPTY, &other, &[]);
        }
    }
}

#[test]
fn words_that_show_a_no() {
    for (first, second, shown) in [
        // A name that only the first has.
        (chain(&[("ab", 0)]), chain(&[("a", 0)]), "b"),
        (chain(&[("a", 0), ("b", 1)]), chain(&[("a", 0), ("c", 1)]), "ab"),
        // The start, the end, and two names side by side.
        (chain(&[("b", 0), ("c", 0)]), chain(&[("a", 0), ("b", 0), ("c", 0)]), "bc"),
        (chain(&[("a", 0), ("b", 0)]), chain(&[("a", 0), ("b", 0), ("c", 2)]), "ab"),
        (chain(&[("a", 0), ("c", 0)]), chain(&[("a", 0), ("b", 0), ("c", 0)]), "ac"),
        (chain(&[("a", 0), ("b", 0)]), chain(&[("b", 0), ("a", 0)]), "ab"),
        (chain(&[("a", 1), ("b", 1)]), chain(&[("ab", 1)]), "ab"),
        (chain(&[("ab", 3)]), chain(&[("a", 3), ("b", 3)]), "ba"),
        // Only where a factor between them is left out.
        (chain(&[("a", 0), ("b", 1), ("c", 0)]), chain(&[("a", 0), ("b", 0), ("c", 0)]), "ac"),
        // A factor that repeats, between two that must be there.
        (chain(&[("a", 0), ("bc", 2), ("d", 0)]), chain(&[("a", 0), ("b", 1), ("c", 3), ("d", 0)]), "abbd"),
    ] {
        is_not_within(4, &first, &second, &word(shown));
    }
}

/// 64 factors of one name, all plain but this one, which repeats.
fn one_repeats(repeated: u8) -> Record {
    Record::of(&(0..64).map(|x| (vec![63 - x], if x == repeated { 2 } else { 0 })).collect::<Vec<_>>())
}

#[test]
fn words_of_65_names() {
    let plain = Record::of(&(0..64).map(|x| (vec![63 - x], 0)).collect::<Vec<_>>());
    for repeated in 0..64 {
        let mut shown: Vec<u8> = (0..64).rev().collect();
        shown.insert(repeated as usize, 63 - repeated);
        is_not_within(64, &one_repeats(repeated), &plain, &shown);
        is_not_within(64, &one_repeats(repeated), &one_repeats((repeated + 1) % 64), &shown);
        is_within(64, &plain, &one_repeats(repeated));
    }
}

#[test]
fn refusals_of_two_records() {
    let good = chain(&[("a", 0), ("b", 1)]);
    let narrow = chain(&[("a", 0)]);
    let bad = Record { count: 3, ..good };
    let refused = |n: usize, first: &Record, second: &Record, size: usize, number: u8| {
        let mut buffer = vec![7u8; size];
        assert_eq!(within(n, first, second, &mut buffer), Err(number), "{n} {first:?} {second:?} {size}");
        assert_eq!(buffer, vec![7; size]);
    };
    for size in [0, 1, 64, 65, 66] {
        for n in [0, 65, 256 + 2, usize::MAX] {
            refused(n, &good, &good, size, 3);
            refused(n, &bad, &bad, size, 3);
        }
        refused(2, &bad, &good, size, 10);
        refused(2, &good, &bad, size, 10);
        refused(2, &bad, &bad, size, 10);
        // A chain, but not over one name.
        refused(1, &narrow, &good, size, 10);
        refused(1, &good, &narrow, size, 10);
        if size < 65 {
            // Whatever the answer would be.
            refused(2, &narrow, &good, size, 12);
            refused(2, &good, &narrow, size, 12);
        }
    }
    is_within(2, &narrow, &good);
    is_not_within(2, &good, &narrow, &word("ab"));
}

#[test]
fn texts() {
    let names: Vec<Vec<u8>> = ["ANY", "EMPTY", "a", "b", "c"].iter().map(|n| n.as_bytes().to_vec()).collect();
    let bytes = bytes_of(&names, &[every_name(5)]);
    for text in [
        "<!ELEMENT a (a)>",
        "<!ELEMENT   a   ( a )  >",
        "<!ELEMENT a (a? ,b )>",
        "<!ELEMENT a ( ( b | a )+ , c* )>",
        "<!ELEMENT a ((b|a))>",
        "<!ELEMENT a EMPTY>",
        "<!ELEMENT a EMPTY  >",
        "<!ELEMENT EMPTY EMPTY>",
        "<!ELEMENT a (EMPTY)>",
        "<!ELEMENT a (EMPTY)?>",
        "<!ELEMENT a ((EMPTY),a)>",
        "<!ELEMENT ANY (ANY)>",
    ] {
        let (parent, record) = read_declaration(&bytes, text.as_bytes()).unwrap_or_else(|n| panic!("{text}: {n}"));
        let house = written(&names, parent, &record);
        assert_eq!(read_declaration(&bytes, &house), Ok((parent, record)), "{text}");
    }
    for (text, number) in [
        ("", 13),
        ("<!ELEMENT a (a)>\n", 13),
        (" <!ELEMENT a (a)>", 13),
        ("<!ELEMENT a(a)>", 13),
        ("<!ELEMENTa (a)>", 13),
        ("<!ELEMENT a ANY>", 13),
        ("<!ELEMENT a EMPTYx>", 13),
        ("<!ELEMENT a EMPTY*>", 13),
        ("<!ELEMENT a empty>", 13),
        ("<!element a EMPTY>", 13),
        ("<!ELEMENT a (a,)>", 13),
        ("<!ELEMENT a (,a)>", 13),
        ("<!ELEMENT a (a b)>", 13),
        ("<!ELEMENT a (a ?)>", 13),
        ("<!ELEMENT a ((a|b) ?)>", 13),
        ("<!ELEMENT a (a??)>", 13),
        ("<!ELEMENT a ((a?|b),c)>", 13),
        ("<!ELEMENT a ((a|b),c)", 13),
        ("<!ELEMENT a (a)>>", 13),
        ("<!ELEMENT a (1a)>", 13),
        ("<!ELEMENT a (#)>", 13),
        ("<!ELEMENT a (PCDATA)>", 14),
        ("<!ELEMENT d (a)>", 14),
        ("<!ELEMENT a (d,d)>", 14),
        ("<!ELEMENT a (a,a,d)>", 14),
        ("<!ELEMENT a (a,a)>", 15),
        ("<!ELEMENT a ((a|a))>", 15),
        ("<!ELEMENT a ((a|b),b?)>", 15),
    ] {
        assert_eq!(read_declaration(&bytes, text.as_bytes()), Err(number), "{text}");
    }
    let long = |n: usize| format!("<!ELEMENT a ({})>", "x".repeat(n));
    assert_eq!(read_declaration(&bytes, long(32).as_bytes()), Err(14));
    assert_eq!(read_declaration(&bytes, long(33).as_bytes()), Err(13));
    assert_eq!(read_declaration(&[0, 0], b"<!ELEMENT"), Err(3));
}

/// The text is read as the parent p, number 12, with these factors.
fn reads(text: &[u8], factors: &[(&str, u8)]) {
    assert_eq!(read_declaration(&letters("-"), text), Ok((12, chain(factors))), "{}", text.escape_ascii());
}

fn refuses(text: &[u8], number: u8) {
    assert_eq!(read_declaration(&letters("-"), text), Err(number), "{}", text.escape_ascii());
}

fn declared(model: &str) -> Vec<u8> {
    format!("<!ELEMENT p {model}>").into_bytes()
}

/// The text with these bytes at the place of `_` number `at`, counted from 0, and with `elsewhere` at all others.
fn with_bytes(text: &str, at: usize, bytes: &[u8], elsewhere: &[u8]) -> Vec<u8> {
    let parts: Vec<&[u8]> = text.split('_').map(str::as_bytes).collect();
    let put = |i: usize| if i == at { bytes } else { elsewhere };
    (1..parts.len()).fold(parts[0].to_vec(), |text, i| [&text, put(i - 1), parts[i]].concat())
}

fn places(text: &str) -> std::ops::Range<usize> {
    0..text.matches('_').count()
}

const WHITE: [u8; 4] = [0x20, 0x09, 0x0D, 0x0A];

#[test]
fn white_space_that_has_to_be_there() {
    for text in ["<!ELEMENT_p_EMPTY>", "<!ELEMENT_p_(a)>"] {
        let factors: &[(&str, u8)] = if text.contains("(a)") { &[("a", 0)] } else { &[] };
        for at in places(text) {
            for byte in 0..=255u8 {
                let whole = with_bytes(text, at, &[byte], b" ");
                if WHITE.contains(&byte) {
                    reads(&whole, factors);
                } else {
                    refuses(&whole, 13);
                }
            }
            reads(&with_bytes(text, at, &WHITE, b" "), factors);
            reads(&with_bytes(text, at, b"\r\n\t\t", b"\n"), factors);
            for none in [&b""[..], b"\xC2\x85", b"\xC2\xA0", b" \x85", b"\xA0 ", b"\x0C\n", b"\t\x0B"] {
                refuses(&with_bytes(text, at, none, b" "), 13);
            }
        }
    }
}

#[test]
fn white_space_that_may_be_there() {
    let texts: [(&str, &[(&str, u8)]); 4] = [
        ("<!ELEMENT p _EMPTY_>", &[]),
        ("<!ELEMENT p _(_a_)_>", &[("a", 0)]),
        ("<!ELEMENT p _(_a_|_b_)*_>", &[("ab", 3)]),
        ("<!ELEMENT p _(_a_,_b?_,_(_c_)+_,_(_d_|_e_)_)_>", &[("a", 0), ("b", 1), ("c", 2), ("de", 0)]),
    ];
    for (text, factors) in texts {
        for at in places(text) {
            for byte in 0..=255u8 {
                let whole = with_bytes(text, at, &[byte], b"");
                if WHITE.contains(&byte) {
                    reads(&whole, factors);
                } else if !byte.is_ascii_alphanumeric() && !b"_-.?+*".contains(&byte) {
                    refuses(&whole, 13);
                }
            }
            reads(&with_bytes(text, at, &WHITE, b""), factors);
            reads(&with_bytes(text, at, b"", b"\r\n"), factors);
            for none in [b"\xC2\x85", b"\xC2\xA0"] {
                refuses(&with_bytes(text, at, none, b""), 13);
            }
        }
    }
}

#[test]
fn white_space_that_may_not_be_there() {
    for text in [
        "_<!ELEMENT p EMPTY>_",
        "<_!_ELE_MENT p (a)>",
        "<!ELEMENT p EM_PTY>",
        "<!ELEMENT p (a_?,b_+,c_*)>",
        "<!ELEMENT p ((a|b)_?,(c|d)_+,(e|f)_*)>",
        "<!ELEMENT p ((a)_?,(b)_+,(c)_*)>",
        "<!ELEMENT p (a)_?>",
        "<!ELEMENT p (a)_+>",
        "<!ELEMENT p (a)_*>",
        "<!ELEMENT p (a|b)_?>",
        "<!ELEMENT p (a|b)_+>",
        "<!ELEMENT p (a|b)_*>",
    ] {
        let without = text.replace('_', "");
        assert!(read_declaration(&letters("-"), without.as_bytes()).is_ok(), "{without}");
        for at in places(text) {
            for byte in WHITE {
                refuses(&with_bytes(text, at, &[byte], b""), 13);
            }
        }
    }
}

#[test]
fn one_group_is_the_whole_model() {
    for (mark, mode) in [("", 0), ("?", 1), ("+", 2), ("*", 3)] {
        for (group, names) in [("(a)", "a"), ("(a )", "a"), ("(a|b)", "ab"), ("( b\n|\ta )", "ab"), ("(c|a|b)", "abc")] {
            reads(&declared(&format!("{group}{mark}")), &[(names, mode)]);
            reads(&declared(&format!("{group}{mark}\r\n")), &[(names, mode)]);
            // The same group as the only factor of a list.
            reads(&declared(&format!("({group}{mark})")), &[(names, mode)]);
        }
    }
    reads(&declared("(a)?"), &[("a", 1)]);
    reads(&declared("(a )*"), &[("a", 3)]);
    reads(&declared("(a|b)*"), &[("ab", 3)]);
    reads(&declared("( a\n|\tb )+"), &[("ab", 2)]);
    reads(&declared("EMPTY\n"), &[]);
    for model in ["(a,b)+", "(a,b)?", "(a,b)*", "((a),b)*", "(a?)*", "(a*)*", "(a|b?)*", "(a)**", "(a)?*", "(a|b)++"] {
        refuses(&declared(model), 13);
    }
    for model in ["((a|b))*", "((a))?", "((a))+", "((a)*)*", "(a) *", "(a|b) *", "()", "()*", "(|a)", "(a|)", "(a||b)"] {
        refuses(&declared(model), 13);
    }
    for model in
        ["(a|b,c)", "(a,b|c)", "(a|(b))", "((a)|b)", "((a)|(b))", "(a)(b)", "(a)b", "a", "a*", "(a", "a)", "(a))", "(a|b"]
    {
        refuses(&declared(model), 13);
    }
}

#[test]
fn a_factor_of_one_name_in_its_own_brackets() {
    reads(&declared("((a))"), &[("a", 0)]);
    reads(&declared("( (a) )"), &[("a", 0)]);
    reads(&declared("((a)*)"), &[("a", 3)]);
    for (mark, mode) in [("", 0), ("?", 1), ("+", 2), ("*", 3)] {
        reads(&declared(&format!("((a){mark})")), &[("a", mode)]);
        reads(&declared(&format!("((a){mark},b)")), &[("a", mode), ("b", 0)]);
        reads(&declared(&format!("(b,( a\t){mark} )")), &[("b", 0), ("a", mode)]);
        reads(&declared(&format!("((b)?,(a){mark},(c|d)+)")), &[("b", 1), ("a", mode), ("cd", 2)]);
    }
    for model in ["((a?),b)", "((a?))", "((a)??)", "((a) ?)", "((a)\n*,b)", "(a,(b+))", "((a)b)", "((a)(b))", "((a) (b))"] {
        refuses(&declared(model), 13);
    }
    for model in
        ["(((a)))", "(((a)),b)", "(((a|b)))", "((a,b))", "((a,b),c)", "(a,(b,c))", "((),a)", "((a),)", "(,(a))", "((a)", "(a)),b"]
    {
        refuses(&declared(model), 13);
    }
}

#[test]
fn names_of_the_new_forms() {
    for model in ["(x)", "(x)*", "(a|x)", "(a|a|x)+", "((x))", "((x)?,a)", "((a),(a),x)", "(a,(aa))", "(aa|b)?"] {
        refuses(&declared(model), 14);
        refuses(format!("<!ELEMENT x {model}>").as_bytes(), 14);
    }
    for model in ["(a|a)", "(a|b|a)*", "((a),a)", "(a,(a)?)", "((a),(a))", "((a),(b|a)+)", "((a|a))"] {
        refuses(&declared(model), 15);
        refuses(format!("<!ELEMENT x {model}>").as_bytes(), 14);
    }
    // A name of the model may be the parent's.
    for (model, record) in [("(p|a)*", Record::of(&[(vec![0, 12], 3)])), ("((p),a)", Record::of(&[(vec![12], 0), (vec![0], 0)]))]
    {
        assert_eq!(read_declaration(&letters("-"), &declared(model)), Ok((12, record)));
    }
    for (size, number) in [(32, 14), (33, 13)] {
        let long = "x".repeat(size);
        for model in [format!("({long})*"), format!("(a|{long})"), format!("(({long}),a)"), format!("(( {long}\t)?)")] {
            refuses(&declared(&model), number);
        }
    }
}

#[test]
fn text_bytes_of_a_book() {
    let book = |text: u8| [&[1, 0, 1, b'a', 1, 0, 0][..], &[text, 0]].concat();
    for text in 0..=255 {
        match book::read(&book(text)) {
            Ok(found) => assert_eq!((text < 2, found.blocks), (true, vec![Block { parent: 0, text, word: vec![] }])),
            Err(number) => assert_eq!((text < 2, number), (false, 16)),
        }
    }
    refused_by_every_call(&book(2), 16);
}

/// Every call that takes a book refuses this one, whatever else it is given, and keeps its buffer. So does the program.
fn refused_by_every_call(book: &[u8], number: u8) {
    let bad = Record { text: 2, ..EMPTY };
    for size in [0, 99] {
        let mut buffer = vec![7u8; size];
        for parent in (0..66).chain([256, usize::MAX]) {
            assert_eq!(model_of_parent(book, parent), Err(number), "parent {parent}");
            assert_eq!(write_from_sample(book, parent, &mut buffer), Err(number), "parent {parent}");
            for record in [EMPTY, bad] {
                assert_eq!(write_declaration(book, parent, &record, &mut buffer), Err(number), "parent {parent}");
            }
        }
        assert_eq!(write_dtd(book, &mut buffer), Err(number));
        assert_eq!(buffer, vec![7; size]);
    }
    for text in [&b"<!ELEMENT n00 EMPTY>"[..], b"", b"<!ELEMENT n00 (x)>", b"<!ELEMENT n00 (n00,n00)>"] {
        assert_eq!(read_declaration(book, text), Err(number), "{}", text.escape_ascii());
    }
    assert_eq!(dtd(book), format!("refused {number}\n").into_bytes());
}

/// Blocks that use all of n names but this one, in three ways: as children of one parent, as parents alone, and each as
/// the child of the name before it.
fn blocks_without(n: usize, unused: usize) -> [Vec<Block>; 3] {
    let used: Vec<u8> = (0..n as u8).filter(|&name| name as usize != unused).collect();
    let last = used[used.len() - 1];
    let children = vec![Block { parent: last, text: 0, word: used.clone() }];
    let parents = used.iter().map(|&parent| Block { parent, text: 0, word: vec![] }).collect();
    let pairs = used.windows(2).map(|pair| Block { parent: pair[0], text: 1, word: vec![pair[1]] });
    [children, parents, pairs.chain([Block { parent: last, text: 0, word: vec![] }]).collect()]
}

#[test]
fn one_name_that_no_block_uses() {
    for n in [2, 3, 64] {
        for unused in 0..n {
            for blocks in blocks_without(n, unused) {
                refused_by_every_call(&bytes_of(&numbered(n), &blocks), 17);
                // As a parent alone or as a child alone it is used, wherever that block is.
                let as_parent = Block { parent: unused as u8, text: 0, word: vec![] };
                let as_child = Block { parent: blocks[0].parent, text: 0, word: vec![unused as u8] };
                for more in [as_parent, as_child] {
                    for (before, behind) in [(vec![], vec![more.clone()]), (vec![more], vec![])] {
                        let bytes = bytes_of(&numbered(n), &[before, blocks.clone(), behind].concat());
                        assert!(dtd(&bytes).starts_with(b"<!ELEMENT "), "{n} {unused}");
                    }
                }
            }
        }
    }
}

#[test]
fn a_book_without_blocks() {
    for n in 1..=64 {
        refused_by_every_call(&bytes_of(&numbered(n), &[]), 17);
    }
}

#[test]
fn names_used_in_one_way_alone() {
    for n in [1, 2, 64] {
        // Every name is a parent, and none is a child.
        let parents: Vec<Block> = (0..n as u8).map(|parent| Block { parent, text: 0, word: vec![] }).collect();
        assert!(book::read(&bytes_of(&numbered(n), &parents)).is_ok(), "{n}");
        // Every name is a child, and one is a parent: it may be any, and it may be its own child.
        for parent in 0..n as u8 {
            let mut block = Block { parent, ..every_name(n) };
            assert!(book::read(&bytes_of(&numbered(n), &[block.clone()])).is_ok(), "{n} {parent}");
            block.word.retain(|child| *child != parent);
            assert!(book::read(&bytes_of(&numbered(n), &[block])).is_ok(), "{n} {parent}");
        }
    }
}

#[test]
fn what_comes_before_17() {
    // The second of two names is not used, and the bytes behind the first block have a fault of their own.
    let front = |m: u8| vec![2, 0, 3, b'n', b'0', b'0', 3, b'n', b'0', b'1', m, 0, 0, 0, 1, 0];
    refused_by_every_call(&front(1), 17);
    refused_by_every_call(&[&front(1)[..], &[0]].concat(), 7);
    let cases: [(&[u8], u8); 7] =
        [(&[], 2), (&[0], 2), (&[0, 0], 2), (&[0, 0, 1], 2), (&[2], 6), (&[0, 0, 1, 2], 6), (&[0, 2], 16)];
    for (behind, number) in cases {
        refused_by_every_call(&[&front(2)[..], behind].concat(), number);
    }
    // No block, and a byte behind.
    refused_by_every_call(&[1, 0, 3, b'n', b'0', b'0', 0, 0, 0], 7);
    refused_by_every_call(&[&front(1)[..], &[0; 60_000]].concat(), 1);
}

#[test]
fn what_comes_behind_17() {
    // The same calls on two books with three names; the block of one uses two of them, that of the other all.
    let book = |word: &[u8]| bytes_of(&numbered(3), &[Block { parent: 0, text: 0, word: word.to_vec() }]);
    let bad = Record { count: 1, ..EMPTY };
    for (book, refused) in [(book(&[1, 2]), None), (book(&[1]), Some(17))] {
        let number = |due: u8| Some(refused.unwrap_or(due));
        assert_eq!(model_of_parent(&book, 3).err(), number(8));
        assert_eq!(model_of_parent(&book, 1).err(), number(9));
        assert_eq!(write_from_sample(&book, 3, &mut [0; 99]).err(), number(8));
        assert_eq!(write_from_sample(&book, 2, &mut [0; 99]).err(), number(9));
        assert_eq!(write_from_sample(&book, 0, &mut []).err(), number(12));
        assert_eq!(write_declaration(&book, 3, &EMPTY, &mut [0; 99]).err(), number(8));
        assert_eq!(write_declaration(&book, 2, &bad, &mut [0; 99]).err(), number(10));
        assert_eq!(write_declaration(&book, 2, &EMPTY, &mut []).err(), number(12));
        assert_eq!(write_dtd(&book, &mut []).err(), number(12));
        for (text, due) in [("", 13), ("<!ELEMENT x EMPTY>", 14), ("<!ELEMENT n02 (n01,n01)>", 15)] {
            assert_eq!(read_declaration(&book, text.as_bytes()).err(), number(due));
        }
        assert_eq!(model_of_parent(&book, 0).err(), refused);
        assert_eq!(write_dtd(&book, &mut [0; 99]).err(), refused);
        assert_eq!(read_declaration(&book, b"<!ELEMENT n02 EMPTY>").err(), refused);
    }
}

#[test]
fn samples_with_text() {
    for (sample, expected) in [
        ("#-", "(#PCDATA)"),
        ("-, #-", "(#PCDATA)"),
        ("#-, -, -", "(#PCDATA)"),
        ("#a", "(#PCDATA|a)*"),
        ("#-, a", "(#PCDATA|a)*"),
        ("a, #-", "(#PCDATA|a)*"),
        ("aa, #aa, -", "(#PCDATA|a)*"),
        ("#ba", "(#PCDATA|a|b)*"),
        // Also names of blocks without text, wherever in their words they are.
        ("#b, ca", "(#PCDATA|a|b|c)*"),
        ("abca, #c", "(#PCDATA|a|b|c)*"),
        ("kli, #-, jfkb", "(#PCDATA|b|f|i|j|k|l)*"),
    ] {
        assert_eq!(printed(sample), expected, "sample {sample}");
        let mut back: Vec<&str> = sample.split(", ").collect();
        back.reverse();
        assert_eq!(printed(&back.join(", ")), expected);
        let text = format!("<!ELEMENT p {expected}>");
        assert_eq!(read_declaration(&letters(sample), text.as_bytes()), Ok((12, model(sample))));
        for w in sample.split(", ") {
            assert_eq!(accepts_word(13, &model(sample), &block(12, w).word), Ok(true), "sample {sample}, word {w}");
        }
    }
    assert_eq!(model("#-, -"), Record { text: 1, ..EMPTY });
    assert_eq!(model("#b, da"), Record { text: 1, ..chain(&[("abd", 3)]) });
    assert_eq!(model("b, da").text, 0);
}

#[test]
fn text_of_another_parent() {
    let names: Vec<Vec<u8>> = (b'a'..=b'c').map(|b| vec![b]).collect();
    let blocks = [block(0, "#b"), block(1, "c"), block(2, "-"), block(0, "c"), block(2, "#-"), block(1, "-")];
    let lines = b"<!ELEMENT a (#PCDATA|b|c)*>\n<!ELEMENT b (c?)>\n<!ELEMENT c (#PCDATA)>\n";
    assert_eq!(dtd(&bytes_of(&names, &blocks)), lines);
}

/// Records with this text byte: no factor, one of each mode, and two.
fn with_text_byte(text: u8) -> Vec<Record> {
    let two = chain(&[("a", 3), ("b", 3)]);
    let of_mode = |mode| chain(&[("ab", mode)]);
    [EMPTY, of_mode(0), of_mode(1), of_mode(2), of_mode(3), two].map(|record| Record { text, ..record }).into()
}

#[test]
fn text_records_on_both_sides() {
    let good = Record::with_text(vec![1]);
    let book = bytes_of(&[b"a".to_vec(), b"b".to_vec()], &[every_name(2)]);
    for text in [0, 1, 2, 3, 128, 255] {
        for (shape, record) in with_text_byte(text).into_iter().enumerate() {
            let fits = text == 0 || (text == 1 && (shape == 0 || shape == 4));
            let refused = |answer: Option<u8>| assert_eq!(answer, (!fits).then_some(10), "{record:?}");
            refused(accepts_word(2, &record, &[]).err());
            refused(within(2, &record, &good, &mut [0; 65]).err());
            refused(within(2, &good, &record, &mut [0; 65]).err());
            refused(write_declaration(&book, 0, &record, &mut [0; 99]).err());
        }
    }
    // The text byte fits, but the rest is no chain.
    for bad in [Record { count: 0, ..good }, Record { mode: [3; 64], ..good }, Record { factor: [0; 64], ..good }] {
        assert_eq!(accepts_word(2, &bad, &[]), Err(10), "{bad:?}");
    }
    assert_eq!(accepts_word(2, &good, &[]), Ok(true));
    assert_eq!(accepts_word(1, &good, &[]), Err(10));
}

#[test]
fn text_is_no_part_of_a_word() {
    let (text, mixed) = (Record::with_text(vec![]), Record::with_text(vec![0, 2]));
    for (word, of_text, of_mixed) in [("-", true, true), ("a", false, true), ("cac", false, true), ("b", false, false)] {
        assert_eq!(accepts_word(3, &text, &self::word(word)), Ok(of_text));
        assert_eq!(accepts_word(3, &mixed, &self::word(word)), Ok(of_mixed));
    }
    // Two records with the same words are within each other.
    for (with, without) in [(text, EMPTY), (mixed, chain(&[("ac", 3)]))] {
        is_within(3, &with, &without);
        is_within(3, &without, &with);
        is_within(3, &with, &with);
    }
    is_within(3, &text, &mixed);
    is_not_within(3, &mixed, &text, &word("a"));
    is_within(3, &chain(&[("a", 0), ("c", 2)]), &mixed);
    is_not_within(3, &chain(&[("a", 0), ("b", 0)]), &mixed, &word("ab"));
}

/// The text is read as the parent p, number 12, with text and any number of these names.
fn reads_text(model: &str, names: &str) {
    let due = Ok((12, Record::with_text(word(names))));
    assert_eq!(read_declaration(&letters("-"), &declared(model)), due, "{model}");
}

#[test]
fn models_with_text() {
    for model in ["(#PCDATA)", "(#PCDATA)*", "( #PCDATA )", "(\t#PCDATA\r\n)*", "(#PCDATA) ", " (#PCDATA)*\n"] {
        reads_text(model, "");
    }
    for (model, names) in [
        ("(#PCDATA|a)*", "a"),
        ("( #PCDATA | a )*", "a"),
        ("(#PCDATA|a|b)*", "ab"),
        ("(#PCDATA|b|a)*", "ab"),
        ("(#PCDATA\n|\tl|\rc| a)* ", "acl"),
    ] {
        reads_text(model, names);
    }
    let with_parent = Record::with_text(vec![0, 12]);
    assert_eq!(read_declaration(&letters("-"), &declared("(#PCDATA|p|a)*")), Ok((12, with_parent)));
    // The name PCDATA is none of a model with text.
    let named = bytes_of(&[b"PCDATA".to_vec(), b"a".to_vec()], &[every_name(2)]);
    for (model, record) in [
        ("(PCDATA)", Record::of(&[(vec![0], 0)])),
        ("(PCDATA|a)*", Record::of(&[(vec![0, 1], 3)])),
        ("(#PCDATA|PCDATA)*", Record::with_text(vec![0])),
        ("(#PCDATA)", Record::with_text(vec![])),
    ] {
        assert_eq!(read_declaration(&named, format!("<!ELEMENT a {model}>").as_bytes()), Ok((1, record)), "{model}");
    }
}

#[test]
fn no_models_with_text() {
    for model in ["(#PCDATA)+", "(#PCDATA)?", "(#PCDATA|a)", "(a|#PCDATA)*", "(#PCDATA,a)*", "((#PCDATA))", "(#PCDATA|(a))*"] {
        refuses(&declared(model), 13);
    }
    for model in ["(#PCDATA) *", "#PCDATA", "(#PCDATA|#PCDATA)*", "(#PCDATA|a)+", "(#PCDATA|a?)*", "(#PCDATAx)", "(# PCDATA)"] {
        refuses(&declared(model), 13);
    }
    for model in ["(#pcdata)", "(#PCDAT)", "(#PCDATA", "#PCDATA)", "#PCDATA*", "(#PCDATA|)*", "(#PCDATA||a)*", "(|#PCDATA)*"] {
        refuses(&declared(model), 13);
    }
    for model in
        ["(#PCDATA|a) *", "(#PCDATA|a)\n*", "(#PCDATA)**", "(#PCDATA|a)**", "(#PCDATA|a)*?", "(#PCDATA a)*", "(a,#PCDATA)"]
    {
        refuses(&declared(model), 13);
    }
    for model in
        ["(##PCDATA)", "(#PCDATA#)", "((#PCDATA)*)", "((#PCDATA|a)*)", "((#PCDATA)|a)*", "(a,(#PCDATA|b)*)", "(#PCDATA|a)?"]
    {
        refuses(&declared(model), 13);
    }
    for model in
        ["(#PCDATA*)", "(#PCDATA*|a)*", "(#PCDATA|a*)*", "(#PCDATA|a,b)*", "(#PCDATA|9)*", "(#PCDATA.|a)*", "#PCDATA EMPTY"]
    {
        refuses(&declared(model), 13);
    }
    for model in ["(#PCDATA|x)*", "(#PCDATA|a|a|x)*", "(#PCDATA|PCDATA)*", "(#PCDATA|x|x)*"] {
        refuses(&declared(model), 14);
    }
    for model in ["(#PCDATA|a|a)*", "(#PCDATA|b|a|b)*", "(#PCDATA|p|p)*"] {
        refuses(&declared(model), 15);
        refuses(format!("<!ELEMENT x {model}>").as_bytes(), 14);
    }
    refuses(b"<!ELEMENT x (#PCDATA)>", 14);
    refuses(b"<!ELEMENT x (#PCDATA|a)>", 13);
    for (size, number) in [(32, 14), (33, 13)] {
        refuses(&declared(&format!("(#PCDATA|{})*", "x".repeat(size))), number);
    }
}

#[test]
fn white_space_around_text() {
    let texts = [("<!ELEMENT p _(_#PCDATA_)_>", ""), ("<!ELEMENT p _(_#PCDATA_|_b_|_a_)*_>", "ab")];
    for (text, names) in texts {
        let due = Ok((12, Record::with_text(word(names))));
        for at in places(text) {
            for byte in WHITE {
                assert_eq!(read_declaration(&letters("-"), &with_bytes(text, at, &[byte], b"")), due, "{text} {at} {byte}");
            }
            for byte in b"#(),\x0b\x0c\x85\xa0\0" {
                refuses(&with_bytes(text, at, &[*byte], b""), 13);
            }
        }
    }
    for text in ["<!ELEMENT p (#_P_CDAT_A)>", "<!ELEMENT p (#PCDATA)_*>", "<!ELEMENT p (#PCDATA|a)_*>"] {
        for at in places(text) {
            for byte in WHITE {
                refuses(&with_bytes(text, at, &[byte], b""), 13);
            }
        }
    }
}

#[test]
fn the_sample_feed() {
    let folder = concat!(env!("CARGO_MANIFEST_DIR"), "/../../samples/");
    let book = std::fs::read(format!("{folder}feed.book")).unwrap();
    let due = std::fs::read(format!("{folder}feed.dtd")).unwrap();
    assert_eq!(dtd(&book), due);
}

/// The byte pairs of a document: a capital letter opens the element of that name, a small one closes it, and `#` is text.
fn document(signs: &str) -> Vec<u8> {
    let pair = |sign: u8| match sign {
        b'#' => [2, 0],
        b'A'..=b'Z' => [0, sign - b'A'],
        _ => [1, sign - b'a'],
    };
    signs.bytes().flat_map(pair).collect()
}

/// The table of these names with their models; the others of n names have none.
fn table(n: usize, models: &[(char, Record)]) -> Vec<u8> {
    let mut table = vec![0; ROW * n];
    for (name, record) in models {
        put_model(n, *name as usize - 'a' as usize, record, &mut table).unwrap();
    }
    table
}

/// Models of four names: a (b+,c?), b text alone, c (#PCDATA|b|c)*, and d EMPTY.
fn four_models() -> Vec<u8> {
    let a = chain(&[("b", 2), ("c", 1)]);
    table(4, &[('a', a), ('b', Record::with_text(vec![])), ('c', Record::with_text(word("bc"))), ('d', EMPTY)])
}

#[test]
fn documents_with_their_verdicts() {
    for (signs, yes) in [
        // Children in order are a word of the model.
        ("ABba", true),
        ("ABbBba", true),
        ("ABbCca", true),
        ("Aa", false),
        ("ACca", false),
        ("ACcBba", false),
        ("ABbCcCca", false),
        ("ABbDda", false),
        // Every element, not the root alone.
        ("ABbCBbCcca", true),
        ("ABDdba", false),
        ("ABbCCAacca", false),
        ("ABbCCABbacca", false),
        ("CCCBbcBbcc", true),
        ("CCCDdcBbcc", false),
        // Any name may be the root.
        ("Bb", true),
        ("Dd", true),
        ("DBbd", false),
        // Text stands only where it is allowed, however often, and is no child.
        ("AB#ba", true),
        ("AB##ba", true),
        ("ABbC#B#b#C#c#ca", true),
        ("A#Bba", false),
        ("ABb#a", false),
        ("ABb#Bba", false),
        ("D#d", false),
        ("B#b", true),
    ] {
        assert_eq!(accepts_document(4, &four_models(), &document(signs)), Ok(yes), "{signs}");
    }
}

#[test]
fn every_element_has_a_model() {
    let good = document("ABbCBbcDda");
    let all = [('a', chain(&[("bcd", 3)])), ('b', EMPTY), ('c', chain(&[("b", 0)])), ('d', EMPTY), ('e', EMPTY)];
    assert_eq!(accepts_document(5, &table(5, &all), &good), Ok(true));
    // A name that no element has needs no model; every other does, and without one the answer is no.
    for missing in 0..5 {
        let some: Vec<_> = all.iter().copied().filter(|(name, _)| *name as usize - 'a' as usize != missing).collect();
        assert_eq!(accepts_document(5, &table(5, &some), &good), Ok(missing == 4), "without model {missing}");
        // A refusal comes before that no.
        assert_eq!(accepts_document(5, &table(5, &some), &document("ABbCBbcDd")), Err(18));
    }
    assert_eq!(accepts_document(5, &[], &good), Ok(false));
}

#[test]
fn words_of_any_length() {
    let models = table(3, &[('a', chain(&[("b", 2), ("c", 0)])), ('b', EMPTY), ('c', EMPTY)]);
    // With the root 60,000 bytes are 29,998 pairs of children.
    for size in [1, 2, 255, 256, 257, 511, 14_998] {
        let children = "Bb".repeat(size);
        assert_eq!(accepts_document(3, &models, &document(&format!("A{children}Cca"))), Ok(true), "{size}");
        assert_eq!(accepts_document(3, &models, &document(&format!("A{children}a"))), Ok(false), "{size}");
        assert_eq!(accepts_document(3, &models, &document(&format!("ACc{children}a"))), Ok(false), "{size}");
    }
}

/// Elements in each other, so many, all of name a.
fn nested(depth: usize) -> String {
    "A".repeat(depth) + &"a".repeat(depth)
}

#[test]
fn depths() {
    let models = table(2, &[('a', chain(&[("ab", 3)])), ('b', EMPTY)]);
    for depth in [1, 2, 31, 32] {
        assert_eq!(accepts_document(2, &models, &document(&nested(depth))), Ok(true), "{depth}");
    }
    for depth in [33, 34, 100, 15_000] {
        assert_eq!(accepts_document(2, &models, &document(&nested(depth))), Err(19), "{depth}");
    }
    let (opens, closes) = ("A".repeat(31), "a".repeat(31));
    let inside = |signs: &str| accepts_document(2, &models, &document(&format!("{opens}{signs}{closes}")));
    // Many elements at depth 32, and one at depth 33 in the last of them.
    assert_eq!(inside("BbBbAaBb"), Ok(true));
    assert_eq!(inside("BbBbAaBBbb"), Err(19));
    assert_eq!(inside("BbAB"), Err(19));
    // 18 in a pair before it, and at the same pair.
    assert_eq!(inside("BaBBbb"), Err(18));
    assert_eq!(inside("BCcb"), Err(18));
    assert_eq!(inside("BBCcbb"), Err(19));
    // Not at the end: what is behind the pair is not looked at.
    let depth_33 = document(&"A".repeat(33));
    for behind in [&[][..], &[3, 0], &[0, 2], &[2, 1], &[1, 1]] {
        assert_eq!(accepts_document(2, &models, &[&depth_33, behind].concat()), Err(19));
    }
}

#[test]
fn what_is_no_document() {
    // Good over two names, so that each fault is the only one.
    let models = table(2, &[('a', Record::with_text(word("ab"))), ('b', Record::with_text(word("ab")))]);
    let refused = |pairs: &[u8], number: u8| assert_eq!(accepts_document(2, &models, pairs), Err(number), "{pairs:?}");
    assert_eq!(accepts_document(2, &models, &document("A#BAa#ba")), Ok(true));
    // An odd length, before any pair.
    for odd in [&[0][..], &[3], &[0, 0, 1], &[3, 0, 1], &[0, 0, 1, 0, 0], &[0, 0, 1, 0, 255]] {
        refused(odd, 18);
    }
    refused(&[&document(&"A".repeat(33))[..], &[1]].concat(), 18);
    // A kind above 2.
    for kind in [3, 4, 128, 255] {
        refused(&[kind, 0], 18);
        refused(&[0, 0, kind, 0, 1, 0], 18);
    }
    // A number not below N, of any kind.
    for number in [2, 3, 64, 255] {
        for kind in [0, 1, 2] {
            refused(&[0, 0, kind, number, 1, 0], 18);
            refused(&[kind, number], 18);
        }
    }
    // Text with a number other than 0, though it is below N.
    refused(&[0, 0, 2, 1, 1, 0], 18);
    // A close unlike its open, or with none open.
    for signs in ["Ab", "ABab", "ABbb", "ABbab", "a", "b", "Aaa", "ABbaa"] {
        refused(&document(signs), 18);
    }
    // Text outside the root, no root, a second root, an open left.
    for signs in ["#", "#Aa", "Aa#", "ABba##", "", "AaAa", "AaBb", "ABbaA", "A", "AB", "ABb", "A#", "ABAaBb"] {
        refused(&document(signs), 18);
    }
}

#[test]
fn the_first_fault_counts() {
    let models = table(2, &[('a', chain(&[("a", 3)])), ('b', EMPTY)]);
    let (opens, close) = ("A".repeat(32), document("a"));
    let at_33 = document(&format!("{opens}A"));
    // At one pair 18 goes before 19.
    for (pair, number) in [([0, 0], 19), ([0, 1], 19), ([0, 2], 18), ([0, 255], 18), ([3, 0], 18), ([1, 1], 18), ([2, 1], 18)] {
        let pairs = [&document(&opens)[..], &pair, &close].concat();
        assert_eq!(accepts_document(2, &models, &pairs), Err(number), "{pair:?}");
    }
    // A fault of 18 in front of that pair or behind it.
    assert_eq!(accepts_document(2, &models, &[&[1, 0][..], &at_33].concat()), Err(18));
    assert_eq!(accepts_document(2, &models, &[&document("A")[..], &[9, 9], &at_33].concat()), Err(18));
    assert_eq!(accepts_document(2, &models, &[&at_33[..], &[9, 9]].concat()), Err(19));
    // A document that is not valid is refused all the same.
    assert_eq!(accepts_document(2, &models, &document("ABbBba")), Ok(false));
    assert_eq!(accepts_document(2, &models, &document("ABbBbaA")), Err(18));
}

#[test]
fn the_order_of_the_checks_of_a_document() {
    let bad = Record { count: 1, ..EMPTY };
    let bad_row = row_of(&bad);
    let good = document("Aa");
    let (longest, odd_longer) = (vec![9; 60_000], vec![9; 60_001]);
    // 1, then 3, then 10, then 18; the length decides before all else, and an odd one below it comes behind 10.
    for names in [0, 1, 64, 65, usize::MAX] {
        for models in [&bad_row[..], &[]] {
            assert_eq!(accepts_document(names, models, &odd_longer), Err(1));
            assert_eq!(accepts_document(names, models, &[0; 60_002]), Err(1));
        }
    }
    for names in [0, 65, 256, 257, usize::MAX] {
        for document in [&longest[..], &longest[1..], &good] {
            assert_eq!(accepts_document(names, &bad_row, document), Err(3));
        }
    }
    for document in [&longest[..], &longest[1..], &good] {
        assert_eq!(accepts_document(1, &bad_row, document), Err(10));
    }
    for document in [&longest[..], &longest[1..]] {
        assert_eq!(accepts_document(1, &row_of(&EMPTY), document), Err(18));
    }
    assert_eq!(accepts_document(1, &row_of(&EMPTY), &good), Ok(true));
    let all = table(64, &[('a', EMPTY)]);
    assert_eq!(accepts_document(64, &all, &good), Ok(true));
    assert_eq!(accepts_document(65, &all, &good), Err(3));
}

#[test]
fn a_document_of_the_most_bytes() {
    let models = table(2, &[('a', chain(&[("b", 3)])), ('b', EMPTY)]);
    let pairs = document(&format!("A{}a", "Bb".repeat(14_999)));
    assert_eq!(pairs.len(), 60_000);
    assert_eq!(accepts_document(2, &models, &pairs), Ok(true));
    assert_eq!(accepts_document(2, &models, &pairs[..59_999]), Err(18));
    assert_eq!(accepts_document(2, &models, &pairs[..59_998]), Err(18));
    for behind in [&[1][..], &[1, 0]] {
        assert_eq!(accepts_document(2, &models, &[&pairs, behind].concat()), Err(1));
    }
}

/// A record over three names that is no model in one way each: F, a factor, a mode, the text byte.
fn no_models() -> Vec<Record> {
    let good = chain(&[("a", 2), ("bc", 3)]);
    let (mut far, mut empty, mut marked, mut behind) = (good, good, good, good);
    far.factor[3] = 0;
    empty.factor[0] = NONE;
    marked.mode[1] = 4;
    behind.mode[2] = 1;
    let mut all = vec![far, empty, marked, behind];
    for count in [1, 3, 64, 65, 255] {
        all.push(Record { count, ..good });
    }
    for text in [1, 2, 255] {
        all.push(Record { text, ..good });
    }
    all
}

#[test]
fn ten_by_rising_name() {
    let good = chain(&[("abc", 3)]);
    for bad in no_models() {
        for name in 0..3 {
            let mut models = table(3, &[('a', good), ('b', good), ('c', good)]);
            models[ROW * name..ROW * (name + 1)].copy_from_slice(&row_of(&bad));
            // Also where no element has the name.
            assert_eq!(accepts_document(3, &models, &document("Aa")), Err(10), "{name}: {bad:?}");
            assert_eq!(accepts_document(3, &models, &[9]), Err(10), "{name}: {bad:?}");
            // The record is not looked at where its row is not whole, where byte 0 is 0, and from N on.
            let cut = &models[..ROW * (name + 1) - 1];
            assert_eq!(accepts_document(3, cut, &document("Aa")), Ok(name > 0), "{name}: {bad:?}");
            let behind = [&row_of(&EMPTY), &vec![0; ROW * name][..], &row_of(&bad)].concat();
            assert_eq!(accepts_document(1 + name, &behind, &document("Aa")), Ok(true), "{name}: {bad:?}");
            models[ROW * name] = 0;
            assert_eq!(accepts_document(3, &models, &document("Aa")), Ok(name > 0), "{name}: {bad:?}");
        }
    }
}

#[test]
fn rows_of_a_table() {
    let models = table(2, &[('a', chain(&[("b", 0)])), ('b', EMPTY)]);
    let good = document("ABba");
    // A name whose row is not whole has no model.
    for size in 0..=2 * ROW {
        assert_eq!(accepts_document(2, &models[..size], &good), Ok(size == 2 * ROW), "{size}");
        assert_eq!(accepts_document(2, &models[..size], &document("A")), Err(18), "{size}");
    }
    // Bytes behind the rows, and those of a row without a model, are not looked at.
    assert_eq!(accepts_document(2, &[&models[..], &[255; 300]].concat(), &good), Ok(true));
    let mut without = models.clone();
    without[ROW..].fill(255);
    without[ROW] = 0;
    assert_eq!(accepts_document(2, &without, &good), Ok(false));
    // Any other first byte says that there is one.
    for first in 1..=255 {
        let mut marked = models.clone();
        (marked[0], marked[ROW]) = (first, 255 - first / 2);
        assert_eq!(accepts_document(2, &marked, &good), Ok(true), "{first}");
    }
}

#[test]
fn a_model_put_into_a_table() {
    let record = Record { text: 1, ..chain(&[("ac", 3)]) };
    assert_eq!(row_of(&record).len(), 131);
    assert_eq!(row_of(&record)[..7], [1, 1, 1, 0, 255, 0, 255]);
    assert_eq!(row_of(&record)[66..69], [255, 3, 0]);
    let before: Vec<u8> = (0..400u32).map(|i| (i % 251) as u8).collect();
    for parent in 0..3 {
        let mut after = before.clone();
        assert_eq!(put_model(3, parent, &record, &mut after), Ok(()));
        let (from, to) = (131 * parent, 131 * (parent + 1));
        assert_eq!(after, [&before[..from], &row_of(&record), &before[to..]].concat());
        // The table needs the row whole, and no more.
        for (size, answer) in [(0, Err(12)), (to - 1, Err(12)), (to, Ok(())), (to + 1, Ok(()))] {
            let mut table = before[..size].to_vec();
            assert_eq!(put_model(3, parent, &record, &mut table), answer, "{parent}, {size}");
            assert_eq!(table == before[..size], answer.is_err());
        }
    }
}

#[test]
fn refusals_of_a_model_put() {
    let (good, bad) = (chain(&[("abc", 3)]), Record { count: 1, ..EMPTY });
    let mut cases = vec![];
    for names in [0, 65, 256 + 3, usize::MAX] {
        cases.extend([(names, 0, good, 400, 3), (names, 3, bad, 0, 3), (names, usize::MAX, good, 400, 3)]);
    }
    for parent in [3, 4, 63, 64, 256, usize::MAX / ROW, usize::MAX] {
        cases.extend([(3, parent, good, 400, 8), (3, parent, bad, 0, 8)]);
    }
    for bad in no_models() {
        cases.extend([(3, 2, bad, 400, 10), (3, 2, bad, 0, 10)]);
    }
    cases.extend([(2, 1, good, 400, 10), (3, 2, good, 392, 12), (64, 63, good, 64 * 131 - 1, 12)]);
    for (names, parent, record, size, number) in cases {
        let mut table = vec![7; size];
        assert_eq!(put_model(names, parent, &record, &mut table), Err(number), "{names} {parent} {record:?}");
        assert!(table.iter().all(|b| *b == 7));
    }
    assert_eq!(put_model(64, 63, &good, &mut vec![7; 64 * 131]), Ok(()));
}

#[test]
fn a_table_filled_from_a_book() {
    // a has text and a child, b has no block, c no child.
    let names: Vec<Vec<u8>> = [b"a", b"b", b"c"].map(|name| name.to_vec()).into();
    let book = bytes_of(&names, &[block(0, "#b"), block(2, "-")]);
    let rows = [row_of(&Record::with_text(vec![1])), vec![0; 131], row_of(&EMPTY)].concat();
    assert_eq!(rows.len(), 393);
    for size in [0, 1, 131, 392, 393, 394, 64 * 131] {
        let mut table = vec![7; size];
        let answer = fill_models(&book, &mut table);
        if size < 393 {
            assert_eq!((answer, table), (Err(12), vec![7; size]));
        } else {
            assert_eq!((answer, &table[..393]), (Ok(393), &rows[..]));
            assert!(table[393..].iter().all(|b| *b == 7));
        }
    }
    // The book's refusals come first.
    for (bad, number) in [(&book[..book.len() - 1], 2), (&[&book[..], &[0]].concat(), 7), (&bytes_of(&names, &[]), 17)] {
        for size in [0, 393] {
            let mut table = vec![7; size];
            assert_eq!((fill_models(bad, &mut table), table), (Err(number), vec![7; size]));
        }
    }
}

#[test]
fn a_feed_judged_by_its_own_models() {
    let book = letters("abk, #-, ab");
    let mut models = vec![9; 64 * 131];
    assert_eq!(fill_models(&book, &mut models), Ok(13 * 131));
    for parent in 0..13 {
        let row = &models[131 * parent..131 * (parent + 1)];
        match model_of_parent(&book, parent) {
            Ok(record) => assert_eq!(row, row_of(&record)),
            Err(number) => assert_eq!((number, row), (9, &[0; 131][..])),
        }
    }
    for parent in 0..11 {
        put_model(13, parent, &EMPTY, &mut models).unwrap();
    }
    // p is name 12, mixed with a, b and k; l is name 11 with a to k.
    let p = |inside: &str| [&[0, 12], &document(inside)[..], &[1, 12]].concat();
    assert_eq!(accepts_document(13, &models, &p("Bb#Kk")), Ok(true));
    assert_eq!(accepts_document(13, &models, &p("BbCc")), Ok(false));
    assert_eq!(accepts_document(13, &models, &document("LAaBbCcDdEeFfGgHhIiJjKkl")), Ok(true));
    assert_eq!(accepts_document(13, &models, &document("LAaBbCcDdEeFfGgHhIiJjl")), Ok(false));
    // Byte 0 of its row takes a model out.
    models[131 * 10] = 0;
    assert_eq!(accepts_document(13, &models, &p("Bb#Kk")), Ok(false));
}
