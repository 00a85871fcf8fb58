//! The plain code answers as the second implementation does, so that the benchmark times the same work.

use compare::calls::{inclusion, Calls, Second};
use compare::{run, Reached, SEED};
use plain::{Model, EMPTY};
use second::record::Record;

struct Plain;

fn to(r: &Record) -> Model {
    Model { count: r.count, factor: r.factor, mode: r.mode, text: r.text }
}

fn back(m: Model) -> Record {
    Record { count: m.count, factor: m.factor, mode: m.mode, text: m.text }
}

fn or<T>(answer: Result<T, u8>, refused: T) -> (u8, T) {
    match answer {
        Ok(value) => (0, value),
        Err(number) => (number, refused),
    }
}

impl Calls for Plain {
    fn model_of_parent(&mut self, book: &[u8], parent: usize) -> (u8, Record) {
        let (number, model) = or(plain::model_of_parent(book, parent), EMPTY);
        (number, back(model))
    }

    /// The record borrowed, and by value: both answer the same.
    fn accepts_word(&mut self, names: usize, record: &Record, word: &[u8]) -> (u8, bool) {
        let model = to(record);
        let answer = plain::accepts_word(names, &model, word);
        assert_eq!(plain::by_value::accepts_word(names, &model, word), answer, "{names} names, {model:?}, the word {word:?}");
        or(answer, false)
    }

    fn within(&mut self, names: usize, first: &Record, second: &Record, buffer: &mut [u8]) -> (u8, bool, usize) {
        inclusion(plain::within(names, &to(first), &to(second), buffer))
    }

    fn write_declaration(&mut self, book: &[u8], parent: usize, record: &Record, buffer: &mut [u8]) -> (u8, usize) {
        or(plain::write_declaration(book, parent, &to(record), buffer), 0)
    }

    fn write_from_sample(&mut self, book: &[u8], parent: usize, buffer: &mut [u8]) -> (u8, usize) {
        or(plain::write_from_sample(book, parent, buffer), 0)
    }

    fn write_dtd(&mut self, book: &[u8], buffer: &mut [u8]) -> (u8, usize) {
        or(plain::write_dtd(book, buffer), 0)
    }

    fn read_declaration(&mut self, book: &[u8], text: &[u8]) -> (u8, usize, Record) {
        let (number, (parent, model)) = or(plain::read_declaration(book, text), (0, EMPTY));
        (number, parent, back(model))
    }

    fn accepts_document(&mut self, names: usize, models: &[u8], document: &[u8]) -> (u8, bool) {
        or(plain::accepts_document(names, models, document), false)
    }

    fn put_model(&mut self, names: usize, parent: usize, record: &Record, models: &mut [u8]) -> u8 {
        or(plain::put_model(names, parent, &to(record), models), ()).0
    }

    fn fill_models(&mut self, book: &[u8], models: &mut [u8]) -> (u8, usize) {
        or(plain::fill_models(book, models), 0)
    }

    /// In one pass, and with a scan for each parent: both print the same.
    fn dtd(&mut self, book: &[u8]) -> Option<Vec<u8>> {
        let out = plain::dtd(book);
        assert!(plain::rescan::rescan(book) == out, "{}", book.escape_ascii());
        Some(out)
    }
}

#[test]
fn agrees_with_the_second_implementation() {
    if let Err(what) = run(SEED, 1, &mut Plain, &mut Reached::default()) {
        panic!("{what}");
    }
}

#[test]
fn books_of_the_benchmark() {
    for (kind, make) in plain::books::KINDS {
        let book = make();
        assert!(book.len() <= 60_000 && book.len() > 59_700, "{kind}: {} bytes", book.len());
        let out = plain::dtd(&book);
        assert!(out == second::calls::dtd(&book), "{kind}");
        assert!(out == plain::rescan::rescan(&book), "{kind}");
        assert!(out.starts_with(b"<!ELEMENT"), "{kind}");
    }
}

#[test]
fn a_name_is_unused_to_the_end() {
    let mut book = plain::books::last_name_late();
    assert_eq!(book.pop(), Some(63));
    book.push(62);
    assert_eq!(plain::dtd(&book), b"refused 17\n");
}

#[test]
fn pairs_of_the_benchmark() {
    for kind in plain::pairs::KINDS {
        let pairs = kind.pairs();
        let [first, wider, other] = [pairs.first, pairs.wider, pairs.other].map(back);
        let mut buffer = [7; 65];
        assert_eq!(Plain.within(pairs.names, &first, &wider, &mut buffer), (0, true, 0), "{}", kind.name);
        assert_eq!(Second.within(pairs.names, &first, &wider, &mut buffer), (0, true, 0), "{}", kind.name);
        let (number, yes, length) = Plain.within(pairs.names, &first, &other, &mut buffer);
        assert_eq!((number, yes), (0, false), "{}", kind.name);
        let word = &buffer[..length];
        assert!(first.accepts(word) && !other.accepts(word), "{}: {word:?}", kind.name);
    }
}

#[test]
fn documents_of_the_benchmark() {
    for (kind, make, yes) in plain::documents::KINDS {
        let document = make();
        let (table, bytes) = (document.table(), document.pairs.concat());
        assert_eq!(bytes.len(), 60_000, "{kind}");
        assert_eq!(Plain.accepts_document(64, &table, &bytes), (0, *yes), "{kind}");
        assert_eq!(Second.accepts_document(64, &table, &bytes), (0, *yes), "{kind}");
        // Texts side by side would be one for libxml2.
        assert!(!document.pairs.windows(2).any(|two| two == [[2, 0]; 2]), "{kind}");
        #[cfg(feature = "libxml2")]
        assert_eq!(plain::libxml2::Parsed::new(&document.xml(), &document.dtd()).is_valid(), *yes, "{kind}");
    }
}

#[test]
fn words_of_the_benchmark() {
    for (kind, make) in plain::books::KINDS {
        let book = make();
        let (_, model) = plain::books::timed_parent(&book);
        let word = plain::a_word(&model);
        for word in [&word[..], &word[..word.len().min(3)]] {
            let due = Second.accepts_word(64, &back(model), word);
            assert_eq!(Plain.accepts_word(64, &back(model), word), due, "{kind}, a word of {} names", word.len());
        }
    }
}
