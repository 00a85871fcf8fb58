//! The comparison finds a library that writes beside a buffer that it is lent, which no safe program can do.

use compare::calls::{Calls, Second};
use compare::cases::{Kind, KINDS};
use compare::{run_kinds, Reached, SEED};
use second::record::Record;

/// The second implementation, but that a call which is lent a buffer changes the byte so far from the buffer's start, or from its
/// end.
#[derive(Clone, Copy)]
enum Beside {
    Before(usize),
    Behind(usize),
}

impl Beside {
    fn change(self, buffer: &mut [u8]) {
        // The comparison lends a part of a longer row, and these bytes are in the rest of it.
        unsafe {
            let at = match self {
                Beside::Before(bytes) => buffer.as_mut_ptr().sub(bytes),
                Beside::Behind(bytes) => buffer.as_mut_ptr().add(buffer.len() + bytes),
            };
            *at ^= 1;
        }
    }
}

impl Calls for Beside {
    fn model_of_parent(&mut self, book: &[u8], parent: usize) -> (u8, Record) {
        Second.model_of_parent(book, parent)
    }

    fn accepts_word(&mut self, names: usize, record: &Record, word: &[u8]) -> (u8, bool) {
        Second.accepts_word(names, record, word)
    }

    fn within(&mut self, names: usize, first: &Record, second: &Record, buffer: &mut [u8]) -> (u8, bool, usize) {
        self.change(buffer);
        Second.within(names, first, second, buffer)
    }

    fn write_declaration(&mut self, book: &[u8], parent: usize, record: &Record, buffer: &mut [u8]) -> (u8, usize) {
        self.change(buffer);
        Second.write_declaration(book, parent, record, buffer)
    }

    fn write_from_sample(&mut self, book: &[u8], parent: usize, buffer: &mut [u8]) -> (u8, usize) {
        self.change(buffer);
        Second.write_from_sample(book, parent, buffer)
    }

    fn write_dtd(&mut self, book: &[u8], buffer: &mut [u8]) -> (u8, usize) {
        self.change(buffer);
        Second.write_dtd(book, buffer)
    }

    fn read_declaration(&mut self, book: &[u8], text: &[u8]) -> (u8, usize, Record) {
        Second.read_declaration(book, text)
    }

    fn accepts_document(&mut self, names: usize, models: &[u8], document: &[u8]) -> (u8, bool) {
        Second.accepts_document(names, models, document)
    }

    fn put_model(&mut self, names: usize, parent: usize, record: &Record, models: &mut [u8]) -> u8 {
        self.change(models);
        Second.put_model(names, parent, record, models)
    }

    fn fill_models(&mut self, book: &[u8], models: &mut [u8]) -> (u8, usize) {
        self.change(models);
        Second.fill_models(book, models)
    }

    fn dtd(&mut self, book: &[u8]) -> Option<Vec<u8>> {
        Second.dtd(book)
    }
}

fn of(name: &str) -> &'static [Kind] {
    let at = KINDS.iter().position(|kind| kind.name == name).expect("there is such a kind");
    &KINDS[at..=at]
}

#[test]
fn bytes_beside_a_buffer() {
    for kind in ["writing", "small", "dtds", "models", "tables", "within"] {
        assert!(run_kinds(of(kind), SEED, 1, &mut Second, &mut Reached::default()).is_ok(), "{kind}");
        for mut beside in [Beside::Before(1), Beside::Before(64), Beside::Behind(0), Beside::Behind(63)] {
            assert!(run_kinds(of(kind), SEED, 1, &mut beside, &mut Reached::default()).is_err(), "{kind}");
        }
    }
}
