//! Who is compared: the static library and the program, each where it is there.

use crate::calls::Calls;
use second::record::Record;
use std::io::{Read, Write};
use std::path::PathBuf;
use std::process::{Command, Stdio};

pub struct Proved {
    /// The program `dtd`, if one is compared.
    pub dtd: Option<PathBuf>,
}

/// What a program prints, given these bytes on standard input.
pub fn printed(program: &PathBuf, input: &[u8]) -> Vec<u8> {
    let mut child = Command::new(program)
        .stdin(Stdio::piped())
        .stdout(Stdio::piped())
        .spawn()
        .unwrap_or_else(|e| panic!("{} does not start: {e}", program.display()));
    let mut stdin = child.stdin.take().unwrap();
    let mut out = Vec::new();
    std::thread::scope(|scope| {
        // In pieces, so that one read does not see all of a long book. A program that refuses it may leave the rest unread.
        scope.spawn(move || {
            for piece in input.chunks(17_000) {
                if stdin.write_all(piece).is_err() {
                    break;
                }
                std::thread::sleep(std::time::Duration::from_millis((input.len() / 17_000) as u64));
            }
        });
        child.stdout.take().unwrap().read_to_end(&mut out).expect("standard output is read");
    });
    let status = child.wait().expect("the program ends");
    assert!(status.success(), "{} ended with {status}", program.display());
    out
}

#[cfg(feature = "library")]
mod library {
    use super::*;
    use curlewsong::{raw, Model};

    fn to(record: &Record) -> Model {
        Model { count: record.count, factor: record.factor, mode: record.mode, text: record.text }
    }

    fn back(model: Model) -> Record {
        Record { count: model.count, factor: model.factor, mode: model.mode, text: model.text }
    }

    impl Calls for Proved {
        fn model_of_parent(&mut self, book: &[u8], parent: usize) -> (u8, Record) {
            let (number, model) = raw::model_of_parent(book, parent);
            (number, back(model))
        }

        fn accepts_word(&mut self, names: usize, record: &Record, word: &[u8]) -> (u8, bool) {
            raw::accepts_word(names, to(record), word)
        }

        fn within(&mut self, names: usize, first: &Record, second: &Record, buffer: &mut [u8]) -> (u8, bool, usize) {
            raw::within(names, to(first), to(second), buffer)
        }

        fn write_declaration(&mut self, book: &[u8], parent: usize, record: &Record, buffer: &mut [u8]) -> (u8, usize) {
            raw::write_declaration(book, parent, to(record), buffer)
        }

        fn write_from_sample(&mut self, book: &[u8], parent: usize, buffer: &mut [u8]) -> (u8, usize) {
            raw::write_from_sample(book, parent, buffer)
        }

        fn write_dtd(&mut self, book: &[u8], buffer: &mut [u8]) -> (u8, usize) {
            raw::write_dtd(book, buffer)
        }

        fn read_declaration(&mut self, book: &[u8], text: &[u8]) -> (u8, usize, Record) {
            let (number, parent, model) = raw::read_declaration(book, text);
            (number, parent, back(model))
        }

        fn accepts_document(&mut self, names: usize, models: &[u8], document: &[u8]) -> (u8, bool) {
            raw::accepts_document(names, models, document)
        }

        fn put_model(&mut self, names: usize, parent: usize, record: &Record, models: &mut [u8]) -> u8 {
            raw::put_model(names, parent, to(record), models)
        }

        fn fill_models(&mut self, book: &[u8], models: &mut [u8]) -> (u8, usize) {
            raw::fill_models(book, models)
        }

        fn dtd(&mut self, book: &[u8]) -> Option<Vec<u8>> {
            self.dtd.as_ref().map(|program| printed(program, book))
        }
    }
}

/// Without the library only the program is asked.
#[cfg(not(feature = "library"))]
impl Calls for Proved {
    fn model_of_parent(&mut self, _: &[u8], _: usize) -> (u8, Record) {
        unreachable!()
    }

    fn accepts_word(&mut self, _: usize, _: &Record, _: &[u8]) -> (u8, bool) {
        unreachable!()
    }

    fn within(&mut self, _: usize, _: &Record, _: &Record, _: &mut [u8]) -> (u8, bool, usize) {
        unreachable!()
    }

    fn write_declaration(&mut self, _: &[u8], _: usize, _: &Record, _: &mut [u8]) -> (u8, usize) {
        unreachable!()
    }

    fn write_from_sample(&mut self, _: &[u8], _: usize, _: &mut [u8]) -> (u8, usize) {
        unreachable!()
    }

    fn write_dtd(&mut self, _: &[u8], _: &mut [u8]) -> (u8, usize) {
        unreachable!()
    }

    fn read_declaration(&mut self, _: &[u8], _: &[u8]) -> (u8, usize, Record) {
        unreachable!()
    }

    fn accepts_document(&mut self, _: usize, _: &[u8], _: &[u8]) -> (u8, bool) {
        unreachable!()
    }

    fn put_model(&mut self, _: usize, _: usize, _: &Record, _: &mut [u8]) -> u8 {
        unreachable!()
    }

    fn fill_models(&mut self, _: &[u8], _: &mut [u8]) -> (u8, usize) {
        unreachable!()
    }

    fn dtd(&mut self, book: &[u8]) -> Option<Vec<u8>> {
        self.dtd.as_ref().map(|program| printed(program, book))
    }

    fn has_library(&self) -> bool {
        false
    }
}
