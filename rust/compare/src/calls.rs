//! The calls that are compared, the answers that are due of each, and who answers them.

use second::calls::MOST_COUNTEREXAMPLE;
use second::document::{self, Element};
use second::models::{records, ROW};
use second::record::{Record, EMPTY};
use second::within::counterexample;
use std::fmt::Write as _;

/// The calls open to the outside, with the refusal's number first and the values beside it, whatever the number is.
pub trait Calls {
    fn model_of_parent(&mut self, book: &[u8], parent: usize) -> (u8, Record);
    fn accepts_word(&mut self, names: usize, record: &Record, word: &[u8]) -> (u8, bool);
    fn within(&mut self, names: usize, first: &Record, second: &Record, buffer: &mut [u8]) -> (u8, bool, usize);
    fn write_declaration(&mut self, book: &[u8], parent: usize, record: &Record, buffer: &mut [u8]) -> (u8, usize);
    fn write_from_sample(&mut self, book: &[u8], parent: usize, buffer: &mut [u8]) -> (u8, usize);
    fn write_dtd(&mut self, book: &[u8], buffer: &mut [u8]) -> (u8, usize);
    fn read_declaration(&mut self, book: &[u8], text: &[u8]) -> (u8, usize, Record);
    fn accepts_document(&mut self, names: usize, models: &[u8], document: &[u8]) -> (u8, bool);
    fn put_model(&mut self, names: usize, parent: usize, record: &Record, models: &mut [u8]) -> u8;
    fn fill_models(&mut self, book: &[u8], models: &mut [u8]) -> (u8, usize);
    /// What the program prints; None where no program is compared.
    fn dtd(&mut self, book: &[u8]) -> Option<Vec<u8>>;
    /// Whether the calls other than the program's are there.
    fn has_library(&self) -> bool {
        true
    }
}

/// The second implementation.
pub struct Second;

fn or<T>(answer: Result<T, u8>, refused: T) -> (u8, T) {
    match answer {
        Ok(value) => (0, value),
        Err(number) => (number, refused),
    }
}

/// The number, yes or no, and the length, of what a call on two records answers.
pub fn inclusion(answer: Result<Option<usize>, u8>) -> (u8, bool, usize) {
    match answer {
        Ok(None) => (0, true, 0),
        Ok(Some(length)) => (0, false, length),
        Err(number) => (number, false, 0),
    }
}

impl Calls for Second {
    fn model_of_parent(&mut self, book: &[u8], parent: usize) -> (u8, Record) {
        or(second::calls::model_of_parent(book, parent), EMPTY)
    }

    fn accepts_word(&mut self, names: usize, record: &Record, word: &[u8]) -> (u8, bool) {
        or(second::calls::accepts_word(names, record, word), false)
    }

    fn within(&mut self, names: usize, first: &Record, second: &Record, buffer: &mut [u8]) -> (u8, bool, usize) {
        inclusion(second::calls::within(names, first, second, buffer))
    }

    fn write_declaration(&mut self, book: &[u8], parent: usize, record: &Record, buffer: &mut [u8]) -> (u8, usize) {
        or(second::calls::write_declaration(book, parent, record, buffer), 0)
    }

    fn write_from_sample(&mut self, book: &[u8], parent: usize, buffer: &mut [u8]) -> (u8, usize) {
        or(second::calls::write_from_sample(book, parent, buffer), 0)
    }

    fn write_dtd(&mut self, book: &[u8], buffer: &mut [u8]) -> (u8, usize) {
        or(second::calls::write_dtd(book, buffer), 0)
    }

    fn read_declaration(&mut self, book: &[u8], text: &[u8]) -> (u8, usize, Record) {
        let (number, (parent, record)) = or(second::calls::read_declaration(book, text), (0, EMPTY));
        (number, parent, record)
    }

    fn accepts_document(&mut self, names: usize, models: &[u8], document: &[u8]) -> (u8, bool) {
        or(second::calls::accepts_document(names, models, document), false)
    }

    fn put_model(&mut self, names: usize, parent: usize, record: &Record, models: &mut [u8]) -> u8 {
        or(second::calls::put_model(names, parent, record, models), ()).0
    }

    fn fill_models(&mut self, book: &[u8], models: &mut [u8]) -> (u8, usize) {
        or(second::calls::fill_models(book, models), 0)
    }

    fn dtd(&mut self, book: &[u8]) -> Option<Vec<u8>> {
        Some(second::calls::dtd(book))
    }
}

/// The bytes on each side of a buffer that is lent. No call may change them.
const GUARD: [u8; 64] = [0x5a; 64];

/// What a call answers that is lent these bytes, and what they are then. Where the call changed a byte beside them, all are given
/// back, so that no answer agrees.
fn lent<T>(buffer: &[u8], call: impl FnOnce(&mut [u8]) -> T) -> (T, Vec<u8>) {
    let mut all = [&GUARD[..], buffer, &GUARD[..]].concat();
    let inside = GUARD.len()..GUARD.len() + buffer.len();
    let answer = call(&mut all[inside.clone()]);
    let kept = all[..inside.start] == GUARD && all[inside.end..] == GUARD;
    (answer, if kept { all[inside].to_vec() } else { all })
}

/// One call with all that it is given.
#[derive(Clone)]
pub enum Call {
    ModelOfParent { book: Vec<u8>, parent: usize },
    AcceptsWord { names: usize, record: Record, word: Vec<u8> },
    Within { names: usize, first: Record, second: Record, buffer: Vec<u8> },
    WriteDeclaration { book: Vec<u8>, parent: usize, record: Record, buffer: Vec<u8> },
    WriteFromSample { book: Vec<u8>, parent: usize, buffer: Vec<u8> },
    WriteDtd { book: Vec<u8>, buffer: Vec<u8> },
    ReadDeclaration { book: Vec<u8>, text: Vec<u8> },
    AcceptsDocument { names: usize, models: Vec<u8>, document: Vec<u8> },
    PutModel { names: usize, parent: usize, record: Record, buffer: Vec<u8> },
    FillModels { book: Vec<u8>, buffer: Vec<u8> },
    Dtd { book: Vec<u8> },
}

/// What a call answers, and what its buffer then holds.
#[derive(Clone, PartialEq, Debug)]
pub enum Answer {
    Model(u8, Record),
    Verdict(u8, bool),
    Inclusion(u8, bool, usize, Vec<u8>),
    Written(u8, usize, Vec<u8>),
    Put(u8, Vec<u8>),
    Read(u8, usize, Record),
    Printed(Vec<u8>),
    /// Nobody answers this call here.
    Nobody,
}

impl Call {
    pub fn ask(&self, calls: &mut dyn Calls) -> Answer {
        if !matches!(self, Call::Dtd { .. }) && !calls.has_library() {
            return Answer::Nobody;
        }
        match self {
            Call::ModelOfParent { book, parent } => {
                let (number, record) = calls.model_of_parent(book, *parent);
                Answer::Model(number, record)
            }
            Call::AcceptsWord { names, record, word } => {
                let (number, yes) = calls.accepts_word(*names, record, word);
                Answer::Verdict(number, yes)
            }
            Call::Within { names, first, second, buffer } => {
                let ((number, yes, length), after) = lent(buffer, |bytes| calls.within(*names, first, second, bytes));
                Answer::Inclusion(number, yes, length, after)
            }
            Call::WriteDeclaration { book, parent, record, buffer } => {
                let ((number, length), after) = lent(buffer, |bytes| calls.write_declaration(book, *parent, record, bytes));
                Answer::Written(number, length, after)
            }
            Call::WriteFromSample { book, parent, buffer } => {
                let ((number, length), after) = lent(buffer, |bytes| calls.write_from_sample(book, *parent, bytes));
                Answer::Written(number, length, after)
            }
            Call::WriteDtd { book, buffer } => {
                let ((number, length), after) = lent(buffer, |bytes| calls.write_dtd(book, bytes));
                Answer::Written(number, length, after)
            }
            Call::ReadDeclaration { book, text } => {
                let (number, parent, record) = calls.read_declaration(book, text);
                Answer::Read(number, parent, record)
            }
            Call::AcceptsDocument { names, models, document } => {
                let (number, yes) = calls.accepts_document(*names, models, document);
                Answer::Verdict(number, yes)
            }
            Call::PutModel { names, parent, record, buffer } => {
                let (number, after) = lent(buffer, |bytes| calls.put_model(*names, *parent, record, bytes));
                Answer::Put(number, after)
            }
            Call::FillModels { book, buffer } => {
                let ((number, length), after) = lent(buffer, |bytes| calls.fill_models(book, bytes));
                Answer::Written(number, length, after)
            }
            Call::Dtd { book } => calls.dtd(book).map_or(Answer::Nobody, Answer::Printed),
        }
    }

    pub fn name(&self) -> &'static str {
        match self {
            Call::ModelOfParent { .. } => "model_of_parent",
            Call::AcceptsWord { .. } => "accepts_word",
            Call::Within { .. } => "within",
            Call::WriteDeclaration { .. } => "write_declaration",
            Call::WriteFromSample { .. } => "write_from_sample",
            Call::WriteDtd { .. } => "write_dtd",
            Call::ReadDeclaration { .. } => "read_declaration",
            Call::AcceptsDocument { .. } => "accepts_document",
            Call::PutModel { .. } => "put_model",
            Call::FillModels { .. } => "fill_models",
            Call::Dtd { .. } => "dtd",
        }
    }

    /// Whether an answer is as good as the one that is due. It has to be the same, but the word that shows a no is free: any word
    /// of at most 65 names is good that the first accepts and the second does not, with all bytes behind it kept.
    pub fn agrees(&self, answer: &Answer, due: &Answer) -> bool {
        match (self, due, answer) {
            (
                Call::Within { names, first, second, buffer },
                Answer::Inclusion(0, false, ..),
                Answer::Inclusion(0, false, length, after),
            ) => {
                let (word, rest) = after.split_at((*length).min(after.len()));
                *length <= MOST_COUNTEREXAMPLE
                    && buffer[word.len()..] == *rest
                    && word.iter().all(|&name| (name as usize) < *names)
                    && first.accepts(word)
                    && !second.accepts(word)
            }
            _ => answer == due,
        }
    }

    /// What kind of answer it is, for the count of what was reached. With `-text` a record that is asked allows text, or it is
    /// refused for its text byte alone.
    pub fn kind_of(&self, answer: &Answer) -> String {
        let kind = answer.kind();
        let of_text = |fits: bool| if fits { "-text" } else { "" };
        let more = match (self, &kind[..]) {
            (Call::AcceptsWord { names, record, .. } | Call::PutModel { names, record, .. }, "10") => {
                of_text(record.is_chain(*names))
            }
            (Call::PutModel { record, .. }, "0") => of_text(record.text == 1),
            (Call::AcceptsWord { record, .. }, "yes" | "no") => of_text(record.text == 1),
            (Call::WriteDeclaration { book, record, .. }, "10") => {
                of_text(second::book::read(book).is_ok_and(|book| record.is_chain(book.names.len())))
            }
            (Call::Within { first, second, .. }, "yes" | "no" | "empty") => of_text(first.text + second.text > 0),
            (Call::Within { names, first, second, .. }, "10") => bad_of_two(*names, first, second),
            (Call::AcceptsDocument { names, models, document }, "yes" | "no") => verdict_on(*names, models, document),
            (Call::AcceptsDocument { names, models, .. }, "10") => {
                of_text(records(*names, models).iter().flatten().all(|record| record.is_chain(*names)))
            }
            (Call::AcceptsDocument { document, .. }, "18") if document.len() % 2 == 1 => "-odd",
            (Call::FillModels { .. }, "0") => rows_in(answer),
            (Call::Within { names, first, second, .. }, "12") => counterexample(*names, first, second).map_or("-yes", |_| "-no"),
            _ => "",
        };
        kind + more
    }

    /// The call with its bytes in hexadecimal.
    pub fn shown(&self) -> String {
        let mut out = format!("call: {}\n", self.name());
        let mut bytes = |what: &str, b: &[u8]| {
            let _ = writeln!(out, "{what}, {} bytes: {}", b.len(), hex(b));
        };
        match self {
            Call::ModelOfParent { book, parent } => {
                bytes("book", book);
                let _ = writeln!(out, "parent: {parent}");
            }
            Call::AcceptsWord { names, record, word } => {
                bytes("word", word);
                let _ = writeln!(out, "names: {names}\nrecord: {record:?}");
            }
            Call::Within { names, first, second, buffer } => {
                bytes("buffer", buffer);
                let _ = writeln!(out, "names: {names}\nfirst: {first:?}\nsecond: {second:?}");
            }
            Call::WriteDeclaration { book, parent, record, buffer } => {
                bytes("book", book);
                bytes("buffer", buffer);
                let _ = writeln!(out, "parent: {parent}\nrecord: {record:?}");
            }
            Call::WriteFromSample { book, parent, buffer } => {
                bytes("book", book);
                bytes("buffer", buffer);
                let _ = writeln!(out, "parent: {parent}");
            }
            Call::WriteDtd { book, buffer } => {
                bytes("book", book);
                bytes("buffer", buffer);
            }
            Call::ReadDeclaration { book, text } => {
                bytes("book", book);
                bytes("text", text);
                let _ = writeln!(out, "text: {}", String::from_utf8_lossy(text));
            }
            Call::AcceptsDocument { names, models, document } => {
                bytes("models", models);
                bytes("document", document);
                let _ = writeln!(out, "names: {names}");
            }
            Call::PutModel { names, parent, record, buffer } => {
                bytes("models", buffer);
                let _ = writeln!(out, "names: {names}\nparent: {parent}\nrecord: {record:?}");
            }
            Call::FillModels { book, buffer } => {
                bytes("book", book);
                bytes("models", buffer);
            }
            Call::Dtd { book } => bytes("book", book),
        }
        out
    }
}

/// Which of two records is bad, or both, and whether one is so by its text byte alone.
fn bad_of_two(names: usize, first: &Record, second: &Record) -> &'static str {
    match [first, second].map(|record| (record.is_model(names), record.is_chain(names))) {
        [(false, false), (true, _)] => "-first",
        [(false, true), (true, _)] => "-first-text",
        [(true, _), (false, false)] => "-second",
        [(true, _), (false, true)] => "-second-text",
        _ => "-both",
    }
}

/// All elements of a document, the root first.
fn elements(root: &Element) -> Vec<&Element> {
    [root].into_iter().chain(root.children.iter().flat_map(elements)).collect()
}

/// What a verdict rests on. Of a yes: whether a word is longer than a word call takes, or text is there. Of a no: whether only
/// models are missing, or only words or only text are wrong.
fn verdict_on(names: usize, table: &[u8], bytes: &[u8]) -> &'static str {
    let models = records(names, table);
    let root = document::read(names, bytes).expect("the document has a verdict");
    let all = elements(&root);
    let with_model = |one: &&Element| models[one.name as usize].map(|model| (model, one.word(), one.text));
    let known: Vec<(Record, Vec<u8>, bool)> = all.iter().filter_map(with_model).collect();
    let missing = known.len() < all.len();
    let word = known.iter().any(|(model, word, _)| !model.accepts(word));
    let text = known.iter().any(|(model, _, text)| *text && model.text == 0);
    let longest = known.iter().map(|(_, word, _)| word.len()).max();
    match (missing, word, text) {
        (false, false, false) if longest > Some(second::calls::MOST_WORD) => "-long",
        (false, false, false) if all.iter().any(|one| one.text) => "-text",
        (false, false, false) => "",
        (true, false, false) => "-model",
        (false, true, false) => "-word",
        (false, false, true) => "-text",
        _ => "-several",
    }
}

/// Whether every name has a model in a table that was filled, or some have none; with `-text` one of them allows text.
fn rows_in(answer: &Answer) -> &'static str {
    let Answer::Written(_, length, after) = answer else { return "" };
    let models = records(length / ROW, after);
    let text = models.iter().flatten().any(|model| model.text == 1);
    match (models.iter().all(Option::is_some), text) {
        (true, false) => "-all",
        (true, true) => "-all-text",
        (false, false) => "-some",
        (false, true) => "-some-text",
    }
}

/// What a model allows: `text` alone, names and text `mixed`, or no text, `0`.
fn content(record: &Record) -> &'static str {
    match (record.text, record.count) {
        (0, _) => "0",
        (_, 0) => "text",
        _ => "mixed",
    }
}

/// The same of one declaration or several: `mixed` where one is so, else `text` where one is so.
fn content_of_text(text: &[u8]) -> &'static str {
    let has = |part: &[u8]| text.windows(part.len()).any(|bytes| bytes == part);
    match (has(b"(#PCDATA|"), has(b"(#PCDATA)")) {
        (true, _) => "mixed",
        (_, true) => "text",
        _ => "0",
    }
}

impl Answer {
    /// What kind of answer it is by itself. A no on two records that the empty word shows is `empty`, and one with a word of 65
    /// names `longest`; since the second implementation finds a shortest word, such a no needs that many.
    fn kind(&self) -> String {
        match self {
            Answer::Inclusion(0, false, 0, _) => String::from("empty"),
            Answer::Inclusion(0, false, MOST_COUNTEREXAMPLE, _) => String::from("longest"),
            Answer::Verdict(0, yes) | Answer::Inclusion(0, yes, ..) => String::from(if *yes { "yes" } else { "no" }),
            Answer::Written(0, length, after) => String::from(content_of_text(&after[..*length])),
            Answer::Model(0, record) | Answer::Read(0, _, record) => String::from(content(record)),
            Answer::Model(n, _)
            | Answer::Verdict(n, _)
            | Answer::Inclusion(n, ..)
            | Answer::Written(n, ..)
            | Answer::Put(n, _)
            | Answer::Read(n, ..) => n.to_string(),
            Answer::Printed(out) => match out.strip_prefix(b"refused ") {
                Some(number) => String::from_utf8_lossy(number).trim().to_string(),
                None => String::from(content_of_text(out)),
            },
            Answer::Nobody => String::from("nobody"),
        }
    }

    pub fn shown(&self) -> String {
        match self {
            Answer::Written(number, length, buffer) => {
                format!(
                    "number {number}, length {length}, buffer then {}\n  as text: {}",
                    hex(buffer),
                    String::from_utf8_lossy(buffer)
                )
            }
            Answer::Put(number, buffer) => format!("number {number}, models then {}", hex(buffer)),
            Answer::Inclusion(number, yes, length, buffer) => {
                format!("number {number}, {}, length {length}, buffer then {}", if *yes { "yes" } else { "no" }, hex(buffer))
            }
            Answer::Printed(out) => format!("printed {}", String::from_utf8_lossy(out)),
            other => format!("{other:?}"),
        }
    }
}

/// Bytes in hexadecimal; of long ones the first 2,000, since the case's number gives all of them again.
fn hex(bytes: &[u8]) -> String {
    let mut out = String::new();
    for b in &bytes[..bytes.len().min(2000)] {
        let _ = write!(out, "{b:02x}");
    }
    if bytes.len() > 2000 {
        out.push_str("..");
    }
    out
}
