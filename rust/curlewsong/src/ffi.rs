//! What the static library exports, as include/curlewsong.h declares it. Nothing checks these lines against the library's source,
//! so they stand in this one place.

pub const PLACES: usize = 64;

#[repr(C)]
#[derive(Clone, Copy, PartialEq, Eq, Debug)]
pub struct Model {
    pub count: usize,
    pub factor: [u8; PLACES],
    pub mode: [u8; PLACES],
    /// 1 where text is allowed, 0 where not. A call takes any byte, and refuses with 10 one that does not fit the factors.
    pub text: u8,
}

#[repr(C)]
#[derive(Clone, Copy)]
pub struct ModelAnswer {
    pub refusal: u8,
    pub model: Model,
}

#[repr(C)]
#[derive(Clone, Copy)]
pub struct Verdict {
    pub refusal: u8,
    pub yes: bool,
}

#[repr(C)]
#[derive(Clone, Copy)]
pub struct Inclusion {
    pub refusal: u8,
    pub yes: bool,
    pub length: usize,
}

#[repr(C)]
#[derive(Clone, Copy)]
pub struct Written {
    pub refusal: u8,
    pub length: usize,
}

#[repr(C)]
#[derive(Clone, Copy)]
pub struct Read {
    pub refusal: u8,
    pub parent: usize,
    pub model: Model,
}

#[link(name = "curlewsong", kind = "static")]
extern "C" {
    pub fn curlewsong_model_of_parent(book: *const u8, book_length: usize, parent: usize) -> ModelAnswer;
    pub fn curlewsong_accepts_word(names: usize, model: Model, word: *const u8, word_length: usize) -> Verdict;
    pub fn curlewsong_within(names: usize, first: Model, second: Model, buffer: *mut u8, buffer_length: usize) -> Inclusion;
    pub fn curlewsong_write_declaration(
        book: *const u8,
        book_length: usize,
        parent: usize,
        model: Model,
        buffer: *mut u8,
        buffer_length: usize,
    ) -> Written;
    pub fn curlewsong_write_from_sample(
        book: *const u8,
        book_length: usize,
        parent: usize,
        buffer: *mut u8,
        buffer_length: usize,
    ) -> Written;
    pub fn curlewsong_write_dtd(book: *const u8, book_length: usize, buffer: *mut u8, buffer_length: usize) -> Written;
    pub fn curlewsong_read_declaration(book: *const u8, book_length: usize, text: *const u8, text_length: usize) -> Read;
    pub fn curlewsong_accepts_document(
        names: usize,
        models: *const u8,
        models_length: usize,
        document: *const u8,
        document_length: usize,
    ) -> Verdict;
    pub fn curlewsong_put_model(names: usize, parent: usize, model: Model, models: *mut u8, models_length: usize) -> u8;
    pub fn curlewsong_fill_models(book: *const u8, book_length: usize, models: *mut u8, models_length: usize) -> Written;
}
