//! verdict [--self] SAMPLE OTHER
//!
//! Prints yes if every block of the book OTHER is accepted by the model that the book SAMPLE gives its parent, and that
//! model allows text where the block has text; else no. Both books have the same names. The calls are those of the static
//! library (feature `library`), with --self those of the second implementation.

use compare::calls::{Calls, Second};
use compare::program::Proved;
use std::process::exit;

fn fail(why: &str) -> ! {
    eprintln!("verdict: {why}");
    exit(2)
}

fn main() {
    let mut arguments: Vec<String> = std::env::args().skip(1).collect();
    let with_itself = arguments.first().is_some_and(|a| a == "--self");
    if with_itself {
        arguments.remove(0);
    }
    let [sample, other] = &arguments[..] else { fail("usage: verdict [--self] SAMPLE OTHER") };
    let read = |file: &String| std::fs::read(file).unwrap_or_else(|e| fail(&format!("{file}: {e}")));
    let (sample, other) = (read(sample), read(other));
    let mut calls: Box<dyn Calls> = if with_itself { Box::new(Second) } else { Box::new(Proved { dtd: None }) };
    if !calls.has_library() {
        fail("this program was built without the static library: give --self, or build with --features library");
    }
    let parts = |bytes| second::book::read(bytes).unwrap_or_else(|n| fail(&format!("refused {n}")));
    let (names, blocks) = (parts(&sample).names, parts(&other));
    if names != blocks.names {
        fail("the books have different names");
    }
    let yes = blocks.blocks.iter().all(|block| {
        let (refused, model) = calls.model_of_parent(&sample, block.parent as usize);
        match refused {
            0 => block.text <= model.text && calls.accepts_word(names.len(), &model, &block.word) == (0, true),
            9 => false,
            n => fail(&format!("the model of parent {} is refused with {n}", block.parent)),
        }
    });
    println!("{}", if yes { "yes" } else { "no" });
}
