//! What the engineer's card says of text and of unused names, and where it cannot be read or written. Needs the static
//! library.

use std::fs::OpenOptions;
use std::io::Write;
use std::process::{Command, Stdio};

const BOOK: &str = concat!(env!("CARGO_MANIFEST_DIR"), "/../../samples/feed.book");

/// The status and the messages for a book, with the card written there.
fn card(book: &str, out: Stdio) -> (Option<i32>, String) {
    let done = Command::new(env!("CARGO_BIN_EXE_card")).arg(book).stdout(out).stderr(Stdio::piped()).output().unwrap();
    (done.status.code(), String::from_utf8(done.stderr).unwrap())
}

#[test]
fn a_book_that_cannot_be_read_is_named() {
    let missing = (Some(1), String::from("card: no/such.book: No such file or directory (os error 2)\n"));
    assert_eq!(card("no/such.book", Stdio::null()), missing);
    let (status, said) = card(file!(), Stdio::null());
    assert_eq!(status, Some(1));
    assert!(said.starts_with("card: ") && said.contains("card.rs: "), "{said}");
}

#[test]
fn a_card_that_cannot_be_written_is_no_success() {
    assert_eq!(card(BOOK, Stdio::null()), (Some(0), String::new()));
    let full = OpenOptions::new().write(true).open("/dev/full").unwrap();
    let said = String::from("card: standard output: No space left on device (os error 28)\n");
    assert_eq!(card(BOOK, full.into()), (Some(1), said));
    let (reader, writer) = std::io::pipe().unwrap();
    drop(reader);
    assert_eq!(card(BOOK, writer.into()), (Some(1), String::new()));
}

/// The status of a book on standard input, with its card and the messages.
fn card_of(book: &[u8]) -> (Option<i32>, String) {
    let mut command = Command::new(env!("CARGO_BIN_EXE_card"));
    command.stdin(Stdio::piped()).stdout(Stdio::piped()).stderr(Stdio::piped());
    let mut child = command.spawn().expect("the card starts");
    child.stdin.take().unwrap().write_all(book).unwrap();
    let done = child.wait_with_output().unwrap();
    (done.status.code(), String::from_utf8([done.stdout, done.stderr].concat()).unwrap())
}

#[test]
fn a_parent_with_text() {
    // The parents a with text and the children b and c in different blocks, b with text alone, and c with neither.
    let names = [3, 0, 1, b'a', 1, b'b', 1, b'c'];
    let blocks = [4, 0, 0, 1, 1, 1, 0, 0, 1, 2, 1, 1, 0, 2, 0, 0];
    let said = "<!ELEMENT a (#PCDATA|b|c)*>\n  mixed content: 1 of 2 blocks has text; any number of its names in any order\n  \
                allowed together, in no block together: b with c\n\
                <!ELEMENT b (#PCDATA)>\n<!ELEMENT c EMPTY>\n\
                parents with a block: 3; declared, read back and with no lost loop or text: 3\n";
    assert_eq!(card_of(&[&names[..], &blocks].concat()), (Some(0), said.to_string()));
}

/// The book of three blocks of `entry`: member, contribution, total; member, contribution, reason; member, leaver, reason.
fn entries(texts: [u8; 3]) -> Vec<u8> {
    let mut book = vec![6, 0];
    for name in ["contribution", "entry", "leaver", "member", "reason", "total"] {
        book.push(name.len() as u8);
        book.extend(name.bytes());
    }
    book.extend([3, 0]);
    for (text, word) in texts.into_iter().zip([[3, 0, 5], [3, 0, 4], [3, 2, 4]]) {
        book.extend([1, text, 3]);
        book.extend(word);
    }
    book
}

#[test]
fn a_stray_text_hides_no_pair() {
    for (texts, have) in [([0, 0, 1], "1 of 3 blocks has"), ([1, 0, 1], "2 of 3 blocks have")] {
        let said = format!(
            "<!ELEMENT entry (#PCDATA|contribution|leaver|member|reason|total)*>\n  \
             mixed content: {have} text; any number of its names in any order\n  \
             allowed together, in no block together: contribution with leaver\n  \
             allowed together, in no block together: leaver with total\n  \
             allowed together, in no block together: reason with total\n\
             parents with a block: 1; declared, read back and with no lost loop or text: 1\n"
        );
        assert_eq!(card_of(&entries(texts)), (Some(0), said));
    }
}

/// A book with the names a, b, c and d and these blocks.
fn four_names(blocks: &[&[u8]]) -> Vec<u8> {
    let names = [4, 0, 1, b'a', 1, b'b', 1, b'c', 1, b'd'];
    [&names[..], &[blocks.len() as u8, 0], &blocks.concat()].concat()
}

#[test]
fn the_first_unused_name_is_named() {
    let cases: [(&[&[u8]], &str); 4] = [
        (&[&[0, 0, 2, 1, 3]], "name 2, 'c'"),
        (&[&[1, 0, 1, 2]], "name 0, 'a', and 1 more"),
        (&[&[0, 1, 0], &[2, 0, 0]], "name 1, 'b', and 1 more"),
        (&[], "name 0, 'a', and 3 more"),
    ];
    for (blocks, unused) in cases {
        let said = format!(
            "card: standard input: refused 17: a name in the book is neither a parent nor a child in any block \
             ({unused}); remove each such name, or add a block that uses it\n"
        );
        assert_eq!(card_of(&four_names(blocks)), (Some(1), said));
    }
}

#[test]
fn a_refusal_before_17_names_no_unused_name() {
    let left_over = [four_names(&[&[0, 0, 0]]), vec![0]].concat();
    let said = "card: standard input: refused 7: the book has bytes left over after its last block\n";
    assert_eq!(card_of(&left_over), (Some(1), said.to_string()));
}

#[test]
fn names_without_a_block_of_their_own_are_used() {
    // Parent 0 has no block, so the library refuses its model with 9.
    let said = "<!ELEMENT b (a,c,d)>\nparents with a block: 1; declared, read back and with no lost loop or text: 1\n";
    assert_eq!(card_of(&four_names(&[&[1, 0, 3, 0, 2, 3]])), (Some(0), said.to_string()));
}
