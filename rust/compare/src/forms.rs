//! Declarations to read. With the answers written down: the texts that paper 01 and requests U1 and U5 of paper 02 name,
//! texts near them, and every byte where white space has to be, may be or may not be. And every beginning with every token and
//! every ending.

use crate::calls::{Answer, Call};
use crate::cases::{letters_book, record, word, Due, Factors};
use crate::make::{LATER, WHITE};
use second::record::{Record, EMPTY};

/// Models that are read.
const READ: &[(&str, Factors)] = &[
    ("(z)", &[("z", 0)]),
    ("( a? , ( c | b )+ )  ", &[("a", 1), ("bc", 2)]),
    ("((b|a))", &[("ab", 0)]),
    ("(a,\tb)", &[("a", 0), ("b", 0)]),
    ("EMPTY\n", &[]),
    ("\r\n\tEMPTY\r\n", &[]),
    // One group is the whole model.
    ("(a)", &[("a", 0)]),
    ("(a)?", &[("a", 1)]),
    ("(a)+", &[("a", 2)]),
    ("(a )*", &[("a", 3)]),
    ("(a|b)", &[("ab", 0)]),
    ("(b|a)?", &[("ab", 1)]),
    ("( a\n|\tb )+", &[("ab", 2)]),
    ("(a|b)*", &[("ab", 3)]),
    ("(c|z|a|b)*\r\n", &[("abcz", 3)]),
    // A factor of one name in its own brackets.
    ("((a))", &[("a", 0)]),
    ("( (a) )", &[("a", 0)]),
    ("((a)*)", &[("a", 3)]),
    ("((a),b)", &[("a", 0), ("b", 0)]),
    ("((a)?,b)", &[("a", 1), ("b", 0)]),
    ("(b?,(\ta\n)+\r,(c))", &[("b", 1), ("a", 2), ("c", 0)]),
    ("((a|b)*)", &[("ab", 3)]),
];

/// Models with text that are read, and their names.
const READ_WITH_TEXT: &[(&str, &str)] = &[
    ("(#PCDATA)", ""),
    ("(#PCDATA)*", ""),
    ("( #PCDATA )", ""),
    ("\t(\n#PCDATA\r)*  ", ""),
    ("(#PCDATA|a)*", "a"),
    ("( #PCDATA | a )*", "a"),
    ("(#PCDATA|a|b)*", "ab"),
    ("(#PCDATA|b|a)*", "ab"),
    ("(#PCDATA|z|a)*\r\n", "az"),
    ("(#PCDATA\t|c\n|\ra|b )*", "abc"),
];

/// Models that are refused, with their numbers.
const REFUSED: &[(u8, &[&str])] = &[
    (13, &["()", "()*", "(,a)", "(a,)", "(|a)", "(a|)", "(a b)", "a", "a*", "(a", "a)", "(a))", "(a)b", "(a)(b)", "(a;b)"]),
    (13, &["(a,b)+", "((a),b)*", "(a?)*", "(a|b*)", "((a|b))*", "((a))?", "((a)*)*", "EMPTY*"]),
    (13, &["(a)**", "(a|b)?+", "((a)??)", "(a??)", "(a,b|c)", "(a|b,c)"]),
    (13, &["(a ?)", "(a) *", "(a|b) *", "(a|b)\n*", "(a)\t?", "((a|b) *)", "((a) ?)", "((a)\r+,b)", "(a\n*)"]),
    (13, &["((a?),b)", "((a*))", "((a)|b)", "(a|(b))", "((a)|(b))", "((a,b))", "((a),(b,c))", "((),a)"]),
    (13, &["(((a)))", "(((a|b)))", "(((a)),b)", "ANY", "EMPTYx", "EMPTY EMPTY", "(EMPTY", "EMPTY()"]),
    (13, &["(9)", "(9)*", "(a|-b)", "((.a),b)", "(#)", "(#a)", "(a|#)*"]),
    (13, &["(#PCDATA)+", "(#PCDATA)?", "(#PCDATA|a)", "(a|#PCDATA)*", "(#PCDATA,a)*", "((#PCDATA))", "(#PCDATA|(a))*"]),
    (13, &["(#PCDATA) *", "#PCDATA", "(#PCDATA|#PCDATA)*", "(#PCDATA|a)+", "(#PCDATA|a?)*", "(#PCDATAx)", "(# PCDATA)"]),
    (13, &["(#pcdata)", "#PCDATA*", "(#PCDATA", "(#PCDATA|)*", "(#PCDATA|a) *", "(#PCDATA)**", "(#PCDATA|a)**", "(#PCDATA*)"]),
    (13, &["(#PCDATA|a)?", "(#PCDATA a)*", "((#PCDATA)*)", "((#PCDATA|a)*)", "(a,#PCDATA)", "(#PCDATA|a,b)*", "(#PCDATA|9)*"]),
    (14, &["(PCDATA)", "(#PCDATA|aa)*", "(#PCDATA|a|a|aa)*", "(#PCDATA|PCDATA)*"]),
    (15, &["(#PCDATA|a|a)*", "(#PCDATA|b|a|b)*", "(#PCDATA|z|z)*"]),
    (14, &["(aa)", "(aa)*", "(a|aa)", "((aa))", "((aa)?,b)", "(a,a,aa)", "(a|a|aa)+", "((a),(a),aa)", "(aa,aa)"]),
    (15, &["(a,a)", "((a|a))", "(a|a)", "(a|b|a)*", "((a),a)", "(a,(a)?)", "((a),(a))", "((a),(b|a)*)"]),
];

/// Whole texts that are refused with 13: something before the declaration or behind it, white space that is missing, characters
/// that are no white space.
const NO_TEXTS: &[&[u8]] = &[
    b"",
    b" <!ELEMENT z (a)>",
    b"\n<!ELEMENT z (a)>",
    b"x<!ELEMENT z (a)>",
    b"\xEF\xBB\xBF<!ELEMENT z (a)>",
    b"<!ELEMENT z (a)> ",
    b"<!ELEMENT z (a)*>\r\n",
    b"<!ELEMENT z (a)>>",
    b"<!ELEMENT z (a|b)>x",
    b"<!ELEMENT z (a)><!ELEMENT z (a)>",
    b"< !ELEMENT z (a)>",
    b"<!ELEMENTz (a)>",
    b"<!ELEMENT z(a)>",
    b"<!ELEMENT z (a)",
    b"<!ELEMENT z (a) \n",
    b"<!ELEMENT (a)>",
    b"<!ELEMENT z>",
    b"<!ELEMENT\x0Cz (a)>",
    b"<!ELEMENT z (a\x0B,b)>",
    b"<!ELEMENT z\x85(a)>",
    b"<!ELEMENT z (a|b)\xC2\x85>",
    b"<!ELEMENT z \xA0(a)>",
    b"<!ELEMENT z (\xC2\xA0a)>",
    b"<!ELEMENT z (a|\0b)>",
];

/// The record with text and these names in letters.
fn with_text(names: &str) -> Record {
    Record::with_text(word(names))
}

/// What is due of a text that is refused.
fn refused(number: u8) -> Answer {
    Answer::Read(number, 0, EMPTY)
}

/// The texts above; the parent is z, number 25.
pub fn texts() -> Vec<Due> {
    let book = letters_book();
    let call = |text: &[u8], due: Answer| (Call::ReadDeclaration { book: book.clone(), text: text.to_vec() }, Some(due));
    let of_model = |model: &str, due: Answer| call(format!("<!ELEMENT z {model}>").as_bytes(), due);
    let mut calls: Vec<Due> = READ.iter().map(|(model, factors)| of_model(model, Answer::Read(0, 25, record(factors)))).collect();
    calls.extend(READ_WITH_TEXT.iter().map(|(model, names)| of_model(model, Answer::Read(0, 25, with_text(names)))));
    for (number, models) in REFUSED {
        calls.extend(models.iter().map(|model| of_model(model, refused(*number))));
    }
    calls.extend(NO_TEXTS.iter().map(|text| call(text, refused(13))));
    // An unknown parent, where the names of the model are good, unknown or there twice.
    for model in ["EMPTY", "(a)*", "(a|b)", "(a|aa)", "(a|a)", "((a),a)", "(#PCDATA)", "(#PCDATA|a|a)*"] {
        calls.push(call(format!("<!ELEMENT zz {model}>").as_bytes(), refused(14)));
    }
    // A name of 32 bytes is good, and not in the book; one of 33 is bad.
    for (size, number) in [(32, 14), (33, 13)] {
        let long = "x".repeat(size);
        let of_text = format!("(#PCDATA|{long})*");
        for model in [format!("({long})"), format!("({long})?"), format!("(a|{long})*"), format!("((\n{long}),a)"), of_text] {
            calls.push(of_model(&model, refused(number)));
        }
    }
    calls
}

/// Texts with the places where white space has to be (`_`), may be (`~`) and may not be (`^`).
const PLACED: &[(&str, Factors)] = &[
    ("<!ELEMENT_z_~EMPTY~>", &[]),
    ("^<!^ELEMENT_z_(~a~)^?~>^", &[("a", 1)]),
    ("<!ELEMENT_z_~(~a~|~b~)^*~>", &[("ab", 3)]),
    ("<!ELEMENT_z_(~a^+~,~(~b~)^?~,~(~d~|~c~)^*~)~>", &[("a", 2), ("b", 1), ("cd", 3)]),
];

/// The same of models with text, and their names.
const PLACED_WITH_TEXT: &[(&str, &str)] =
    &[("<!ELEMENT_z_~(~#^P^CDATA~)~>", ""), ("<!ELEMENT_z_~(~#PCDATA~)^*~>", ""), ("<!ELEMENT_z_~(~#PCDATA~|~b~|~a~)^*~>", "ab")];

/// The text with these bytes at one of its places. Of the others only those that need it have white space.
fn with_bytes(text: &str, place: usize, bytes: &[u8]) -> Vec<u8> {
    let mut out = Vec::new();
    for (i, b) in text.bytes().enumerate() {
        match b {
            _ if i == place => out.extend(bytes),
            b'_' => out.push(b' '),
            b'~' | b'^' => {}
            _ => out.push(b),
        }
    }
    out
}

/// Every byte at each of these places. Except where white space has to be, what is due of a name's byte or a mark is left to the
/// second implementation.
pub fn white_space() -> Vec<Due> {
    let book = letters_book();
    let mut calls: Vec<Due> = Vec::new();
    let of_factors = PLACED.iter().map(|(text, factors)| (text, record(factors)));
    let of_text = PLACED_WITH_TEXT.iter().map(|(text, names)| (text, with_text(names)));
    for (text, record) in of_factors.chain(of_text) {
        let mut call = |at: usize, bytes: &[u8], due: Option<Answer>| {
            calls.push((Call::ReadDeclaration { book: book.clone(), text: with_bytes(text, at, bytes) }, due));
        };
        for (at, place) in text.bytes().enumerate().filter(|(_, place)| b"_~^".contains(place)) {
            for byte in 0..=255 {
                let due = match (place, WHITE.contains(&byte)) {
                    (b'_' | b'~', true) => Some(Answer::Read(0, 25, record)),
                    (b'_', false) | (b'^', true) => Some(refused(13)),
                    _ if LATER.contains(&byte) || b"?+*".contains(&byte) => None,
                    _ => Some(refused(13)),
                };
                call(at, &[byte], due);
            }
            for character in ["\u{85}", "\u{a0}"] {
                call(at, character.as_bytes(), Some(refused(13)));
            }
        }
    }
    calls
}

/// Beginnings of declarations behind `<!ELEMENT`, one for each place of the grammar.
const BEGINNINGS: &[&str] = &[
    "",
    " z",
    " z EMPTY",
    " z (",
    " z (a",
    " z (a|",
    " z (a|b",
    " z (a)",
    " z (a)*",
    " z (a,",
    " z (a,b",
    " z (a?",
    " z ((",
    " z ((a",
    " z ((a|",
    " z ((a)",
    " z (a)>",
    " z (#PCDATA",
    " z (#PCDATA|",
    " z (#PCDATA|a",
    " z (#PCDATA|a)",
    " z (#PCDATA)",
];

/// Each token, a byte that is none, and nothing.
const TOKENS: &[&str] = &["c", "EMPTY", "#PCDATA", "(", ")", ",", "|", ">", "?", "+", "*", "#", ""];

/// Endings: for each place one or more that end a declaration.
const ENDINGS: &[&str] = &[
    "",
    ">",
    "*>",
    ")>",
    ")*>",
    "))>",
    ")*)>",
    "d)>",
    "d)*>",
    "d))>",
    "|d)>",
    "|d)*>",
    "|d))>",
    ",d)>",
    ",(d))>",
    "(d)>",
    "(d))>",
    "z (d)>",
    "z EMPTY>",
    "EMPTY>",
    "z (#PCDATA)>",
];

/// Every token between every beginning and every ending, with and without white space before it and behind it.
pub fn joined() -> Vec<Due> {
    let book = letters_book();
    let mut calls = Vec::new();
    for beginning in BEGINNINGS {
        for token in TOKENS {
            for ending in ENDINGS {
                for (before, behind) in [("", ""), (" ", ""), ("", " "), (" ", " ")] {
                    let text = ["<!ELEMENT", beginning, before, token, behind, ending].concat().into_bytes();
                    calls.push((Call::ReadDeclaration { book: book.clone(), text }, None));
                }
            }
        }
    }
    calls
}
