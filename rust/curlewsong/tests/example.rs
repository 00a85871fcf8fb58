//! The safe calls on the example of paper 01, on small books and on small models. Needs the static library.

use curlewsong::*;

/// Six names and three blocks of `entry`.
fn book() -> Vec<u8> {
    let mut book = vec![6, 0];
    for name in ["contribution", "entry", "leaver", "member", "reason", "total"] {
        book.push(name.len() as u8);
        book.extend(name.bytes());
    }
    book.extend([3, 0, 1, 0, 3, 3, 0, 5, 1, 0, 3, 3, 2, 4, 1, 0, 3, 3, 0, 4]);
    book
}

const TEXT: &[u8] = b"<!ELEMENT entry (member,(contribution|leaver),(reason|total))>";

#[test]
fn from_the_book_to_a_verdict() {
    let model = model_of_parent(&book(), 1).unwrap();
    assert_eq!(model.count, 3);
    assert_eq!(accepts_word(6, model, &[3, 0, 5]), Ok(true));
    // A contribution and a leaver together: no sample has both.
    assert_eq!(accepts_word(6, model, &[3, 0, 2, 4]), Ok(false));
    assert_eq!(accepts_word(6, model, &[]), Ok(false));
    assert_eq!(accepts_word(6, EMPTY, &[]), Ok(true));
    assert_eq!(accepts_word(6, model, &[6]), Err(Refusal(11)));
    assert_eq!(accepts_word(6 + 256, model, &[3]), Err(Refusal(3)));
    assert_eq!(model_of_parent(&book(), 0), Err(Refusal(9)));
    assert_eq!(model_of_parent(&book(), 257), Err(Refusal(8)));
    assert_eq!(model_of_parent(&[], 1), Err(Refusal(2)));
}

/// The model with these factors, each its names and its mode.
fn chain(factors: &[(&[usize], u8)]) -> Model {
    let mut model = Model { count: factors.len(), ..EMPTY };
    for (i, (names, mode)) in factors.iter().enumerate() {
        for &name in *names {
            model.factor[name] = i as u8;
        }
        model.mode[i] = *mode;
    }
    model
}

#[test]
fn one_model_within_another() {
    // (0, 1), (0?, 1+) and (0 | 1)*.
    let both = chain(&[(&[0], 0), (&[1], 0)]);
    let some = chain(&[(&[0], 1), (&[1], 2)]);
    let any = chain(&[(&[0, 1], 3)]);
    for (narrow, wide) in [(both, some), (both, any), (some, any), (EMPTY, any), (any, any)] {
        assert_eq!(within(2, narrow, wide), Ok(Inclusion::Yes));
    }
    for (wide, narrow) in [(some, both), (any, both), (any, some), (any, EMPTY), (both, EMPTY), (EMPTY, some)] {
        let Ok(Inclusion::No(word)) = within(2, wide, narrow) else { panic!("{wide:?} is not within {narrow:?}") };
        assert_eq!(accepts_word(2, wide, &word), Ok(true));
        assert_eq!(accepts_word(2, narrow, &word), Ok(false));
    }
    // These accept one word each, so no other word can be the answer.
    assert_eq!(within(2, EMPTY, both), Ok(Inclusion::No(vec![])));
    assert_eq!(within(2, both, EMPTY), Ok(Inclusion::No(vec![0, 1])));
    // The first of 64 factors repeats, and the second has it once.
    let plain: Vec<[usize; 1]> = (0..PLACES).map(|name| [name]).collect();
    let second = chain(&plain.iter().map(|names| (&names[..], 0)).collect::<Vec<_>>());
    let mut first = second;
    first.mode[0] = 2;
    let Ok(Inclusion::No(word)) = within(PLACES, first, second) else { panic!("a name more is none of the second") };
    assert!(word.len() <= LONGEST_COUNTEREXAMPLE && accepts_word(PLACES, first, &word) == Ok(true));
    assert_eq!(accepts_word(PLACES, second, &word), Ok(false));
}

#[test]
fn no_inclusion() {
    let (good, bad) = (chain(&[(&[0], 0)]), Model { count: 1, ..EMPTY });
    for (names, first, second, number) in
        [(0, bad, bad, 3), (65, good, good, 3), (256 + 1, good, good, 3), (1, bad, good, 10), (1, good, bad, 10)]
    {
        assert_eq!(within(names, first, second), Err(Refusal(number)));
        for size in [0, 64, 65] {
            let mut word = vec![7; size];
            assert_eq!(raw::within(names, first, second, &mut word), (number, false, 0));
            assert_eq!(word, vec![7; size]);
        }
    }
    // A buffer of 64 places is too short, also where the answer is yes, and one of 65 is not.
    for second in [good, EMPTY] {
        let mut word = [7; 66];
        assert_eq!(raw::within(1, good, second, &mut word[..64]), (12, false, 0));
        assert_eq!(word, [7; 66]);
    }
    let mut word = [7; 66];
    assert_eq!(raw::within(1, good, good, &mut word[..65]), (0, true, 0));
    assert_eq!(word, [7; 66]);
    assert_eq!(raw::within(1, good, EMPTY, &mut word[..65]), (0, false, 1));
    assert_eq!((word[0], &word[1..]), (0, &[7; 65][..]));
}

#[test]
fn written_and_read() {
    let mut buffer = [7u8; LONGEST_DECLARATION];
    let size = write_from_sample(&book(), 1, &mut buffer).unwrap();
    assert_eq!(&buffer[..size], TEXT);
    assert!(buffer[size..].iter().all(|&b| b == 7));
    let (parent, model) = read_declaration(&book(), &buffer[..size]).unwrap();
    assert_eq!((parent, model), (1, model_of_parent(&book(), 1).unwrap()));
    let mut exact = vec![7; size];
    assert_eq!(write_declaration(&book(), 1, model, &mut exact), Ok(size));
    assert_eq!(exact, TEXT);
    let mut short = vec![7; size - 1];
    assert_eq!(write_declaration(&book(), 1, model, &mut short), Err(Refusal(12)));
    assert!(short.iter().all(|&b| b == 7));
    assert_eq!(read_declaration(&book(), &TEXT[1..]), Err(Refusal(13)));
    assert_eq!(read_declaration(&book(), b"<!ELEMENT entry (leavers)>"), Err(Refusal(14)));
    assert_eq!(read_declaration(&book(), b"<!ELEMENT entry (leaver,leaver)>"), Err(Refusal(15)));
    assert_eq!(raw::read_declaration(&book(), b""), (13, 0, EMPTY));
}

/// The names a, b and c; two blocks of c and two of a, by turns; none of b.
const TWO_PARENTS: &[u8] = &[3, 0, 1, b'a', 1, b'b', 1, b'c', 4, 0, 2, 0, 1, 0, 0, 0, 2, 1, 1, 2, 0, 2, 0, 1, 0, 0, 0];

#[test]
fn the_whole_dtd() {
    let text = b"<!ELEMENT a (b*)>\n<!ELEMENT c (a,b?)>\n";
    for size in 0..text.len() + 9 {
        let mut buffer = vec![7; size];
        let answer = write_dtd(TWO_PARENTS, &mut buffer);
        if size < text.len() {
            assert_eq!((answer, buffer), (Err(Refusal(12)), vec![7; size]));
        } else {
            assert_eq!(answer, Ok(text.len()));
            assert_eq!(buffer, [&text[..], &vec![7; size - text.len()]].concat());
        }
    }
    let mut buffer = vec![7; LONGEST_DTD];
    let size = write_dtd(&book(), &mut buffer).unwrap();
    assert_eq!((&buffer[..size - 1], buffer[size - 1]), (TEXT, b'\n'));
    assert!(buffer[size..].iter().all(|&b| b == 7));
}

#[test]
fn no_dtd() {
    // The last child count is missing; a child is too large; bytes are left over; a text byte is too large.
    let last = TWO_PARENTS.len() - 1;
    for (bad, number) in [
        (TWO_PARENTS[..last].to_vec(), 2),
        ([&TWO_PARENTS[..last], &[1, 3]].concat(), 6),
        ([TWO_PARENTS, &[0]].concat(), 7),
        ([&TWO_PARENTS[..last - 1], &[2]].concat(), 16),
    ] {
        let mut buffer = [7; 99];
        assert_eq!(write_dtd(&bad, &mut buffer), Err(Refusal(number)));
        assert_eq!(raw::write_dtd(&bad, &mut buffer), (number, 0));
        assert_eq!(buffer, [7; 99]);
        assert_eq!(write_dtd(&bad, &mut []), Err(Refusal(number)));
    }
}

/// Every call that takes a book refuses this one, whatever else it is given, and keeps its buffer.
fn refused_by_every_call(book: &[u8], number: u8) {
    let bad = Model { count: 1, ..EMPTY };
    for parent in [0, 1, 2, 3, usize::MAX] {
        assert_eq!(model_of_parent(book, parent), Err(Refusal(number)));
        assert_eq!(raw::model_of_parent(book, parent), (number, EMPTY));
        for size in [0, 99] {
            let mut buffer = vec![7; size];
            assert_eq!(raw::write_from_sample(book, parent, &mut buffer), (number, 0));
            assert_eq!(raw::write_declaration(book, parent, EMPTY, &mut buffer), (number, 0));
            assert_eq!(raw::write_declaration(book, parent, bad, &mut buffer), (number, 0));
            assert_eq!(raw::write_dtd(book, &mut buffer), (number, 0));
            assert_eq!(raw::fill_models(book, &mut buffer), (number, 0));
            assert_eq!(buffer, vec![7; size]);
        }
    }
    for text in ["<!ELEMENT a (b)>", "", "<!ELEMENT x (b)>", "<!ELEMENT a (b,b)>"] {
        assert_eq!(raw::read_declaration(book, text.as_bytes()), (number, 0, EMPTY), "{text}");
    }
}

#[test]
fn unused_names() {
    let names = [3, 0, 1, b'a', 1, b'b', 1, b'c'];
    let book = |blocks: &[u8]| [&names[..], blocks].concat();
    // No block; then c, b and a are unused.
    let unused: [&[u8]; 4] = [&[0, 0], &[1, 0, 0, 0, 1, 1], &[2, 0, 0, 1, 0, 2, 0, 0], &[1, 0, 1, 0, 2, 2, 1]];
    for blocks in unused {
        refused_by_every_call(&book(blocks), 17);
        refused_by_every_call(&book(&[blocks, &[0]].concat()), 7);
    }
    // Every name is a parent alone; then two of them are children alone.
    assert_eq!(model_of_parent(&book(&[3, 0, 0, 0, 0, 1, 0, 0, 2, 0, 0]), 2), Ok(EMPTY));
    assert_eq!(model_of_parent(&book(&[1, 0, 2, 0, 2, 0, 1]), 2), Ok(chain(&[(&[0], 0), (&[1], 0)])));
    // A book that uses every name is refused for what comes behind.
    let good = book(&[1, 0, 2, 0, 2, 0, 1]);
    assert_eq!(model_of_parent(&good, 3), Err(Refusal(8)));
    assert_eq!(model_of_parent(&good, 0), Err(Refusal(9)));
    assert_eq!(write_dtd(&good, &mut []), Err(Refusal(12)));
    assert_eq!(read_declaration(&good, b""), Err(Refusal(13)));
}

#[test]
fn sixty_four_names_used_and_unused() {
    let name = |i: u8| [3, b'n', b'0' + i / 10, b'0' + i % 10];
    let names: Vec<u8> = [64, 0].into_iter().chain((0..64).flat_map(name)).collect();
    for unused in 0..64 {
        // The others are children of one parent; then one block more has the last one as its parent.
        let word: Vec<u8> = (0..64).filter(|x| *x != unused).collect();
        let block = [&[word[0], 0, 63][..], &word].concat();
        refused_by_every_call(&[&names[..], &[1, 0], &block].concat(), 17);
        let good = [&names[..], &[2, 0], &block, &[unused, 0, 0]].concat();
        assert_eq!(model_of_parent(&good, unused as usize), Ok(EMPTY), "{unused}");
    }
}

/// The names a, b and c: a with text and the children c and b in different blocks, b with text alone, c with neither.
const TEXT_BOOK: &[u8] = &[3, 0, 1, b'a', 1, b'b', 1, b'c', 4, 0, 0, 1, 1, 2, 0, 0, 1, 1, 1, 1, 0, 2, 0, 0];

#[test]
fn text_from_a_sample() {
    let mixed = Model { text: 1, ..chain(&[(&[1, 2], 3)]) };
    let text = Model { text: 1, ..EMPTY };
    let lines = ["<!ELEMENT a (#PCDATA|b|c)*>", "<!ELEMENT b (#PCDATA)>", "<!ELEMENT c EMPTY>"];
    for (parent, (model, line)) in [mixed, text, EMPTY].into_iter().zip(lines).enumerate() {
        assert_eq!(model_of_parent(TEXT_BOOK, parent), Ok(model));
        let mut buffer = vec![7; line.len()];
        assert_eq!(write_from_sample(TEXT_BOOK, parent, &mut buffer), Ok(line.len()));
        assert_eq!(buffer, line.as_bytes());
        buffer.fill(7);
        assert_eq!(write_declaration(TEXT_BOOK, parent, model, &mut buffer), Ok(line.len()));
        assert_eq!(buffer, line.as_bytes());
        assert_eq!(read_declaration(TEXT_BOOK, &buffer), Ok((parent, model)));
    }
    let mut buffer = [7; LONGEST_DTD];
    let size = write_dtd(TEXT_BOOK, &mut buffer).unwrap();
    assert_eq!(buffer[..size], *[lines.join("\n").as_bytes(), b"\n"].concat());
    assert_eq!(read_declaration(TEXT_BOOK, b"<!ELEMENT a ( #PCDATA\t| c|b )*>"), Ok((0, mixed)));
    assert_eq!(read_declaration(TEXT_BOOK, b"<!ELEMENT b (#PCDATA)*>"), Ok((1, text)));
    for (bad, number) in [("(#PCDATA|b)", 13), ("(b|#PCDATA)*", 13), ("(#PCDATA|d)*", 14), ("(#PCDATA|b|b)*", 15)] {
        let text = format!("<!ELEMENT a {bad}>");
        assert_eq!(raw::read_declaration(TEXT_BOOK, text.as_bytes()), (number, 0, EMPTY), "{bad}");
    }
}

#[test]
fn records_with_text() {
    let mixed = Model { text: 1, ..chain(&[(&[0, 1], 3)]) };
    let text = Model { text: 1, ..EMPTY };
    assert_eq!(accepts_word(2, mixed, &[1, 0, 1]), Ok(true));
    assert_eq!(accepts_word(2, text, &[]), Ok(true));
    assert_eq!(accepts_word(2, text, &[0]), Ok(false));
    // Words alone are compared.
    assert_eq!(within(2, text, EMPTY), Ok(Inclusion::Yes));
    assert_eq!(within(2, mixed, Model { text: 0, ..mixed }), Ok(Inclusion::Yes));
    assert_eq!(within(2, EMPTY, text), Ok(Inclusion::Yes));
    let bad = [
        Model { text: 2, ..EMPTY },
        Model { text: 255, ..mixed },
        Model { text: 1, ..chain(&[(&[0, 1], 2)]) },
        Model { text: 1, ..chain(&[(&[0], 3), (&[1], 3)]) },
    ];
    for bad in bad {
        assert_eq!(accepts_word(2, bad, &[]), Err(Refusal(10)), "{bad:?}");
        assert_eq!(within(2, bad, text), Err(Refusal(10)), "{bad:?}");
        assert_eq!(within(2, text, bad), Err(Refusal(10)), "{bad:?}");
        assert_eq!(raw::write_declaration(TEXT_BOOK, 0, bad, &mut [7; 99]), (10, 0), "{bad:?}");
    }
}

/// The byte pairs of a document: a capital letter opens the element of that name, a small one closes it, and `#` is text.
fn document(signs: &str) -> Vec<u8> {
    let pair = |sign: u8| match sign {
        b'#' => [2, 0],
        b'A'..=b'Z' => [0, sign - b'A'],
        _ => [1, sign - b'a'],
    };
    signs.bytes().flat_map(pair).collect()
}

#[test]
fn documents_by_the_models_of_a_book() {
    // a (#PCDATA|b|c)*, b (#PCDATA), c EMPTY.
    let mut models = [7; LONGEST_MODELS];
    assert_eq!(fill_models(TEXT_BOOK, &mut models), Ok(3 * MODEL_ROW));
    for (signs, yes) in
        [("A#CcB#b#a", true), ("B##b", true), ("Cc", true), ("C#c", false), ("ABCcba", false), ("AAaa", false), ("CBbc", false)]
    {
        assert_eq!(accepts_document(3, &models, &document(signs)), Ok(yes), "{signs}");
    }
    // Without the last byte of its row, or with 0 in front of it, c has no model.
    let good = document("ABbCca");
    assert_eq!(accepts_document(3, &models, &good), Ok(true));
    assert_eq!(accepts_document(3, &models[..3 * MODEL_ROW - 1], &good), Ok(false));
    assert_eq!(accepts_document(3, &models[..3 * MODEL_ROW - 1], &document("ABba")), Ok(true));
    models[2 * MODEL_ROW] = 0;
    assert_eq!(accepts_document(3, &models, &good), Ok(false));
    assert_eq!(put_model(3, 2, EMPTY, &mut models), Ok(()));
    assert_eq!(accepts_document(3, &models, &good), Ok(true));
    assert_eq!(accepts_document(3, &[], &good), Ok(false));
}

#[test]
fn documents_that_are_refused() {
    let mut models = vec![0; 2 * MODEL_ROW];
    put_model(2, 0, chain(&[(&[0, 1], 3)]), &mut models).unwrap();
    put_model(2, 1, EMPTY, &mut models).unwrap();
    for signs in ["", "#", "a", "A", "AB", "Ab", "ABab", "Aa#", "AaAa", "Aaa", "ACca", "#Aa"] {
        assert_eq!(raw::accepts_document(2, &models, &document(signs)), (18, false), "{signs}");
    }
    for pairs in [&[0, 0, 1][..], &[3, 0], &[0, 0, 2, 1, 1, 0], &[0, 0, 255, 0, 1, 0]] {
        assert_eq!(raw::accepts_document(2, &models, pairs), (18, false), "{pairs:?}");
    }
    let nested = |depth: usize| document(&("A".repeat(depth) + &"a".repeat(depth)));
    assert_eq!(accepts_document(2, &models, &nested(32)), Ok(true));
    assert_eq!(raw::accepts_document(2, &models, &nested(33)), (19, false));
    assert_eq!(accepts_document(2, &models, &[&nested(32)[..64], &[0, 2]].concat()), Err(Refusal(18)));
    // A word of 14,999 names; then one byte and two more, which is seen before the count of names.
    let longest = document(&format!("A{}a", "Bb".repeat(14_999)));
    assert_eq!(longest.len(), LONGEST_DOCUMENT);
    assert_eq!(accepts_document(2, &models, &longest), Ok(true));
    for more in 1..3 {
        assert_eq!(raw::accepts_document(0, &models, &[&longest[..], &vec![0; more]].concat()), (1, false));
    }
    assert_eq!(accepts_document(2, &models, &longest[1..]), Err(Refusal(18)));
    // The count, then each record.
    for names in [0, 65, 256 + 2, usize::MAX] {
        assert_eq!(raw::accepts_document(names, &models, &[9]), (3, false));
    }
    for (at, byte) in [(1, 2), (MODEL_ROW + 2, 2), (MODEL_ROW + 5, 0), (MODEL_ROW + 67, 1)] {
        let mut bad = models.clone();
        bad[at] = byte;
        assert_eq!(raw::accepts_document(2, &bad, &[9]), (10, false), "{at}");
        bad[at / MODEL_ROW * MODEL_ROW] = 0;
        assert_eq!(accepts_document(2, &bad, &[9]), Err(Refusal(18)), "{at}");
    }
}

#[test]
fn models_in_a_table() {
    let mixed = Model { text: 1, ..chain(&[(&[0, 2], 3)]) };
    let bad = Model { count: 1, ..EMPTY };
    for parent in 0..3 {
        let mut models = [7; 3 * MODEL_ROW];
        for (names, of, model, number) in
            [(0, 9, bad, 3), (65, 0, mixed, 3), (3, 3, bad, 8), (3, parent, bad, 10), (2, 0, mixed, 10)]
        {
            assert_eq!(raw::put_model(names, of, model, &mut models[..9]), number);
        }
        assert_eq!(put_model(3, usize::MAX, mixed, &mut models), Err(Refusal(8)));
        let (from, to) = (parent * MODEL_ROW, (parent + 1) * MODEL_ROW);
        assert_eq!(put_model(3, parent, mixed, &mut models[..to - 1]), Err(Refusal(12)));
        assert_eq!(models, [7; 3 * MODEL_ROW]);
        assert_eq!(put_model(3, parent, mixed, &mut models[..to]), Ok(()));
        let row = [&[1, 1, 1][..], &mixed.factor, &mixed.mode].concat();
        assert_eq!(models[from..to], row);
        assert!(models[..from].iter().chain(&models[to..]).all(|&b| b == 7));
    }
    // The names a and c of this book have blocks, b has none.
    let rows = 3 * MODEL_ROW;
    let mut models = [7; LONGEST_MODELS];
    assert_eq!(fill_models(TWO_PARENTS, &mut models[..rows - 1]), Err(Refusal(12)));
    assert_eq!(raw::fill_models(&TWO_PARENTS[1..], &mut models), (3, 0));
    assert_eq!(models, [7; LONGEST_MODELS]);
    assert_eq!(raw::fill_models(TWO_PARENTS, &mut models[..rows]), (0, rows));
    let mut put = [7; LONGEST_MODELS];
    put[MODEL_ROW..2 * MODEL_ROW].fill(0);
    for parent in [0, 2] {
        put_model(3, parent, model_of_parent(TWO_PARENTS, parent).unwrap(), &mut put).unwrap();
    }
    assert_eq!(models, put);
}

#[test]
fn reasons() {
    assert_eq!(Refusal(19).to_string(), "refused 19: the document opens an element at depth 33");
    assert_eq!(Refusal(17).to_string(), "refused 17: a name in the book is neither a parent nor a child in any block");
    assert_eq!(Refusal(16).to_string(), "refused 16: a text byte in the book is above 1");
    assert_eq!(Refusal(9).to_string(), "refused 9: no block in the book has the parent whose model is wanted from the sample");
}
