//! One declaration, written in house spelling and read in every spelling that paper 01 and requests U1 and U5 of paper 02 allow.

use crate::book::is_name;
use crate::record::{Record, EMPTY};
use crate::Refusal;

/// The declaration of a parent with a model over these names, in house spelling.
pub fn written(names: &[Vec<u8>], parent: usize, record: &Record) -> Vec<u8> {
    let mut text = b"<!ELEMENT ".to_vec();
    text.extend(&names[parent]);
    text.push(b' ');
    if record.text == 1 {
        text.extend(text_model(names, record));
    } else if record.count == 0 {
        text.extend(b"EMPTY");
    } else {
        let factors: Vec<Vec<u8>> = (0..record.count).map(|i| factor_text(names, record, i)).collect();
        text.push(b'(');
        text.extend(factors.join(&b','));
        text.push(b')');
    }
    text.push(b'>');
    text
}

/// `#PCDATA` alone, or before the names of the one factor.
fn text_model(names: &[Vec<u8>], record: &Record) -> Vec<u8> {
    let mut text = b"(#PCDATA".to_vec();
    for &x in &record.names_of(0) {
        text.push(b'|');
        text.extend(&names[x as usize]);
    }
    text.extend(if record.count == 0 { &b")"[..] } else { b")*" });
    text
}

fn factor_text(names: &[Vec<u8>], record: &Record, i: usize) -> Vec<u8> {
    // Names rise by bytes, so their numbers' order is theirs.
    let held: Vec<&[u8]> = record.names_of(i).iter().map(|&x| &names[x as usize][..]).collect();
    let mut text = held.join(&b'|');
    if held.len() > 1 {
        text.insert(0, b'(');
        text.push(b')');
    }
    match record.mode[i] {
        1 => text.push(b'?'),
        2 => text.push(b'+'),
        3 => text.push(b'*'),
        _ => {}
    }
    text
}

/// The names of a factor and its mode.
type Factor<'a> = (Vec<&'a [u8]>, u8);

/// What is behind the parent: whether text is allowed, and the factors.
struct Content<'a> {
    text: bool,
    factors: Vec<Factor<'a>>,
}

/// A text's form, its names not yet looked up.
struct Form<'a> {
    parent: &'a [u8],
    content: Content<'a>,
}

/// White space by production 3 of XML 1.0: space, tab, CR, LF.
const WHITE: &[u8] = b"\x20\x09\x0D\x0A";

/// What is left of a text. Each production of the grammar is a method, which takes what it describes off the front or says 13:
///
/// ```text
/// text    = '<!ELEMENT' S+ Name S+ content S* '>'
/// content = 'EMPTY' | mixed | group mark? | list
/// mixed   = '(' S* '#PCDATA' S* ')' '*'? | '(' S* '#PCDATA' (S* '|' S* Name)+ S* ')*'
/// list    = '(' S* factor (S* ',' S* factor)* S* ')'
/// factor  = Name mark? | group mark?
/// group   = '(' S* Name (S* '|' S* Name)* S* ')'
/// mark    = '?' | '+' | '*'
/// ```
struct Text<'a>(&'a [u8]);

impl<'a> Text<'a> {
    fn text(&mut self) -> Result<Form<'a>, Refusal> {
        self.exactly(b"<!ELEMENT")?;
        self.some_white()?;
        let parent = self.name()?;
        self.some_white()?;
        let content = self.content()?;
        self.any_white();
        self.exactly(b">")?;
        self.end()?;
        Ok(Form { parent, content })
    }

    fn content(&mut self) -> Result<Content<'a>, Refusal> {
        let all = self.0;
        if let Ok(names) = self.mixed() {
            let factors = if names.is_empty() { vec![] } else { vec![(names, 3)] };
            return Ok(Content { text: true, factors });
        }
        self.0 = all;
        Ok(Content { text: false, factors: self.children()? })
    }

    /// The names behind `#PCDATA`. No name begins with `#`, so a model that has it in front is of no other form.
    fn mixed(&mut self) -> Result<Vec<&'a [u8]>, Refusal> {
        self.exactly(b"(")?;
        self.any_white();
        self.exactly(b"#PCDATA")?;
        self.any_white();
        let mut names = Vec::new();
        while self.takes(b"|") {
            self.any_white();
            names.push(self.name()?);
            self.any_white();
        }
        self.exactly(b")")?;
        let star = self.takes(b"*");
        (star || names.is_empty()).then_some(names).ok_or(13)
    }

    /// Factors without text. A list is tried where no group is in front. Where both are, they are the same: one name in brackets.
    fn children(&mut self) -> Result<Vec<Factor<'a>>, Refusal> {
        if self.takes(b"EMPTY") {
            return Ok(vec![]);
        }
        let all = self.0;
        if let Ok(names) = self.group() {
            return Ok(vec![(names, self.mark())]);
        }
        self.0 = all;
        self.list()
    }

    fn list(&mut self) -> Result<Vec<Factor<'a>>, Refusal> {
        self.bracketed(b",", Self::factor)
    }

    fn factor(&mut self) -> Result<Factor<'a>, Refusal> {
        let names = if self.0.starts_with(b"(") { self.group()? } else { vec![self.name()?] };
        Ok((names, self.mark()))
    }

    fn group(&mut self) -> Result<Vec<&'a [u8]>, Refusal> {
        self.bracketed(b"|", Self::name)
    }

    /// '(' S* part (S* sign S* part)* S* ')'
    fn bracketed<T>(&mut self, sign: &[u8], part: fn(&mut Self) -> Result<T, Refusal>) -> Result<Vec<T>, Refusal> {
        self.exactly(b"(")?;
        self.any_white();
        let mut parts = vec![part(self)?];
        self.any_white();
        while self.takes(sign) {
            self.any_white();
            parts.push(part(self)?);
            self.any_white();
        }
        self.exactly(b")")?;
        Ok(parts)
    }

    /// The mode that a mark gives; none is mode 0.
    fn mark(&mut self) -> u8 {
        for (mark, mode) in [(b"?", 1), (b"+", 2), (b"*", 3)] {
            if self.takes(mark) {
                return mode;
            }
        }
        0
    }

    /// The longest run of bytes that a name may have; 13 if it is no name.
    fn name(&mut self) -> Result<&'a [u8], Refusal> {
        let part = |b: u8| b.is_ascii_alphanumeric() || b == b'_' || b == b'-' || b == b'.';
        let n = self.0.iter().take_while(|&&b| part(b)).count();
        let (name, rest) = self.0.split_at(n);
        self.0 = rest;
        is_name(name).then_some(name).ok_or(13)
    }

    /// S*
    fn any_white(&mut self) {
        let n = self.0.iter().take_while(|b| WHITE.contains(b)).count();
        self.0 = &self.0[n..];
    }

    /// S+
    fn some_white(&mut self) -> Result<(), Refusal> {
        let before = self.0.len();
        self.any_white();
        (self.0.len() < before).then_some(()).ok_or(13)
    }

    /// Whether these bytes are in front; then they are taken off.
    fn takes(&mut self, what: &[u8]) -> bool {
        let rest = self.0.strip_prefix(what);
        self.0 = rest.unwrap_or(self.0);
        rest.is_some()
    }

    fn exactly(&mut self, what: &[u8]) -> Result<(), Refusal> {
        self.takes(what).then_some(()).ok_or(13)
    }

    /// Nothing is left.
    fn end(&self) -> Result<(), Refusal> {
        self.0.is_empty().then_some(()).ok_or(13)
    }
}

/// The parent's number and the record of a declaration over these names, or 13, 14 or 15.
pub fn read(names: &[Vec<u8>], text: &[u8]) -> Result<(usize, Record), Refusal> {
    let form = Text(text).text()?;
    let number = |name: &[u8]| names.iter().position(|n| n == name).ok_or(14u8);
    let parent = number(form.parent)?;
    let mut factors: Vec<(Vec<usize>, u8)> = Vec::new();
    for (held, mode) in &form.content.factors {
        let numbers = held.iter().map(|name| number(name)).collect::<Result<Vec<usize>, Refusal>>()?;
        factors.push((numbers, *mode));
    }
    let mut seen = std::collections::BTreeSet::new();
    for (numbers, _) in &factors {
        for &x in numbers {
            if !seen.insert(x) {
                return Err(15);
            }
        }
    }
    let mut record = EMPTY;
    record.count = factors.len();
    record.text = u8::from(form.content.text);
    for (i, (numbers, mode)) in factors.iter().enumerate() {
        for &x in numbers {
            record.factor[x] = i as u8;
        }
        record.mode[i] = *mode;
    }
    Ok((parent, record))
}
