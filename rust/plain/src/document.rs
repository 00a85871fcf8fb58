//! A whole document judged by a table of models, in one pass over its pairs.

use crate::{is_model, model, read_book, Model, EMPTY, NO_FACTS, PLACES};

/// The bytes of a row in a table: whether there is a model, its count, its text byte, its factors and its modes.
pub const ROW: usize = 3 + 2 * PLACES;

/// The most bytes of a document, and the most elements that are open at once.
pub const LONGEST: usize = 60_000;
const DEEPEST: usize = 32;

/// The models of a table over n names; a model of count `NO_MODEL` for a name that has none.
const NO_MODEL: usize = usize::MAX;

fn models(n: usize, table: &[u8]) -> Result<Box<[Model; PLACES]>, u8> {
    let mut all = Box::new([Model { count: NO_MODEL, ..EMPTY }; PLACES]);
    for (row, model) in table.chunks_exact(ROW).zip(&mut all[..n]) {
        if row[0] != 0 {
            model.count = row[1] as usize;
            model.text = row[2];
            model.factor.copy_from_slice(&row[3..3 + PLACES]);
            model.mode.copy_from_slice(&row[3 + PLACES..]);
            if !is_model(n, model) {
                return Err(10);
            }
        }
    }
    Ok(all)
}

/// An element that is open: its name, the factor that its children have come to, and whether they have taken a name there.
#[derive(Clone, Copy)]
struct Open {
    name: u8,
    factor: u8,
    taken: bool,
}

impl Open {
    fn new(name: u8) -> Open {
        Open { name, factor: 0, taken: false }
    }
}

/// Takes one more child, and says whether it may come here.
#[inline(always)]
fn step(m: &Model, open: &mut Open, child: u8) -> bool {
    let own = m.factor[child as usize % PLACES];
    while (open.factor as usize) < m.count {
        let mode = m.mode[open.factor as usize % PLACES];
        if own == open.factor && (!open.taken || mode >= 2) {
            open.taken = true;
            return true;
        }
        if !open.taken && mode % 2 == 0 {
            return false;
        }
        open.factor += 1;
        open.taken = false;
    }
    false
}

/// Whether the children may end here.
#[inline(always)]
fn may_end(m: &Model, open: Open) -> bool {
    let from = open.factor as usize + usize::from(open.taken);
    (from..m.count).all(|i| m.mode[i % PLACES] % 2 == 1)
}

/// Whether the pairs are a valid document by these models.
fn judged(n: usize, models: &[Model; PLACES], document: &[u8]) -> Result<bool, u8> {
    let model = |name: u8| &models[name as usize % PLACES];
    let mut pairs = document.chunks_exact(2);
    let mut open = match pairs.next() {
        Some(&[0, root]) if (root as usize) < n => Open::new(root),
        _ => return Err(18),
    };
    let mut yes = model(open.name).count != NO_MODEL;
    // How many elements are open. All but the innermost are on the stack, from place 1 on.
    let mut depth = 1;
    let mut stack = [open; DEEPEST];
    for pair in pairs {
        let (kind, name) = (pair[0], pair[1]);
        if depth == 0 || name as usize >= n {
            return Err(18);
        }
        match kind {
            0 => {
                if depth == DEEPEST {
                    return Err(19);
                }
                yes = yes && step(model(open.name), &mut open, name) && model(name).count != NO_MODEL;
                stack[depth] = open;
                depth += 1;
                open = Open::new(name);
            }
            1 if open.name == name => {
                yes = yes && may_end(model(name), open);
                depth -= 1;
                open = stack[depth];
            }
            2 if name == 0 => yes &= model(open.name).text == 1,
            _ => return Err(18),
        }
    }
    if depth > 0 {
        return Err(18);
    }
    Ok(yes)
}

/// Whether a document over n names is valid by the models of a table: 1, 3, 10, 18, 19.
pub fn accepts_document(n: usize, table: &[u8], document: &[u8]) -> Result<bool, u8> {
    if document.len() > LONGEST {
        return Err(1);
    }
    if n == 0 || n > PLACES {
        return Err(3);
    }
    let models = models(n, table)?;
    if document.len() % 2 == 1 {
        return Err(18);
    }
    judged(n, &models, document)
}

fn write_row(m: &Model, row: &mut [u8]) {
    (row[0], row[1], row[2]) = (1, m.count as u8, m.text);
    row[3..3 + PLACES].copy_from_slice(&m.factor);
    row[3 + PLACES..].copy_from_slice(&m.mode);
}

/// Puts a model into its row of a table: 3, 8, 10, 12.
pub fn put_model(n: usize, parent: usize, m: &Model, table: &mut [u8]) -> Result<(), u8> {
    if n == 0 || n > PLACES {
        return Err(3);
    }
    if parent >= n {
        return Err(8);
    }
    if !is_model(n, m) {
        return Err(10);
    }
    write_row(m, table.get_mut(ROW * parent..ROW * (parent + 1)).ok_or(12)?);
    Ok(())
}

/// Writes the rows of all names of a book, by one pass over its blocks: 1 to 7, 16, 17, 12.
pub fn fill_models(bytes: &[u8], table: &mut [u8]) -> Result<usize, u8> {
    let mut all = vec![NO_FACTS; PLACES];
    let names = read_book(bytes, |parent, text, word| all[parent as usize].add(text, word))?;
    let size = ROW * names.count;
    for (row, facts) in table.get_mut(..size).ok_or(12)?.chunks_exact_mut(ROW).zip(&all) {
        if facts.seen {
            write_row(&model(facts), row);
        } else {
            row.fill(0);
        }
    }
    Ok(size)
}
