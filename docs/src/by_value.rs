//! Acceptance that copies the record for each name of a word.
//!
//! This file is only for comparison. Request U3 of paper 02 asks for a step of acceptance that takes no record by
//! value, measured against one that does: this one. `docs/BENCHMARK.md` has the figures. `rust/plain` includes this
//! file; the record, the checks of the call and the method are those of its own acceptance, which borrows the record.

use crate::{check_word, Model, PLACES};
use std::hint::black_box;

/// The factor that a word has come to, and whether it has taken a name there.
#[derive(Clone, Copy)]
struct State {
    factor: usize,
    taken: bool,
}

const START: State = State { factor: 0, taken: false };

// `black_box` hides that the functions only read the record. Otherwise the compiler would pass them the caller's record,
// and the copy that is to be measured would be gone. They are inlined, so that the copies are all that is more.

/// The state after one more name, if there is one.
#[inline(always)]
fn step(model: Model, x: u8, from: State) -> Option<State> {
    let model = black_box(&model);
    let own = model.factor[x as usize % PLACES] as usize;
    let State { mut factor, mut taken } = from;
    while factor < model.count {
        let mode = model.mode[factor];
        if own == factor && (!taken || mode >= 2) {
            return Some(State { factor, taken: true });
        }
        if !taken && mode % 2 == 0 {
            return None;
        }
        factor += 1;
        taken = false;
    }
    None
}

/// Whether the word may end here.
#[inline(always)]
fn may_end(model: Model, State { factor, taken }: State) -> bool {
    let model = black_box(&model);
    (factor..model.count).all(|i| model.mode[i] % 2 == 1 || (i == factor && taken))
}

pub fn accepts_word(n: usize, m: &Model, word: &[u8]) -> Result<bool, u8> {
    check_word(n, m, word)?;
    let end = word.iter().try_fold(START, |state, &x| step(*m, x, state));
    Ok(end.is_some_and(|state| may_end(*m, state)))
}
