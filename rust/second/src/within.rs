//! Whether every word that one chain accepts is accepted by another. The two read all words together, name by name, and a pair of
//! places that they have been at before is not followed again. There are finitely many such pairs, so the search ends, and it
//! decides words of any length.

use crate::record::Record;
use std::collections::{BTreeSet, VecDeque};
use std::ops::Range;

/// Whether each of these factors allows that no name stands for it.
fn optional(chain: &Record, mut factors: Range<usize>) -> bool {
    factors.all(|i| matches!(chain.mode[i], 1 | 3))
}

/// Where one more name leads, if anywhere. A place in a chain is how many factors there are up to that of the last name, 0 before
/// the first name. Each name is in one factor at most, so there is never a choice.
fn step(chain: &Record, at: usize, name: u8) -> Option<usize> {
    let to = chain.factor[name as usize] as usize;
    if to >= chain.count {
        return None;
    }
    let again = at == to + 1 && matches!(chain.mode[to], 2 | 3);
    let onward = at <= to && optional(chain, at..to);
    (again || onward).then_some(to + 1)
}

/// Whether a word may end at this place.
fn may_end(chain: &Record, at: usize) -> bool {
    optional(chain, at..chain.count)
}

/// A word that the first accepts and the second does not, of the shortest there are; none where the first is within the second.
/// Both are chains over n names.
pub fn counterexample(n: usize, first: &Record, second: &Record) -> Option<Vec<u8>> {
    // The places of a word in both, none in the second where it does not begin a word of the second. Shorter words come first.
    let start = (0, Some(0));
    let mut seen = BTreeSet::from([start]);
    let mut left = VecDeque::from([(start, Vec::new())]);
    while let Some(((in_first, in_second), word)) = left.pop_front() {
        if may_end(first, in_first) && !in_second.is_some_and(|at| may_end(second, at)) {
            return Some(word);
        }
        for name in 0..n as u8 {
            let Some(in_first) = step(first, in_first, name) else { continue };
            let in_second = in_second.and_then(|at| step(second, at, name));
            if seen.insert((in_first, in_second)) {
                left.push_back(((in_first, in_second), [&word[..], &[name]].concat()));
            }
        }
    }
    None
}
