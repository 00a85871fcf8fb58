//! Whether every word of one model is a word of another, in one pass over the factors of the first.
//!
//! A chain decides a word by what is side by side in it, its start and its end included. All names of a factor have the same
//! names beside them in the first, so of each factor only those count that come first and last in the second.

use crate::{is_model, Model, PLACES};

/// The most names of the word that shows a no, and the places that its buffer needs.
pub const LONGEST_COUNTEREXAMPLE: usize = PLACES + 1;

/// A name and the factor of the second that holds it, or `NONE`. Ordered by the factor.
#[derive(Clone, Copy, PartialEq, Eq, PartialOrd, Ord)]
struct Placed(u16);

impl Placed {
    fn new(second: &Model, name: usize) -> Placed {
        Placed(u16::from_be_bytes([second.factor[name], name as u8]))
    }

    fn factor(self) -> usize {
        usize::from(self.0 >> 8)
    }

    fn name(self) -> u8 {
        self.0 as u8
    }
}

/// Of the names in one factor of the first, one that comes first in the second and one that comes last.
#[derive(Clone, Copy)]
struct Span {
    low: Placed,
    high: Placed,
}

fn spans(n: usize, first: &Model, second: &Model) -> [Span; PLACES] {
    let mut spans = [Span { low: Placed(u16::MAX), high: Placed(0) }; PLACES];
    for (name, &factor) in first.factor[..n].iter().enumerate() {
        // `NONE` is above all places.
        if let Some(span) = spans.get_mut(usize::from(factor)) {
            let placed = Placed::new(second, name);
            span.low = span.low.min(placed);
            span.high = span.high.max(placed);
        }
    }
    spans
}

/// Whether a factor of this mode must be there.
fn is_needed(mode: u8) -> bool {
    mode & 1 == 0
}

/// For each factor, the first from it on that must be there, or the count where there is none: a step from before it leads no
/// further.
fn needed_next(m: &Model) -> [usize; PLACES + 1] {
    let mut next = [m.count; PLACES + 1];
    for i in (0..m.count).rev() {
        next[i] = if is_needed(m.mode[i]) { i } else { next[i + 1] };
    }
    next
}

/// Two that are side by side in a word of the first and in no word of the second. None before is the start, none behind the end.
type Sides = (Option<u8>, Option<u8>);

fn told_apart(first: &Model, second: &Model, spans: &[Span; PLACES]) -> Option<Sides> {
    let needed = needed_next(second);
    // Of the names from which one step of the first leads on, those that come first and last in the second. None is the start.
    let mut low: Option<Placed> = None;
    let mut high: Option<Placed> = None;
    let farthest = |low: Option<Placed>| needed[low.map_or(0, |from| from.factor() + 1)];
    let leads =
        |from: Placed, to: Placed| from.factor() < to.factor() || (from.factor() == to.factor() && second.mode[to.factor()] >= 2);
    for (span, &mode) in spans.iter().zip(&first.mode[..first.count]) {
        // A step from the lowest to the highest passes over a factor that must be there.
        if span.high.factor() > farthest(low) {
            return Some((low.map(Placed::name), Some(span.high.name())));
        }
        // A step from the highest to the lowest leads back. Where the factor repeats, one of its own names may come before.
        let before = if mode >= 2 { high.max(Some(span.high)) } else { high };
        if let Some(from) = before.filter(|&from| !leads(from, span.low)) {
            return Some((Some(from.name()), Some(span.low.name())));
        }
        (low, high) = if is_needed(mode) {
            (Some(span.low), Some(span.high))
        } else {
            (low.min(Some(span.low)), high.max(Some(span.high)))
        };
    }
    (farthest(low) < second.count).then_some((low.map(Placed::name), None))
}

/// Writes the word of the first with these two side by side and no name that it can do without, and answers its length.
fn write(first: &Model, spans: &[Span; PLACES], (before, behind): Sides, word: &mut [u8]) -> usize {
    let factor = |name: u8| usize::from(first.factor[usize::from(name)]);
    let needed = |from: usize, to: usize| (from..to).filter(|&i| is_needed(first.mode[i])).map(|i| spans[i].low.name());
    let front = needed(0, before.map_or(0, factor));
    let back = needed(behind.map_or(first.count, |name| factor(name) + 1), first.count);
    let mut length = 0;
    front.chain(before).chain(behind).chain(back).for_each(|name| {
        word[length] = name;
        length += 1;
    });
    length
}

/// None where every word of the first is one of the second; else the length of a word that is not, in the front of the buffer.
pub fn within(n: usize, first: &Model, second: &Model, buffer: &mut [u8]) -> Result<Option<usize>, u8> {
    if n == 0 || n > PLACES {
        return Err(3);
    }
    if !is_model(n, first) || !is_model(n, second) {
        return Err(10);
    }
    let word = buffer.get_mut(..LONGEST_COUNTEREXAMPLE).ok_or(12)?;
    let spans = spans(n, first, second);
    Ok(told_apart(first, second, &spans).map(|sides| write(first, &spans, sides, word)))
}
