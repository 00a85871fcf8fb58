//! Pairs of models for the benchmark, the same in every run.

use crate::books::Next;
use crate::{Model, EMPTY};

/// What a pair is made of: how many names and factors the first has, and the modes of its factors, again and again.
pub struct Kind {
    pub name: &'static str,
    pub names: usize,
    factors: usize,
    modes: &'static [u8],
}

const ALL: &[u8] = &[0, 1, 2, 3];

pub const KINDS: &[Kind] = &[
    Kind { name: "64 names, 64 factors", names: 64, factors: 64, modes: ALL },
    Kind { name: "64 names, 64 factors, all needed", names: 64, factors: 64, modes: &[0, 2] },
    Kind { name: "64 names, 12 factors", names: 64, factors: 12, modes: ALL },
    Kind { name: "64 names, 3 factors", names: 64, factors: 3, modes: ALL },
    Kind { name: "24 names, 24 factors", names: 24, factors: 24, modes: ALL },
    Kind { name: "24 names, 12 factors", names: 24, factors: 12, modes: ALL },
    Kind { name: "24 names, 3 factors", names: 24, factors: 3, modes: ALL },
    Kind { name: "12 names, 12 factors", names: 12, factors: 12, modes: ALL },
    Kind { name: "12 names, 3 factors", names: 12, factors: 3, modes: ALL },
    Kind { name: "6 names, 6 factors", names: 6, factors: 6, modes: ALL },
    Kind { name: "6 names, 3 factors", names: 6, factors: 3, modes: ALL },
];

/// A model, one that it is within, and one that it is not within.
pub struct Pairs {
    pub names: usize,
    pub first: Model,
    pub wider: Model,
    pub other: Model,
}

impl Kind {
    /// The first has all names, in factors of about the same size. In the wider one more may be left out or repeated. The other
    /// is the wider one, but for its last factor: that of the first repeats, and this one does not, so that the whole of both
    /// has to be looked at.
    pub fn pairs(&self) -> Pairs {
        let mut first = Model { count: self.factors, ..EMPTY };
        let mut next = Next(7);
        let mut left: Vec<usize> = (0..self.names).collect();
        for k in 0..self.names {
            let name = left.swap_remove(next.below(left.len()));
            first.factor[name] = (k * self.factors / self.names) as u8;
        }
        let last = self.factors - 1;
        for i in 0..last {
            first.mode[i] = self.modes[i % self.modes.len()];
        }
        first.mode[last] = 2;
        let mut wider = first;
        for mode in &mut wider.mode[..last] {
            *mode |= 1 + next.below(3) as u8;
        }
        let mut other = wider;
        other.mode[last] = 0;
        Pairs { names: self.names, first, wider, other }
    }
}
