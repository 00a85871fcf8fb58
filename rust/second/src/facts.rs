//! Follow facts, reach and loop groups.

use std::collections::BTreeSet;

/// The follow facts of a sample.
#[derive(Default, PartialEq, Debug)]
pub struct Facts {
    /// The names that some word begins with.
    pub start: BTreeSet<u8>,
    /// The names that some word ends with.
    pub end: BTreeSet<u8>,
    /// Pairs (a, b): b follows a.
    pub follow: BTreeSet<(u8, u8)>,
    /// Whether start goes to end: some word is empty.
    pub empty: bool,
}

impl Facts {
    pub fn of<'a>(sample: impl IntoIterator<Item = &'a [u8]>) -> Facts {
        let mut facts = Facts::default();
        for word in sample {
            facts.add(word);
        }
        facts
    }

    /// The facts that one more word shows.
    pub fn add(&mut self, word: &[u8]) {
        match (word.first(), word.last()) {
            (Some(&first), Some(&last)) => {
                self.start.insert(first);
                self.end.insert(last);
            }
            _ => self.empty = true,
        }
        for pair in word.windows(2) {
            self.follow.insert((pair[0], pair[1]));
        }
    }

    /// The names that occur in some word. Every one of them begins a word or follows a name.
    pub fn names(&self) -> BTreeSet<u8> {
        let followers = self.follow.iter().map(|&(_, b)| b);
        self.start.iter().copied().chain(followers).collect()
    }

    /// The names that a reaches: one or more follow steps lead there.
    pub fn reached(&self, a: u8) -> BTreeSet<u8> {
        let mut reached = BTreeSet::new();
        let mut waiting = vec![a];
        while let Some(from) = waiting.pop() {
            for &(_, to) in self.follow.range((from, 0)..=(from, 255)) {
                if reached.insert(to) {
                    waiting.push(to);
                }
            }
        }
        reached
    }

    /// The points of the sample: its singles, and its loop groups as sets, each in rising order of its smallest name.
    pub fn points(&self) -> Vec<Point> {
        let mut points: Vec<Point> = Vec::new();
        for a in self.names() {
            if points.iter().any(|p| p.holds(a)) {
                continue;
            }
            let after = self.reached(a);
            if after.contains(&a) {
                points.push(Point::Group(after.into_iter().filter(|&b| self.reached(b).contains(&a)).collect()));
            } else {
                points.push(Point::Single(a));
            }
        }
        points
    }
}

/// A name that does not reach itself, or a loop group.
#[derive(Clone, PartialEq, Debug)]
pub enum Point {
    Single(u8),
    Group(BTreeSet<u8>),
}

impl Point {
    pub fn holds(&self, name: u8) -> bool {
        match self {
            Point::Single(a) => *a == name,
            Point::Group(names) => names.contains(&name),
        }
    }
}
