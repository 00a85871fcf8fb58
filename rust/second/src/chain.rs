//! Levels and the chain that they give, and the model of a parent with or without text.

use crate::book::Block;
use crate::facts::{Facts, Point};
use crate::record::Record;
use std::collections::BTreeSet;

/// Each loop group as one point, with the steps between different points.
pub struct Graph {
    pub points: Vec<Point>,
    /// Steps between nodes: 0 is start, i + 1 is point i, and the last is the end.
    pub steps: Vec<(usize, usize)>,
}

impl Graph {
    pub fn of(facts: &Facts) -> Graph {
        let points = facts.points();
        let end = points.len() + 1;
        let node = |name: u8| 1 + points.iter().position(|p| p.holds(name)).unwrap();
        let mut steps = Vec::new();
        for &a in &facts.start {
            steps.push((0, node(a)));
        }
        for &a in &facts.end {
            steps.push((node(a), end));
        }
        for &(a, b) in &facts.follow {
            if node(a) != node(b) {
                steps.push((node(a), node(b)));
            }
        }
        if facts.empty {
            steps.push((0, end));
        }
        steps.sort();
        steps.dedup();
        Graph { points, steps }
    }

    /// The level of each node: the largest number of steps from start to it.
    pub fn levels(&self) -> Vec<usize> {
        let mut known: Vec<Option<usize>> = vec![None; self.points.len() + 2];
        (0..known.len()).map(|node| self.level(node, &mut known)).collect()
    }

    fn level(&self, node: usize, known: &mut Vec<Option<usize>>) -> usize {
        if let Some(level) = known[node] {
            return level;
        }
        let mut level = 0;
        for &(from, to) in &self.steps {
            if to == node {
                level = level.max(1 + self.level(from, known));
            }
        }
        known[node] = Some(level);
        level
    }
}

/// The model of a parent with these blocks. No text in any of them: the chain. Text in some: text and exactly the names that
/// stand in their words, each of which may come anywhere and however often.
pub fn model(blocks: &[&Block]) -> Record {
    let words = blocks.iter().map(|block| &block.word[..]);
    if blocks.iter().all(|block| block.text == 0) {
        return chain(&Facts::of(words));
    }
    let names: BTreeSet<u8> = words.flatten().copied().collect();
    Record::with_text(names.into_iter().collect())
}

/// The chain of a sample's facts.
pub fn chain(facts: &Facts) -> Record {
    let graph = Graph::of(facts);
    let levels = graph.levels();
    let last = *levels.last().unwrap();
    let mut factors: Vec<(Vec<u8>, u8)> = Vec::new();
    for level in 1..last {
        let skipped = graph.steps.iter().any(|&(u, v)| levels[u] < level && level < levels[v]);
        let mut singles: Vec<u8> = Vec::new();
        let mut groups: Vec<Vec<u8>> = Vec::new();
        for (i, point) in graph.points.iter().enumerate() {
            if levels[i + 1] == level {
                match point {
                    Point::Single(a) => singles.push(*a),
                    Point::Group(names) => groups.push(names.iter().copied().collect()),
                }
            }
        }
        groups.sort_by_key(|names| names[0]);
        let parts = groups.len() + usize::from(!singles.is_empty());
        let needed = !skipped && parts == 1;
        if !singles.is_empty() {
            factors.push((singles, if needed { 0 } else { 1 }));
        }
        for names in groups {
            factors.push((names, if needed { 2 } else { 3 }));
        }
    }
    Record::of(&factors)
}
