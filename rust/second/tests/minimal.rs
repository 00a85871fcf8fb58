//! Demand 3 and request U4 by brute force over a few names: no other chain that accepts every word of a sample accepts only
//! words that ours does, and a chain is within another exactly when all its words are words of the other. A chain of F factors is
//! told from another by words of at most F + 1 names, so all words of at most N + 1 names decide. By request U5 demand 3 is about
//! parents and records without text; of the records with text the model of a sample with text is the narrowest.

use second::book::Block;
use second::chain::{chain, model};
use second::facts::Facts;
use second::record::{chains, Record};
use second::within::counterexample;

/// All words over n names of at most n + 1 names.
fn words(n: u8) -> Vec<Vec<u8>> {
    let mut all: Vec<Vec<u8>> = vec![vec![]];
    let mut from = 0;
    for _ in 0..=n {
        let to = all.len();
        for i in from..to {
            for x in 0..n {
                let mut w = all[i].clone();
                w.push(x);
                all.push(w);
            }
        }
        from = to;
    }
    all
}

struct Table {
    words: Vec<Vec<u8>>,
    /// Each chain with the words that it accepts, a bit for each.
    chains: Vec<(Record, u128)>,
}

impl Table {
    fn of(n: u8) -> Table {
        let words = words(n);
        assert!(words.len() <= 128);
        let bits = |c: &Record| words.iter().enumerate().filter(|(_, w)| c.accepts(w)).fold(0, |s, (i, _)| s | 1u128 << i);
        let chains = chains(n as usize)
            .into_iter()
            .map(|c| {
                let b = bits(&c);
                (c, b)
            })
            .collect();
        Table { words, chains }
    }

    /// Request U4 for every pair of chains over the n names of this table; how many of them are within.
    fn check_pairs(&self, n: usize) -> usize {
        let mut within = 0;
        for (first, first_words) in &self.chains {
            for (second, second_words) in &self.chains {
                match counterexample(n, first, second) {
                    None => {
                        assert_eq!(first_words & !second_words, 0, "{first:?} is not within {second:?}");
                        within += 1;
                    }
                    Some(word) => {
                        let shows = first.accepts(&word) && !second.accepts(&word) && word.len() <= n + 1;
                        assert!(shows, "{first:?}, {second:?}: {word:?}");
                    }
                }
            }
        }
        within
    }

    /// The words of a sample, a bit for each.
    fn sample(&self, sample: u128) -> Vec<&[u8]> {
        (0..self.words.len()).filter(|i| sample >> i & 1 == 1).map(|i| &self.words[i][..]).collect()
    }

    /// For the sample of these words, the one at a place with text: of all records with text that accept them ours accepts the
    /// fewest words.
    fn check_with_text(&self, n: usize, sample: u128, place: usize) {
        let word = |(i, word): (usize, &&[u8])| Block { parent: 0, text: u8::from(i == place), word: word.to_vec() };
        let blocks: Vec<Block> = self.sample(sample).iter().enumerate().map(word).collect();
        let ours = model(&blocks.iter().collect::<Vec<_>>());
        let with_text = |c: &Record| Record { text: 1, ..*c };
        let mut all = self.chains.iter().filter(|(c, _)| with_text(c).is_model(n));
        let (_, our_words) = all.clone().find(|(c, _)| with_text(c) == ours).expect("our model is one of these");
        assert_eq!(sample & !our_words, 0, "a sample word is not accepted: {blocks:?}");
        assert!(all.all(|(_, words)| sample & !words != 0 || our_words & !words == 0), "{blocks:?}: {ours:?} is too wide");
    }

    /// Demand 3 for the sample of these words, a bit for each.
    fn check(&self, sample: u128) {
        let held = self.sample(sample);
        let ours = chain(&Facts::of(held.iter().copied()));
        let (_, our_words) = self.chains.iter().find(|(c, _)| *c == ours).expect("our model is a chain");
        assert_eq!(sample & !our_words, 0, "a sample word is not accepted: {held:?}");
        for (other, other_words) in &self.chains {
            if *other != ours && sample & !other_words == 0 {
                assert_ne!(other_words & !our_words, 0, "{held:?}: {other:?} is no wider than ours");
            }
        }
    }
}

#[test]
fn every_sample_of_two_names() {
    let table = Table::of(2);
    assert_eq!(table.words.len(), 15);
    assert_eq!(table.chains.len(), 1 + 2 * 4 + 4 + 2 * 16);
    for sample in 1..1u128 << 15 {
        table.check(sample);
        table.check_with_text(2, sample, sample as usize % sample.count_ones() as usize);
    }
}

#[test]
fn many_samples_of_three_names() {
    let table = Table::of(3);
    assert_eq!(table.chains.len(), 605);
    let mut state = 1u64;
    let mut next = || {
        state = state.wrapping_mul(6364136223846793005).wrapping_add(1442695040888963407);
        (state >> 33) as usize
    };
    // Every sample of one or two words, and larger ones by chance.
    for i in 0..table.words.len() {
        for j in 0..=i {
            table.check(1 << i | 1 << j);
        }
    }
    for _ in 0..3000 {
        let size = 3 + next() % 5;
        table.check((0..size).fold(0, |s, _| s | 1u128 << (next() % table.words.len())));
    }
}

#[test]
fn every_pair_of_chains() {
    // How many are within was also counted by regular expressions, over the same words.
    assert_eq!(Table::of(2).check_pairs(2), 366);
    assert_eq!(Table::of(3).check_pairs(3), 17_460);
}
