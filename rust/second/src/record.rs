//! The model record, when it is a model over N names, and which words it accepts.

use crate::PLACES;

/// No factor holds this name.
pub const NONE: u8 = 255;

/// A model record: F, the factor that holds each number, the factors' modes, and whether text is allowed: 1 yes, 0 no. Any values
/// may stand in it.
#[derive(Clone, Copy, PartialEq, Eq)]
pub struct Record {
    pub count: usize,
    pub factor: [u8; PLACES],
    pub mode: [u8; PLACES],
    pub text: u8,
}

/// The empty model.
pub const EMPTY: Record = Record { count: 0, factor: [NONE; PLACES], mode: [0; PLACES], text: 0 };

impl std::fmt::Debug for Record {
    fn fmt(&self, f: &mut std::fmt::Formatter) -> std::fmt::Result {
        write!(f, "F={} factors={:?} modes={:?} text={}", self.count, self.factor, self.mode, self.text)
    }
}

impl Record {
    /// The record with these factors, each its names and its mode, without text.
    pub fn of(factors: &[(Vec<u8>, u8)]) -> Record {
        let mut record = EMPTY;
        record.count = factors.len();
        for (i, (names, mode)) in factors.iter().enumerate() {
            for &name in names {
                record.factor[name as usize] = i as u8;
            }
            record.mode[i] = *mode;
        }
        record
    }

    /// The record with text and any number of these names in any order.
    pub fn with_text(names: Vec<u8>) -> Record {
        let children = if names.is_empty() { EMPTY } else { Record::of(&[(names, 3)]) };
        Record { text: 1, ..children }
    }

    /// The names of factor i, rising.
    pub fn names_of(&self, i: usize) -> Vec<u8> {
        (0..PLACES as u8).filter(|&x| self.factor[x as usize] as usize == i).collect()
    }

    /// Whether it is a model over n names: a chain, and with text either no factor or one with mode 3.
    pub fn is_model(&self, n: usize) -> bool {
        let mixed = self.count == 1 && self.mode[0] == 3;
        self.is_chain(n) && (self.text == 0 || (self.text == 1 && (self.count == 0 || mixed)))
    }

    /// Whether it is a chain over n names, whatever its text byte is.
    pub fn is_chain(&self, n: usize) -> bool {
        let f = self.count;
        f <= PLACES
            && (0..PLACES).all(|x| self.factor[x] == NONE || (x < n && (self.factor[x] as usize) < f))
            && (0..f).all(|i| !self.names_of(i).is_empty())
            && (0..PLACES).all(|i| if i < f { self.mode[i] <= 3 } else { self.mode[i] == 0 })
    }

    /// Whether a word, of any length, is a joining of one part for each factor in order. Words are of child names only.
    pub fn accepts(&self, word: &[u8]) -> bool {
        // The places of the word at which the parts of the factors so far can end.
        let mut ends: Vec<bool> = vec![false; word.len() + 1];
        ends[0] = true;
        for i in 0..self.count {
            let mut next = vec![false; word.len() + 1];
            for from in (0..=word.len()).filter(|&from| ends[from]) {
                // No part is longer than the names of the factor that stand side by side from here on.
                let most = word[from..].iter().take_while(|&&x| self.factor[x as usize] as usize == i).count();
                for size in 0..=most {
                    next[from + size] |= match self.mode[i] {
                        0 => size == 1,
                        1 => size <= 1,
                        2 => size >= 1,
                        3 => true,
                        _ => false,
                    };
                }
            }
            ends = next;
        }
        ends[word.len()]
    }
}

/// All chains over n names, without text. There are 45 over two names and 605 over three.
pub fn chains(n: usize) -> Vec<Record> {
    let mut all = Vec::new();
    let mut places = vec![0usize; n];
    // Each name has no place or one of n factors; the factors in use are the first ones.
    loop {
        let used = places.iter().copied().max().unwrap();
        if (1..=used).all(|i| places.contains(&i)) {
            for modes in 0..4usize.pow(used as u32) {
                let factors: Vec<(Vec<u8>, u8)> = (0..used)
                    .map(|i| ((0..n as u8).filter(|&x| places[x as usize] == i + 1).collect(), (modes >> (2 * i) & 3) as u8))
                    .collect();
                all.push(Record::of(&factors));
            }
        }
        match places.iter().position(|&p| p < n) {
            None => return all,
            Some(k) => {
                places[k] += 1;
                places[..k].fill(0);
            }
        }
    }
}
