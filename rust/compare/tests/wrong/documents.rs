//! The faults of whole documents and of the table of models.

use super::{Fault::*, Wrong};
use compare::calls::{Calls, Second};
use second::book;
use second::document::{CLOSE, DEEPEST, MOST_BYTES, OPEN, TEXT};
use second::models::{records, row_of, ROW};
use second::record::{Record, EMPTY};

/// An element as far as it is seen: its name, that of its parent, its depth, its children and its text.
#[derive(Clone)]
struct Seen {
    name: u8,
    parent: Option<u8>,
    depth: usize,
    word: Vec<u8>,
    text: bool,
}

/// Whether the word begins a word of the chain.
fn begins(chain: &Record, word: &[u8]) -> bool {
    (0..=chain.count).any(|from| {
        let mut open = *chain;
        open.mode[from..chain.count].iter_mut().for_each(|mode| *mode |= 1);
        open.accepts(word)
    })
}

impl Wrong {
    /// The elements of a document, also of one that is none.
    fn elements(&self, document: &[u8]) -> Vec<Seen> {
        let mut open: Vec<Seen> = Vec::new();
        let mut all = Vec::new();
        for pair in document.chunks_exact(2) {
            let (kind, name) = (pair[0], pair[1]);
            match (kind, open.last_mut()) {
                (OPEN, parent) => {
                    let of = parent.as_ref().map(|parent| parent.name);
                    if let Some(parent) = parent {
                        parent.word.push(name);
                    }
                    open.push(Seen { name, parent: of, depth: open.len() + 1, word: vec![], text: false });
                }
                (CLOSE, Some(_)) => {
                    let closed = open.pop().unwrap();
                    if let (WordLostBehindGrandchild, Some(parent)) = (self.0, open.last_mut()) {
                        parent.word.drain(..if closed.word.is_empty() { 0 } else { parent.word.len() });
                    }
                    all.push(closed);
                }
                (_, Some(inside)) => {
                    inside.text = true;
                    if self.is(TextIsChild) {
                        inside.word.push(0);
                    }
                }
                _ => {}
            }
        }
        [all, open].concat()
    }

    /// The records of a table, with the faults of its rows.
    fn records(&self, n: usize, table: &[u8]) -> Vec<Option<Record>> {
        let mut table = table.to_vec();
        match self.0 {
            CutRowTaken => table.resize(table.len().next_multiple_of(ROW), 0),
            EmptyTableRefused => table.resize(table.len().max(ROW), 1),
            FirstByteOneAlone => table.iter_mut().step_by(ROW).for_each(|byte| *byte *= u8::from(*byte == 1)),
            FirstByteNotLookedAt => table.iter_mut().step_by(ROW).for_each(|byte| *byte = 1),
            FirstByteHalved => table.iter_mut().step_by(ROW).for_each(|byte| *byte &= 127),
            _ => {}
        }
        records(n, &table)
    }

    fn bad_models(&self, n: usize, table: &[u8], document: &[u8]) -> bool {
        let looked_at = if self.is(RowsFromNOnChecked) { 64 } else { n };
        let used = |name: usize| document.chunks_exact(2).any(|pair| pair == [OPEN, name as u8]);
        let checked = |name: usize| match self.0 {
            ModelsUnchecked => false,
            FirstModelAloneChecked => name == 0,
            LastModelUnchecked => name + 1 < n || n == 1,
            UsedModelsAloneChecked => used(name),
            _ => true,
        };
        let good = |record: &Record| match self.0 {
            TextOfRowUnchecked => record.is_chain(n),
            RowsOver64Names => record.is_model(64),
            _ => record.is_model(n),
        };
        self.records(looked_at, table).iter().enumerate().any(|(name, row)| checked(name) && row.is_some_and(|row| !good(&row)))
    }

    /// Whether a pair is bad where these elements are open.
    fn is_bad(&self, n: usize, pair: [u8; 2], open: &[u8], has_root: bool) -> bool {
        let [kind, number] = pair;
        let taken = |fault| self.is(fault);
        let below = (number as usize) < n || (taken(NumberEqualToNTaken) && number as usize == n);
        let text = kind == TEXT || (kind == 3 && taken(KindThreeTaken));
        let unlike = open.last().is_some_and(|name| *name != number) && !taken(CloseUnlikeOpenTaken);
        let outside = open.is_empty() && !taken(if has_root { TextBehindRootTaken } else { TextBeforeRootTaken });
        (kind > TEXT && !text)
            || !below
            || (text && number != 0 && !taken(NumberOfTextTaken))
            || (text && outside)
            || (kind == CLOSE && (unlike || (open.is_empty() && !taken(CloseOfNothingTaken))))
            || (kind == OPEN && open.is_empty() && has_root && !taken(SecondRootTaken))
    }

    /// The number of the first pair with a fault, or of the end; 0 where there is none.
    fn fault_of_pairs(&self, n: usize, document: &[u8]) -> u8 {
        let deepest = match self.0 {
            Depth33Taken => DEEPEST + 1,
            Depth32Refused => DEEPEST - 1,
            DepthUnchecked => usize::MAX,
            _ => DEEPEST,
        };
        let (mut open, mut has_root, mut late) = (Vec::new(), false, 0);
        for pair in document.chunks_exact(2) {
            let (kind, number) = (pair[0], pair[1]);
            let too_deep = kind == OPEN && open.len() >= deepest;
            match (self.0, self.is_bad(n, [kind, number], &open, has_root), too_deep) {
                (TooDeepBeforeBad, true, true) => return 19,
                (_, true, _) => return 18,
                (TooDeepBehindAll, _, true) => late = 19,
                (TooDeepIsBad, _, true) => return 18,
                (_, _, true) => return 19,
                _ => {}
            }
            match kind {
                OPEN => open.push(number),
                CLOSE => drop(open.pop()),
                _ => {}
            }
            has_root |= kind == OPEN;
        }
        let open_left = !open.is_empty() && !self.is(OpenLeftTaken);
        let no_root = !has_root && !self.is(NoRootTaken);
        if open_left || no_root {
            18
        } else {
            late
        }
    }

    fn refusal_of_document(&self, n: usize, table: &[u8], document: &[u8]) -> u8 {
        let size = document.len();
        let most = match self.0 {
            LongerDocumentTaken => MOST_BYTES + 1,
            LongestDocumentRefused => MOST_BYTES - 1,
            _ => MOST_BYTES,
        };
        let bad_count = n == 0 || n > 64;
        let bad_models = !bad_count && self.bad_models(n, table, document);
        let of_pairs = if size > most + 2 { 0 } else { self.fault_of_pairs(n, document) };
        let odd = size % 2 == 1 && !self.is(OddLengthTaken);
        let mut checks = [(size > most, 1), (bad_count, 3), (bad_models, 10), (odd, 18), (of_pairs > 0, of_pairs)];
        match self.0 {
            CountBeforeLength => checks.swap(0, 1),
            OddBeforeModels => checks.swap(2, 3),
            OddBehindPairs => checks.swap(3, 4),
            PairsBeforeModels => checks[2..].rotate_left(1),
            _ => {}
        }
        checks.iter().find(|(fails, _)| *fails).map_or(0, |(_, number)| *number)
    }

    /// Whether one element is as its model says.
    fn element_fits(&self, models: &[Option<Record>], one: &Seen) -> bool {
        let model_of = |name: u8| models.get(name as usize).copied().flatten().filter(|model| model.is_chain(64));
        let Some(model) = model_of(one.name) else { return self.is(MissingModelPasses) };
        let mut word = one.word.clone();
        match self.0 {
            WordCutAt255 => word.truncate(255),
            LongWordIsWrong if word.len() > 255 => return false,
            WordBackward => word.reverse(),
            LastChildNotLookedAt => drop(word.pop()),
            _ => {}
        }
        let accepted = if self.is(EndOfWordNotLookedAt) { begins(&model, &word) } else { model.accepts(&word) };
        let allowed = match self.0 {
            TextAllowedEverywhere => true,
            TextNeverAllowed => false,
            TextOfRootNotLookedAt => one.depth == 1 || model.text == 1,
            TextBesideChildrenAllowed => !one.word.is_empty() || model.text == 1,
            TextByModelOfParent => one.parent.map_or(model.text, |name| model_of(name).map_or(0, |model| model.text)) == 1,
            _ => model.text == 1,
        };
        accepted && (allowed || !one.text)
    }

    fn verdict(&self, n: usize, table: &[u8], document: &[u8]) -> bool {
        let models = self.records(n, table);
        let looked_at = |one: &&Seen| match self.0 {
            RootAloneLookedAt => one.depth == 1,
            RootNotLookedAt => one.depth > 1,
            LeavesNotLookedAt => !one.word.is_empty(),
            Depth32NotLookedAt => one.depth < DEEPEST,
            _ => true,
        };
        match self.0 {
            AlwaysValid => true,
            NeverValid => false,
            _ => self.elements(document).iter().filter(looked_at).all(|one| self.element_fits(&models, one)),
        }
    }

    pub fn judge(&self, names: usize, table: &[u8], document: &[u8]) -> (u8, bool) {
        let n = if self.is(NamesOfDocumentCut) { names % 256 } else { names };
        if self.is(ShortTableRefused) && (1..=64).contains(&n) && document.len() <= MOST_BYTES && table.len() < n * ROW {
            return (12, false);
        }
        let number = self.refusal_of_document(n, table, document);
        match self.0 {
            _ if number > 0 => (number, self.is(RefusedDocumentYes)),
            MissingModelRefused
                if self.elements(document).iter().any(|one| self.records(n, table)[one.name as usize].is_none()) =>
            {
                (10, false)
            }
            _ => (0, self.verdict(n, table, document)),
        }
    }
}

impl Wrong {
    fn refusal_of_put(&self, names: usize, parent: usize, record: &Record, size: usize) -> u8 {
        let bad_count = names == 0 || names > 64;
        let bad_parent = parent >= names && !(self.is(PutBehindNamesTaken) && parent == names && parent < 64);
        let bad_record = match self.0 {
            PutUnchecked => record.count > 64,
            PutTextUnchecked => !record.is_chain(names),
            _ => !record.is_model(names),
        };
        let wanted = match self.0 {
            PutNeedsAllRows => names.min(64).max(parent.min(64) + 1) * ROW,
            PutExactRefused => (parent.min(64) + 1) * ROW + 1,
            _ => (parent.min(64) + 1) * ROW,
        };
        let mut checks = [(bad_count, 3), (bad_parent, 8), (bad_record, 10), (size < wanted, 12)];
        match self.0 {
            PutParentBeforeCount => checks.swap(0, 1),
            PutRecordBeforeParent => checks.swap(1, 2),
            PutTableBeforeRecord => checks.swap(2, 3),
            _ => {}
        }
        checks.iter().find(|(fails, _)| *fails).map_or(0, |(_, number)| *number)
    }

    pub fn put_record(&self, names: usize, parent: usize, record: &Record, table: &mut [u8]) -> u8 {
        let names = if self.is(PutNamesCut) { names % 256 } else { names };
        let parent = if self.is(PutParentCut) { parent % 256 } else { parent };
        let number = self.refusal_of_put(names, parent, record, table.len());
        if number > 0 {
            if let (PutWhereRefused, Some(front)) = (self.0, table.first_mut()) {
                *front = !*front;
            }
            return number;
        }
        let mut row = row_of(record);
        match self.0 {
            PutFirstByteIsCount => row[0] = row[1],
            PutTextLost => row[2] = 0,
            PutModesFirst => row[3..].rotate_left(64),
            _ => {}
        }
        let from = ROW * parent;
        let (at, size) = match self.0 {
            PutIntoNextRow if from + 2 * ROW <= table.len() => (from + ROW, ROW),
            PutOneByteLess => (from, ROW - 1),
            PutFrom130 => (130 * parent, ROW),
            _ => (from, ROW),
        };
        table[at..at + size].copy_from_slice(&row[..size]);
        if self.is(PutByteBehind) && from + ROW < table.len() {
            table[from + ROW] = !table[from + ROW];
        }
        0
    }

    pub fn fill(&self, bytes: &[u8], table: &mut [u8]) -> (u8, usize) {
        let mut due = table.to_vec();
        due.resize(due.len().max(64 * ROW + 1), 0);
        let (number, length) = Second.fill_models(bytes, &mut due);
        let short = table.len() < length || (self.is(FillExactRefused) && table.len() == length);
        if self.is(FillTableBeforeBook) && table.len() < ROW * bytes.first().map_or(1, |n| *n as usize % 65) {
            return (12, 0);
        }
        if number > 0 || short {
            if let (FillWhereRefused, Some(front)) = (self.0, table.first_mut()) {
                *front = !*front;
            }
            return (if number > 0 { number } else { 12 }, 0);
        }
        let names = book::read(bytes).unwrap().names.len();
        for name in 0..names {
            let place = ROW * name..ROW * (name + 1);
            let row = &mut due[place.clone()];
            match (self.0, row[0]) {
                (FillKeepsOldRow, 0) => row.copy_from_slice(&table[place]),
                (FillFirstByteAlone, 0) => row[1..].copy_from_slice(&table[place][1..]),
                (FillNoBlockIsEmpty, 0) => row.copy_from_slice(&row_of(&EMPTY)),
                (FillTextLost, _) => row[2] = 0,
                (FillLastNameLeftOut, _) if name + 1 == names => row.fill(0),
                _ => {}
            }
        }
        let written = match self.0 {
            FillBytesBehind => table.len(),
            _ => length,
        };
        due[length..].fill(0);
        table[..written].copy_from_slice(&due[..written]);
        match self.0 {
            FillLengthIsCount => (0, names),
            _ => (0, length),
        }
    }
}
