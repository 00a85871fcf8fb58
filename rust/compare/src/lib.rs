//! Compares the proved library and program with the second implementation: many cases by chance, each given by a seed, a kind and
//! a number, the cases that the papers write out, every short model of a declaration, every pair of chains over three names, and
//! every fault at every pair of small documents.

pub mod calls;
pub mod cases;
pub mod chance;
pub mod documents;
pub mod dtds;
pub mod forms;
pub mod make;
pub mod pairs;
pub mod program;
pub mod symbols;
pub mod unused;

use calls::{Answer, Call, Calls, Second};
use cases::{Kind, KINDS};
use chance::Chance;
use std::collections::BTreeMap;

/// The seed of a run that names none.
pub const SEED: u64 = 20_261_115;

/// What a run found: how often each call gave each kind of answer.
#[derive(Default)]
pub struct Reached(pub BTreeMap<(&'static str, String), u64>);

/// The answers that each call has to give at least once in a whole run.
const DUE: &[(&str, &str)] = &[
    ("model_of_parent", "0 text mixed 1 2 3 4 5 6 7 16 17 8 9"),
    ("accepts_word", "yes yes-text no no-text 3 10 10-text 11"),
    (
        "within",
        "yes yes-text no no-text empty empty-text longest 3 10-first 10-first-text 10-second 10-second-text 10-both 12-yes 12-no",
    ),
    ("write_declaration", "0 text mixed 1 2 3 4 5 6 7 16 17 8 10 10-text 12"),
    ("write_from_sample", "0 text mixed 1 2 3 4 5 6 7 16 17 8 9 12"),
    ("write_dtd", "0 text mixed 1 2 3 4 5 6 7 16 17 12"),
    ("read_declaration", "0 text mixed 1 2 3 4 5 6 7 16 17 13 14 15"),
    ("accepts_document", "yes yes-text yes-long no-model no-word no-text no-several 1 3 10 10-text 18-odd 18 19"),
    ("put_model", "0 0-text 3 8 10 10-text 12"),
    ("fill_models", "0-all 0-all-text 0-some 0-some-text 1 2 3 4 5 6 7 16 17 12"),
    ("dtd", "0 text mixed 1 2 3 4 5 6 7 16 17"),
];

impl Reached {
    pub fn calls(&self) -> u64 {
        self.0.values().sum()
    }

    /// The answers that no case reached.
    pub fn missing(&self) -> Vec<String> {
        let mut missing = Vec::new();
        for (call, answers) in DUE {
            for answer in answers.split(' ') {
                if !self.0.contains_key(&(call, answer.to_string())) {
                    missing.push(format!("{call} {answer}"));
                }
            }
        }
        missing
    }

    /// A line for each call with its answers.
    pub fn lines(&self) -> String {
        let mut out = String::new();
        for (call, answers) in DUE {
            out.push_str(&format!("  {call}:"));
            for answer in answers.split(' ') {
                let n = self.0.get(&(call, answer.to_string())).unwrap_or(&0);
                out.push_str(&format!(" {answer}={n}"));
            }
            out.push('\n');
        }
        out
    }
}

/// One case: each call's answer against what is due. What is wrong, if anything, is handed back with all that gives it again.
pub fn run_case(kind: &Kind, seed: u64, case: u64, tested: &mut dyn Calls, reached: &mut Reached) -> Result<(), String> {
    let mut chance = Chance::of(seed, kind.name, case);
    for (i, (call, due)) in (kind.make)(&mut chance, case).into_iter().enumerate() {
        let ours = call.ask(&mut Second);
        if let Some(written) = due {
            if !call.agrees(&ours, &written) {
                return Err(wrong("the second implementation", kind, seed, case, i, &call, &written, &ours));
            }
        }
        let got = call.ask(tested);
        if got == Answer::Nobody {
            continue;
        }
        *reached.0.entry((call.name(), call.kind_of(&ours))).or_default() += 1;
        if !call.agrees(&got, &ours) {
            return Err(wrong("the proved code", kind, seed, case, i, &call, &ours, &got));
        }
    }
    Ok(())
}

#[allow(clippy::too_many_arguments)]
fn wrong(who: &str, kind: &Kind, seed: u64, case: u64, i: usize, call: &Call, due: &Answer, got: &Answer) -> String {
    format!(
        "{who} differs in call {i} of: compare --seed {seed} --kind {} --case {case}\n{}due: {}\ngot: {}\n",
        kind.name,
        call.shown(),
        due.shown(),
        got.shown()
    )
}

/// Every kind, `times` as many cases of each as a plain run has.
pub fn run(seed: u64, times: u64, tested: &mut dyn Calls, reached: &mut Reached) -> Result<(), String> {
    run_kinds(KINDS, seed, times, tested, reached)
}

/// The same of some kinds.
pub fn run_kinds(kinds: &[Kind], seed: u64, times: u64, tested: &mut dyn Calls, reached: &mut Reached) -> Result<(), String> {
    for kind in kinds {
        for case in 0..kind.cases_in(times) {
            run_case(kind, seed, case, tested, reached)?;
        }
    }
    Ok(())
}
