//! The kind `symbols`: how many models it asks and how many of them have the form, which a regular expression counted too; and
//! models of requests U1 and U5 of paper 02 that are short enough for it.

use compare::calls::{Answer, Call};
use compare::cases::KINDS;
use compare::chance::Chance;
use compare::SEED;
use std::collections::{BTreeMap, BTreeSet};

/// Models with the numbers that are due of them.
const MODELS: &[(u8, &[&str])] = &[
    (
        0,
        &[
            "EMPTY", "EMPTY\r", "(a)", "(a)?", "(a )*", "( a* )", "(a\t)?", "(a,b)", "((a))", "((a)*)", "(a|b)", "(a|b)*",
            "(a\n|b)",
        ],
    ),
    (
        13,
        &["()", "EMPTYa", "(a) *", "(a|a) *", "(a,b)+", "((a))?", "((a|a))*", "(a*)*", "(a)**", "((a*),a)", "((a)|a)", "(((a)))"],
    ),
    (14, &["(ba)", "(aa)*", "((aa))", "(a|ba)", "((a),aa)"]),
    (15, &["(a|a)", "(b,b)", "((a),a)", "((a)*,a)", "((a|a))", "((a),(a))"]),
    (0, &["(#PCDATA)", "(#PCDATA)*", "( #PCDATA )", "(#PCDATA|a)*", "(#PCDATA |a)*", "(#PCDATA|b|a)*", "(#PCDATA|ab)*"]),
    (
        13,
        &["#PCDATA", "(#PCDATA)+", "(#PCDATA)?", "(#PCDATA|a)", "(a|#PCDATA)*", "(#PCDATA,a)*", "((#PCDATA))", "(#PCDATA|(a))*"],
    ),
    (13, &["(#PCDATA) *", "(#PCDATA|#PCDATA)*", "(#PCDATA|a)+", "(#PCDATA|a?)", "(#PCDATA|a*)*", "(#PCDATAa)", "(#PCDATA|a)?"]),
    (14, &["(#PCDATA|aa)*", "(#PCDATA|ba)*"]),
    (15, &["(#PCDATA|a|a)*"]),
];

#[test]
fn models_and_their_numbers() {
    let kind = KINDS.iter().find(|kind| kind.name == "symbols").unwrap();
    let mut counts: BTreeMap<u8, usize> = BTreeMap::new();
    let mut missing: BTreeSet<(String, u8)> = BTreeSet::new();
    for (number, models) in MODELS {
        missing.extend(models.iter().map(|model| (format!("<!ELEMENT a {model}>"), *number)));
    }
    for case in 0..kind.cases {
        for call in (kind.make)(&mut Chance::of(SEED, kind.name, case), case) {
            let (Call::ReadDeclaration { text, .. }, Some(Answer::Read(number, ..))) = call else { panic!("another call") };
            *counts.entry(number).or_default() += 1;
            missing.remove(&(String::from_utf8(text).unwrap(), number));
        }
    }
    assert_eq!(counts, BTreeMap::from([(0, 1_190), (13, 2_031_619), (14, 1_000), (15, 293)]));
    assert!(missing.is_empty(), "{missing:?}");
}
