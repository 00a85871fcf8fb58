//! compare [--dtd PROGRAM] [--self] [--seed N] [--times N] [--kind KIND [--case N]]
//!
//! Without --self the static library (feature `library`) and the program are compared with the second implementation; with it the
//! second implementation is compared with itself, which tries only the cases. COMPARE_TIMES=N in the environment makes a run N
//! times as long. The last line says how many calls agreed; where one differs, what gives it again is printed, and the status is 1.

use compare::calls::{Calls, Second};
use compare::cases::KINDS;
use compare::program::Proved;
use compare::{run, run_case, Reached, SEED};
use std::process::exit;

fn usage(why: &str) -> ! {
    let kinds: Vec<&str> = KINDS.iter().map(|k| k.name).collect();
    eprintln!(
        "compare: {why}\nusage: compare [--dtd PROGRAM] [--self] [--seed N] [--times N] [--kind KIND [--case N]]\nkinds: {}",
        kinds.join(" ")
    );
    exit(2)
}

fn number(text: Option<String>, what: &str) -> u64 {
    text.and_then(|t| t.parse().ok()).unwrap_or_else(|| usage(&format!("{what} wants a number")))
}

fn main() {
    let (mut dtd, mut with_itself, mut seed, mut kind, mut case) = (None, false, SEED, None, None);
    let mut times = match std::env::var("COMPARE_TIMES") {
        Ok(text) => number(Some(text), "COMPARE_TIMES"),
        Err(_) => 1,
    };
    let mut arguments = std::env::args().skip(1);
    while let Some(argument) = arguments.next() {
        match &argument[..] {
            "--dtd" => dtd = Some(arguments.next().unwrap_or_else(|| usage("--dtd wants a program")).into()),
            "--self" => with_itself = true,
            "--seed" => seed = number(arguments.next(), "--seed"),
            "--times" => times = number(arguments.next(), "--times"),
            "--kind" => kind = arguments.next(),
            "--case" => case = Some(number(arguments.next(), "--case")),
            _ => usage(&format!("what is {argument}?")),
        }
    }
    if !with_itself && dtd.is_none() && !cfg!(feature = "library") {
        usage("nothing to compare: give --dtd PROGRAM, or build with --features library");
    }
    let mut tested: Box<dyn Calls> = if with_itself { Box::new(Second) } else { Box::new(Proved { dtd }) };

    let mut reached = Reached::default();
    let result = match &kind {
        None => {
            println!("compare: seed {seed}, {times} times");
            run(seed, times, &mut *tested, &mut reached)
        }
        Some(name) => {
            let kind = KINDS.iter().find(|k| k.name == name).unwrap_or_else(|| usage(&format!("no kind {name}")));
            let cases = match case {
                Some(case) => case..case + 1,
                None => 0..kind.cases_in(times),
            };
            cases.into_iter().try_for_each(|case| run_case(kind, seed, case, &mut *tested, &mut reached))
        }
    };
    if let Err(what) = result {
        println!("compare: {what}");
        exit(1);
    }
    print!("{}", reached.lines());
    let missing: Vec<String> = reached.missing().into_iter().filter(|m| tested.has_library() || m.starts_with("dtd")).collect();
    if kind.is_none() && !missing.is_empty() {
        println!("compare: no case reached: {}", missing.join(", "));
        exit(1);
    }
    println!("compare: {} calls agree (seed {seed})", reached.calls());
}
