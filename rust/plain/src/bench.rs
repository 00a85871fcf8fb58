//! bench [--program PROGRAM]..
//! bench --documents
//! bench --books FOLDER
//! bench --list
//! bench --once FIGURE WHO KIND N
//!
//! Times on books near 60,000 bytes, each the least and the median of many runs in one process after a warm-up: the whole DTD
//! of a book, all its declarations a parent at a time, the model of one parent, a word accepted or not (one as long as the call
//! allows, and its first three names), a declaration written and read. Then times on pairs of models: whether one is within the
//! other. Then times on documents of 60,000 bytes, judged by tables of models. The plain code is timed, for the whole DTD also
//! the program that rescans for each parent, for the words also acceptance that copies the record for each name, with the
//! feature `library` the static library, and with the feature `libxml2` libxml2's validation of the same documents as XML, all
//! on the same inputs. Output buffers are lent as they are and not cleared between runs. Neither is it timed how libxml2 parses
//! a document and its DTD, nor how the pairs of a document are made. Behind the times are tables of them in Markdown.
//!
//! --program times whole programs from start to end, a book on standard input; the table has the first beside each other one.
//! --documents times the documents alone.
//! --books writes the books into a folder, as files KIND.book.
//! --list prints what is timed on books and pairs: lines of figure, who and kind, with tabs between. A kind is one of these.
//! --once makes N calls of one of these and prints nothing: for a count of instructions (tools/instructions.py).

use plain::books::{timed_parent, KINDS};
use plain::documents::{self, Document};
use plain::inclusion::LONGEST_COUNTEREXAMPLE;
use plain::pairs::{self, Pairs};
use std::collections::BTreeMap;
use std::fmt::Display;
use std::hint::black_box;
use std::io::Write;
use std::path::Path;
use std::process::{exit, Command, Stdio};
use std::time::{Duration, Instant};

const WHOLE: &str = "whole DTD";
const ONE_AT_A_TIME: &str = "all parents, one at a time";
const MODEL: &str = "model of one parent";
const WORD: &str = "a word accepted or not";
const SHORT: &str = "a word of 3 names";
const WRITTEN: &str = "declaration written";
const READ: &str = "declaration read";
const PROGRAM: &str = "whole program";
const WITHIN: &str = "within: yes";
const NOT_WITHIN: &str = "within: no";
const JUDGED: &str = "a document judged";

/// The figures of a book in the order of the tables' columns.
const FIGURES: &[&str] = &[WHOLE, ONE_AT_A_TIME, MODEL, WORD, SHORT, WRITTEN, READ];

/// How often all figures of a book are timed, one after the other.
const ROUNDS: usize = 4;

/// What is timed on one book: the book, one of its parents, that parent's model and declaration, and a word.
struct Input {
    book: Vec<u8>,
    parent: usize,
    model: plain::Model,
    text: Vec<u8>,
    word: Vec<u8>,
}

impl Input {
    fn of(book: Vec<u8>) -> Input {
        let (parent, model) = timed_parent(&book);
        let mut buffer = [0u8; plain::declaration::LONGEST];
        let size = plain::write_declaration(&book, parent, &model, &mut buffer).unwrap();
        Input { parent, model, text: buffer[..size].to_vec(), word: plain::a_word(&model), book }
    }

    /// The first three names of the word, or all where it has fewer.
    fn short(&self) -> &[u8] {
        &self.word[..self.word.len().min(3)]
    }
}

/// One implementation's call for one figure.
struct Work<'a> {
    figure: &'static str,
    who: &'a str,
    call: Box<dyn FnMut() + 'a>,
}

fn work<'a, T>(figure: &'static str, who: &'a str, mut call: impl FnMut() -> T + 'a) -> Work<'a> {
    let call = move || {
        black_box(call());
    };
    Work { figure, who, call: Box::new(call) }
}

/// All declarations of a book by one call for each parent.
fn one_at_a_time(book: &[u8], out: &mut Vec<u8>, write: impl Fn(&[u8], usize, &mut [u8]) -> Option<usize>) {
    let mut buffer = [0u8; plain::declaration::LONGEST];
    out.clear();
    for parent in 0..book[0] as usize {
        if let Some(size) = write(black_box(book), parent, &mut buffer) {
            out.extend_from_slice(&buffer[..size]);
            out.push(b'\n');
        }
    }
}

fn plain_works(input: &Input) -> Vec<Work<'_>> {
    let Input { book, parent, model, text, word } = input;
    let short = input.short();
    let mut dtd = vec![0u8; plain::LONGEST_DTD];
    let mut buffer = [0u8; plain::declaration::LONGEST];
    let mut out = Vec::new();
    let write = |book: &[u8], parent, buffer: &mut [u8]| plain::write_from_sample(book, parent, buffer).ok();
    vec![
        work(WHOLE, "plain", move || plain::write_dtd(black_box(book), &mut dtd)),
        work(WHOLE, "rescan", move || plain::rescan::rescan(black_box(book))),
        work(ONE_AT_A_TIME, "plain", move || one_at_a_time(book, &mut out, write)),
        work(MODEL, "plain", move || plain::model_of_parent(black_box(book), *parent)),
        work(WORD, "plain", move || plain::accepts_word(64, black_box(model), black_box(word))),
        work(WORD, "by value", move || plain::by_value::accepts_word(64, black_box(model), black_box(word))),
        work(SHORT, "plain", move || plain::accepts_word(64, black_box(model), black_box(short))),
        work(SHORT, "by value", move || plain::by_value::accepts_word(64, black_box(model), black_box(short))),
        work(WRITTEN, "plain", move || plain::write_declaration(black_box(book), *parent, model, &mut buffer)),
        work(READ, "plain", move || plain::read_declaration(black_box(book), black_box(text))),
    ]
}

#[cfg(feature = "library")]
fn to_library(model: &plain::Model) -> curlewsong::Model {
    curlewsong::Model { count: model.count, factor: model.factor, mode: model.mode, text: model.text }
}

#[cfg(feature = "library")]
fn library_works(input: &Input) -> Vec<Work<'_>> {
    let Input { book, parent, model, text, word } = input;
    let short = input.short();
    let model = to_library(model);
    // Lends the record until the call, as plain's calls do, so that no copy is timed but those of the call.
    let accepts = |model: &curlewsong::Model, word: &[u8]| curlewsong::accepts_word(64, *model, word);
    let mut dtd = vec![0u8; curlewsong::LONGEST_DTD];
    let mut buffer = [0u8; curlewsong::LONGEST_DECLARATION];
    let mut out = Vec::new();
    let write = |book: &[u8], parent, buffer: &mut [u8]| curlewsong::write_from_sample(book, parent, buffer).ok();
    vec![
        work(WHOLE, "library", move || curlewsong::write_dtd(black_box(book), &mut dtd)),
        work(ONE_AT_A_TIME, "library", move || one_at_a_time(book, &mut out, write)),
        work(MODEL, "library", move || curlewsong::model_of_parent(black_box(book), *parent)),
        work(WORD, "library", move || accepts(black_box(&model), black_box(word))),
        work(SHORT, "library", move || accepts(black_box(&model), black_box(short))),
        work(WRITTEN, "library", move || curlewsong::write_declaration(black_box(book), *parent, model, &mut buffer)),
        work(READ, "library", move || curlewsong::read_declaration(black_box(book), black_box(text))),
    ]
}

#[cfg(not(feature = "library"))]
fn library_works(_: &Input) -> Vec<Work<'_>> {
    vec![]
}

fn works(input: &Input) -> Vec<Work<'_>> {
    plain_works(input).into_iter().chain(library_works(input)).collect()
}

fn plain_works_on_pairs(pairs: &Pairs) -> Vec<Work<'_>> {
    let within = |second| {
        let mut word = [0u8; LONGEST_COUNTEREXAMPLE];
        move || plain::within(pairs.names, black_box(&pairs.first), black_box(second), &mut word)
    };
    vec![work(WITHIN, "plain", within(&pairs.wider)), work(NOT_WITHIN, "plain", within(&pairs.other))]
}

#[cfg(feature = "library")]
fn library_works_on_pairs(pairs: &Pairs) -> Vec<Work<'_>> {
    let first = to_library(&pairs.first);
    let within = |second| {
        let second = to_library(second);
        let mut word = [0u8; curlewsong::LONGEST_COUNTEREXAMPLE];
        // Lends the records until the call, as for a word.
        move || curlewsong::raw::within(pairs.names, *black_box(&first), *black_box(&second), &mut word)
    };
    vec![work(WITHIN, "library", within(&pairs.wider)), work(NOT_WITHIN, "library", within(&pairs.other))]
}

#[cfg(not(feature = "library"))]
fn library_works_on_pairs(_: &Pairs) -> Vec<Work<'_>> {
    vec![]
}

fn works_on_pairs(pairs: &Pairs) -> Vec<Work<'_>> {
    plain_works_on_pairs(pairs).into_iter().chain(library_works_on_pairs(pairs)).collect()
}

/// What is timed on a document: its table of models and its bytes.
struct Judged {
    table: Vec<u8>,
    bytes: Vec<u8>,
}

fn plain_works_on_document(judged: &Judged) -> Vec<Work<'_>> {
    let Judged { table, bytes } = judged;
    vec![work(JUDGED, "plain", move || plain::accepts_document(64, black_box(table), black_box(bytes)))]
}

#[cfg(feature = "library")]
fn library_works_on_document(Judged { table, bytes }: &Judged, yes: bool) -> Vec<Work<'_>> {
    assert_eq!(curlewsong::accepts_document(64, table, bytes), Ok(yes));
    vec![work(JUDGED, "library", move || curlewsong::accepts_document(64, black_box(table), black_box(bytes)))]
}

#[cfg(not(feature = "library"))]
fn library_works_on_document(_: &Judged, _: bool) -> Vec<Work<'_>> {
    vec![]
}

#[cfg(feature = "libxml2")]
fn libxml2_works_on_document(document: &Document, yes: bool) -> Vec<Work<'static>> {
    let mut parsed = plain::libxml2::Parsed::new(&document.xml(), &document.dtd());
    assert_eq!(parsed.is_valid(), yes);
    vec![work(JUDGED, "libxml2", move || parsed.is_valid())]
}

#[cfg(not(feature = "libxml2"))]
fn libxml2_works_on_document(_: &Document, _: bool) -> Vec<Work<'static>> {
    vec![]
}

/// Times all documents, and gives a row for each with its answer, in nanoseconds for each pair.
fn times_of_documents() -> Vec<(String, Times)> {
    let mut rows = Vec::new();
    for (kind, make, yes) in documents::KINDS {
        let document = make();
        let judged = Judged { table: document.table(), bytes: document.pairs.concat() };
        let answer = if *yes { "yes" } else { "no" };
        println!("{kind}: {} bytes, the answer is {answer}", judged.bytes.len());
        let works = plain_works_on_document(&judged).into_iter().chain(library_works_on_document(&judged, *yes));
        let times = times_of(works.chain(libxml2_works_on_document(&document, *yes)));
        let for_pair = |time: f64| time * 1000.0 / documents::PAIRS as f64;
        rows.push((format!("{kind}: {answer}"), times.into_iter().map(|(whose, time)| (whose, for_pair(time))).collect()));
    }
    rows
}

/// The table of documents, where plain is not alone.
fn table_of_documents(rows: &[(String, Times)]) {
    let columns = match (cfg!(feature = "library"), cfg!(feature = "libxml2")) {
        (_, true) => beside(JUDGED, "libxml2", ""),
        (true, false) => beside(JUDGED, "plain", "").split_off(1),
        _ => return,
    };
    table("Whole documents, in nanoseconds a pair:", "document", &columns, rows);
}

/// A work that is timed: how often it is called in one run, and the times of the runs so far.
struct Timed<'a> {
    work: Work<'a>,
    calls: u32,
    runs: Vec<f64>,
}

impl<'a> Timed<'a> {
    /// After a warm-up, with as many calls in one run as take about half a millisecond.
    fn new(work: Work<'a>) -> Self {
        let mut new = Timed { work, calls: 1, runs: Vec::new() };
        while new.run() < Duration::from_micros(500) && new.calls <= 1 << 20 {
            new.calls *= 2;
        }
        new
    }

    fn run(&mut self) -> Duration {
        let start = Instant::now();
        for _ in 0..self.calls {
            (self.work.call)();
        }
        start.elapsed()
    }

    /// Many runs, in microseconds for each call.
    fn round(&mut self) {
        let until = Instant::now() + Duration::from_millis(40);
        let before = self.runs.len();
        while self.runs.len() < before + 4 || (Instant::now() < until && self.runs.len() < before + 125) {
            let time = self.run().as_nanos() as f64 / f64::from(self.calls) / 1000.0;
            self.runs.push(time);
        }
    }

    fn least_and_median(&mut self) -> (f64, f64) {
        self.runs.sort_by(f64::total_cmp);
        (self.runs[0], self.runs[self.runs.len() / 2])
    }
}

/// One program from start to end.
fn program(path: &str, book: &[u8]) {
    let mut child = Command::new(path).stdin(Stdio::piped()).stdout(Stdio::null()).spawn().expect("the program starts");
    let _ = child.stdin.take().unwrap().write_all(book);
    assert!(child.wait().expect("the program ends").success());
}

/// The least times on one input, by figure and who.
type Times = BTreeMap<(&'static str, String), f64>;

/// Times all that is done with one input, and prints a line for each time. All are timed in turn, several times over, so that a
/// time in which the machine is slow does not meet one of them alone.
fn times_of<'a>(works: impl Iterator<Item = Work<'a>>) -> Times {
    let mut all: Vec<Timed> = works.map(Timed::new).collect();
    for _ in 0..ROUNDS {
        all.iter_mut().for_each(Timed::round);
    }
    let mut times = Times::new();
    for one in &mut all {
        let (least, median) = one.least_and_median();
        let Work { figure, who, .. } = one.work;
        println!("  {figure:<28} {who:<8} {least:>12.4} µs least {median:>12.4} µs median");
        times.insert((figure, who.to_string()), least);
    }
    times
}

/// A column of a table: its head, the figure, and the two whose times it has with their ratio.
struct Column<'a> {
    head: String,
    figure: &'static str,
    first: &'a str,
    second: &'a str,
}

impl Column<'_> {
    /// Two times, with at least three digits each, and their ratio.
    fn cell(&self, times: &Times) -> String {
        let [first, second] = [self.first, self.second].map(|who| times[&(self.figure, who.to_string())]);
        let digits = |time: f64| match time {
            ..1.0 => 3,
            ..100.0 => 2,
            ..1000.0 => 1,
            _ => 0,
        };
        format!("{first:.*} / {second:.*} = {:.2}", digits(first), digits(second), first / second)
    }
}

fn table(title: &str, input: &str, columns: &[Column], rows: &[(impl Display, Times)]) {
    let heads: Vec<&str> = columns.iter().map(|column| &column.head[..]).collect();
    println!("\n{title}\n\n| {input} | {} |\n|---|{}", heads.join(" | "), "---|".repeat(columns.len()));
    for (kind, times) in rows {
        let cells: Vec<String> = columns.iter().map(|column| column.cell(times)).collect();
        println!("| {kind} | {} |", cells.join(" | "));
    }
}

/// Columns of one figure: the library beside plain and beside another, or plain beside the other where no library is timed.
fn beside(figure: &'static str, other: &'static str, head: &str) -> Vec<Column<'static>> {
    let pairs = if cfg!(feature = "library") { vec![("library", "plain"), ("library", other)] } else { vec![("plain", other)] };
    let column = |(first, second)| Column { head: format!("{head}{first} / {second}"), figure, first, second };
    pairs.into_iter().map(column).collect()
}

/// A column for each of these figures: the library beside plain.
fn beside_plain(figures: &[&'static str]) -> Vec<Column<'static>> {
    let column = |figure: &&'static str| Column { head: figure.to_string(), figure, first: "library", second: "plain" };
    figures.iter().map(column).collect()
}

/// The tables that the times on books give.
fn tables(programs: &[String], rows: &[(&str, Times)]) {
    table("The whole DTD:", "book", &beside(WHOLE, "rescan", ""), rows);
    let words = [WORD, SHORT].map(|figure| beside(figure, "by value", &format!("{figure}: ")));
    table("A word accepted or not:", "book", &words.into_iter().flatten().collect::<Vec<_>>(), rows);
    if cfg!(feature = "library") {
        table("library / plain:", "book", &beside_plain(FIGURES), rows);
    }
    if let [first, others @ ..] = programs {
        let name = |path: &str| Path::new(path).file_name().map_or(path.into(), |name| name.to_string_lossy().into_owned());
        let beside = |second| Column { head: format!("`{}` / `{}`", name(first), name(second)), figure: PROGRAM, first, second };
        let columns: Vec<Column> = others.iter().map(|second| beside(second)).collect();
        table("Whole programs:", "book", &columns, rows);
    }
}

fn time_all(programs: &[String]) {
    let mut rows = Vec::new();
    for (kind, make) in KINDS {
        let input = Input::of(make());
        println!("{kind}: {} bytes, a word of {} names", input.book.len(), input.word.len());
        let whole = programs.iter().map(|path| work(PROGRAM, path, || program(path, &input.book)));
        rows.push((*kind, times_of(works(&input).into_iter().chain(whole))));
    }
    let mut rows_of_pairs = Vec::new();
    for kind in pairs::KINDS {
        println!("{}", kind.name);
        rows_of_pairs.push((kind.name, times_of(works_on_pairs(&kind.pairs()).into_iter())));
    }
    let rows_of_documents = times_of_documents();
    tables(programs, &rows);
    if cfg!(feature = "library") {
        table("One model within another, library / plain:", "models", &beside_plain(&[WITHIN, NOT_WITHIN]), &rows_of_pairs);
    }
    table_of_documents(&rows_of_documents);
}

fn list() {
    for (kind, make) in KINDS {
        for work in works(&Input::of(make())) {
            println!("{}\t{}\t{kind}", work.figure, work.who);
        }
    }
    for kind in pairs::KINDS {
        for work in works_on_pairs(&kind.pairs()) {
            println!("{}\t{}\t{}", work.figure, work.who, kind.name);
        }
    }
}

/// Makes so many calls of the one among these works that has this figure and is of this one.
fn call(works: Vec<Work>, figure: &str, who: &str, calls: &str) {
    let calls: usize = calls.parse().unwrap_or_else(|_| usage(&format!("{calls} is no number of calls")));
    let mut work = works.into_iter().find(|work| (work.figure, work.who) == (figure, who));
    let Some(work) = &mut work else { usage(&format!("{who} has no figure {figure}: see bench --list")) };
    for _ in 0..calls {
        (work.call)();
    }
}

fn once(figure: &str, who: &str, kind: &str, calls: &str) {
    if let Some((_, make)) = KINDS.iter().find(|(name, _)| *name == kind) {
        call(works(&Input::of(make())), figure, who, calls);
    } else if let Some(kind) = pairs::KINDS.iter().find(|of_pairs| of_pairs.name == kind) {
        call(works_on_pairs(&kind.pairs()), figure, who, calls);
    } else {
        usage(&format!("no kind {kind}"));
    }
}

fn write_books(folder: &str) {
    for (kind, make) in KINDS {
        let file = Path::new(folder).join(format!("{kind}.book"));
        if let Err(error) = std::fs::write(&file, make()) {
            usage(&format!("{}: {error}", file.display()));
        }
    }
}

fn usage(why: &str) -> ! {
    eprintln!("bench: {why}");
    eprintln!("usage: bench [--program PROGRAM].. | --documents | --books FOLDER | --list | --once FIGURE WHO KIND N");
    exit(2)
}

fn main() {
    let arguments: Vec<String> = std::env::args().skip(1).collect();
    let arguments: Vec<&str> = arguments.iter().map(|argument| &argument[..]).collect();
    match &arguments[..] {
        ["--documents"] => table_of_documents(&times_of_documents()),
        ["--books", folder] => write_books(folder),
        ["--list"] => list(),
        ["--once", figure, who, kind, calls] => once(figure, who, kind, calls),
        pairs => {
            let program_of = |pair: &[&str]| match pair {
                ["--program", path] => path.to_string(),
                _ => usage(&format!("what is {}?", pair.join(" "))),
            };
            time_all(&pairs.chunks(2).map(program_of).collect::<Vec<_>>())
        }
    }
}
