//! Compares the job loader's calls and the program `score` with a plain implementation of the rules. See
//! README.md.

mod check;
mod compare;
mod generate;
mod guarded;
mod input;
mod layer;
mod random;
mod reference;
mod repeats;
mod rounds;
mod scoring;
mod selftest;
mod shrink;
mod shrink_stream;
mod stream;
mod subject;
mod tally;
mod vectors;

use std::path::Path;
use std::process::ExitCode;
use std::thread::{self, JoinHandle};
use std::time::Instant;

use check::{Checker, Finding};
use repeats::repeats_limits;
use rounds::{limits, round, stream_limits};
use scoring::{Program, Scorer};
use subject::Subject;

/// The seed and the rounds of the gate.
const SEED: u64 = 1;
const ROUNDS: u64 = 3_200;

/// The rounds of scoring.
const SCORE_ROUNDS: u64 = 500;

/// Callers at once, and the rounds of each.
const CALLERS: u64 = 4;
const CALLER_ROUNDS: u64 = 2;

/// The stack that is said to be enough for a call.
const STACK: usize = 1 << 20;

const USAGE: &str = "usage: harness selftest | gate | scores | vectors FOLDER...
       harness run --seed N --seconds T | run-scores --seed N --seconds T";

fn main() -> ExitCode {
    let arguments: Vec<String> = std::env::args().skip(1).collect();
    let command = arguments.first().cloned().unwrap_or_default();
    match on_small_stack(move || carry_out(&arguments)).and_then(wait) {
        Ok(said) => {
            println!("{command}: {said}");
            ExitCode::SUCCESS
        }
        Err(fault) => {
            println!("FAILED: {fault}");
            ExitCode::FAILURE
        }
    }
}

type Outcome = Result<String, String>;

fn carry_out(arguments: &[String]) -> Outcome {
    let words: Vec<&str> = arguments.iter().map(String::as_str).collect();
    match words[..] {
        ["selftest"] => selftest(),
        ["gate"] => gate(),
        ["scores"] => scores(),
        ["run", "--seed", seed, "--seconds", seconds] => run(seed, seconds),
        ["run-scores", "--seed", seed, "--seconds", seconds] => run_scores(seed, seconds),
        ["vectors", _, ..] => {
            let folders: Vec<&Path> = words[1..].iter().map(Path::new).collect();
            vectors::vectors(&folders)
        }
        _ => Err(String::from(USAGE)),
    }
}

fn on_small_stack(
    work: impl FnOnce() -> Outcome + Send + 'static,
) -> Result<JoinHandle<Outcome>, String> {
    let thread = thread::Builder::new().stack_size(STACK).spawn(work);
    thread.map_err(|error| format!("no thread: {error}"))
}

fn wait(thread: JoinHandle<Outcome>) -> Outcome {
    let panicked = |_| Err(String::from("a panic, told above"));
    thread.join().unwrap_or_else(panicked)
}

fn selftest() -> Outcome {
    if selftest::selftest(SEED, ROUNDS, SCORE_ROUNDS) {
        Ok(String::from("every fault is found"))
    } else {
        Err(String::from("the gate's work does not find every fault"))
    }
}

/// A fixed amount of work, the same in every run.
fn gate() -> Outcome {
    let mut checker = Checker::new(Subject::Library);
    limits(&mut checker).map_err(|finding| finding.report)?;
    stream_limits(&mut checker).map_err(|finding| finding.report)?;
    repeats_limits(&mut checker).map_err(|finding| finding.report)?;
    for number in 0..ROUNDS {
        numbered_round(&mut checker, SEED, number)?;
    }
    at_once()?;
    let summary = checker.tally.summary();
    if checker.tally.is_complete() {
        Ok(format!("{summary}; {CALLERS} callers at once"))
    } else {
        Err(format!("too little occurred: {summary}"))
    }
}

/// Several callers at the same time, each with layers of its own.
fn at_once() -> Result<(), String> {
    let caller = |number: u64| {
        on_small_stack(move || {
            let mut checker = Checker::new(Subject::Library);
            for round in 0..CALLER_ROUNDS {
                numbered_round(&mut checker, SEED + 1 + number, round)?;
            }
            Ok(checker.tally.summary())
        })
    };
    let callers: Vec<_> = (0..CALLERS).map(caller).collect();
    for caller in callers {
        caller.and_then(wait)?;
    }
    Ok(())
}

/// A fixed amount of scoring.
fn scores() -> Outcome {
    let mut checker = score_checker()?;
    scoring::every_list(&mut checker).map_err(|finding| finding.report)?;
    for number in 0..SCORE_ROUNDS {
        score_round(&mut checker, SEED, number)?;
    }
    scoring::limits(&mut checker).map_err(|finding| finding.report)?;
    let summary = checker.tally.summary();
    if checker.tally.is_complete() {
        Ok(summary)
    } else {
        Err(format!("too little occurred: {summary}"))
    }
}

fn score_checker() -> Result<scoring::Checker, String> {
    let scorer = Scorer::Program(Program::new()?);
    Ok(scoring::Checker::new(scorer, Subject::Library))
}

/// Rounds of another seed until the time is over.
fn run(seed: &str, seconds: &str) -> Outcome {
    let seed = number(seed)?;
    let mut checker = Checker::new(Subject::Library);
    for_seconds(number(seconds)?, |number| {
        numbered_round(&mut checker, seed, number)?;
        Ok(checker.tally.summary())
    })
}

/// The same for scoring.
fn run_scores(seed: &str, seconds: &str) -> Outcome {
    let seed = number(seed)?;
    let mut checker = score_checker()?;
    for_seconds(number(seconds)?, |number| {
        score_round(&mut checker, seed, number)?;
        Ok(checker.tally.summary())
    })
}

fn number(word: &str) -> Result<u64, String> {
    word.parse().map_err(|_| String::from(USAGE))
}

/// Rounds until the time is over, with a line for each minute. The last summary is handed over.
fn for_seconds(seconds: u64, mut round: impl FnMut(u64) -> Outcome) -> Outcome {
    let start = Instant::now();
    let mut minutes = 0;
    for number in 0.. {
        let summary = round(number)?;
        let elapsed = start.elapsed().as_secs();
        if elapsed >= seconds {
            return Ok(summary);
        }
        if elapsed / 60 > minutes {
            minutes = elapsed / 60;
            println!("round {number}: {summary}");
        }
    }
    unreachable!("there is always another number")
}

fn numbered_round(checker: &mut Checker, seed: u64, number: u64) -> Result<(), String> {
    round(checker, seed, number).map_err(|finding| told(seed, number, finding))
}

fn score_round(checker: &mut scoring::Checker, seed: u64, number: u64) -> Result<(), String> {
    scoring::round(checker, seed, number).map_err(|finding| told(seed, number, finding))
}

fn told(seed: u64, number: u64, finding: Finding) -> String {
    format!("seed {seed}, round {number}: {}", finding.report)
}
