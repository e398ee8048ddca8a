//! Shows that the gate can fail: with a fault put into the reference, its own work must find it.

use crate::check::{Checker, Finding};
use crate::reference::Mutation;
use crate::repeats::{repeats_limits, repeats_round};
use crate::rounds::{limits, round, stream_limits, REPEATS};
use crate::scoring::{self, Scorer};
use crate::subject::Subject;

/// What comes before the rounds.
type Limits = fn(&mut Checker) -> Result<(), Finding>;

/// Whether every fault is found within the rounds of the gate, and nothing where there is none.
pub fn selftest(seed: u64, rounds: u64, score_rounds: u64) -> bool {
    let right = Mutation::None;
    let mut all = !found(right, limits, seed, 2)
        & !found(right, stream_limits, seed, 2)
        & !found_in_scores(right, seed, 20)
        & counting(seed, rounds);
    let of_layers = [
        &Mutation::OF_EDGES[..],
        &Mutation::OF_LAYERS,
        &Mutation::OF_SMALL_GRAPHS,
    ];
    for fault in of_layers.concat() {
        all &= found(fault, limits, seed, rounds);
    }
    for fault in Mutation::OF_STREAMS {
        all &= found(fault, stream_limits, seed, rounds);
    }
    for fault in [&Mutation::OF_EDGES[..], &Mutation::OF_SCORES].concat() {
        all &= found_in_scores(fault, seed, score_rounds);
    }
    all
}

/// Whether a search that counts repeated subtrees differs nowhere from the one that walks them, and budgets
/// before, in and after these subtrees show each fault of it.
fn counting(seed: u64, rounds: u64) -> bool {
    let right = Mutation::SubtreesCounted;
    let mut all = !found(right, limits, seed, 20) & !found_at_repeats(right, seed, rounds);
    for fault in Mutation::OF_COUNTING {
        all &= found_at_repeats(fault, seed, rounds);
    }
    all
}

fn found_at_repeats(fault: Mutation, seed: u64, rounds: u64) -> bool {
    let mut checker = Checker::new(Subject::Wrong(fault));
    let mut numbers = 0..rounds / REPEATS;
    let finding = (repeats_limits(&mut checker).err())
        .or_else(|| numbers.find_map(|n| repeats_round(&mut checker, seed, n).err()));
    told(fault, finding, checker.tally.cases())
}

fn found(fault: Mutation, limits: Limits, seed: u64, rounds: u64) -> bool {
    let mut checker = Checker::new(Subject::Wrong(fault));
    let finding = (limits(&mut checker).err())
        .or_else(|| (0..rounds).find_map(|number| round(&mut checker, seed, number).err()));
    told(fault, finding, checker.tally.cases())
}

/// The same for scoring. Runs are right.
fn found_in_scores(fault: Mutation, seed: u64, rounds: u64) -> bool {
    let runs = Subject::Wrong(Mutation::None);
    let mut checker = scoring::Checker::new(Scorer::Wrong(fault), runs);
    let finding = (scoring::every_list(&mut checker).err())
        .or_else(|| (0..rounds).find_map(|n| scoring::round(&mut checker, seed, n).err()))
        .or_else(|| scoring::limits(&mut checker).err());
    told(fault, finding, checker.tally.cases())
}

fn told(fault: Mutation, finding: Option<Finding>, cases: u64) -> bool {
    match &finding {
        Some(finding) => println!(
            "{fault:?}: found by case {cases}, shrunk to {}",
            finding.size
        ),
        None => println!("{fault:?}: not found in {cases} cases"),
    }
    finding.is_some()
}
