//! The work of the gate, in rounds. A round depends on nothing but the seed and its number.

use crate::check::{Checker, Finding};
use crate::generate::{
    any_layer, any_size, at_limits, damaged, damaged_stream, fix, fixed_at_limits, fixed_runs,
    free_layer, large_enough, lively, made, small_components, small_components_at_limits,
    streams_at_limits, whole_stream,
};
use crate::input::Input;
use crate::layer::Layer;
use crate::random::Random;
use crate::reference::{self, Mutation};
use crate::repeats::repeats_round;
use crate::tally::Family;

/// Layers that need more steps are compared at some budgets only.
const EVERY_BUDGET: u64 = 250;

/// A search is not followed further than this to find where it ends.
const LONGEST_SEARCH: u64 = 20_000;

/// The greatest budget of a large layer.
const GREATEST_BUDGET: u64 = 200_000;

/// Once in so many rounds there is a layer whose search repeats itself.
pub const REPEATS: u64 = 4;

/// What comes before all rounds: the ends of every range, and every small component.
pub fn limits(checker: &mut Checker) -> Result<(), Finding> {
    let texts = [
        small_components_at_limits(),
        at_limits(),
        fixed_at_limits(),
        fixed_runs(),
    ];
    for text in texts.concat() {
        checker.input(Family::Limits, Input::Layer(text), 4096)?;
    }
    Ok(())
}

/// The same for streams.
pub fn stream_limits(checker: &mut Checker) -> Result<(), Finding> {
    for (input, size) in streams_at_limits() {
        checker.input(Family::StreamLimits, input, size)?;
    }
    Ok(())
}

pub fn round(checker: &mut Checker, seed: u64, number: u64) -> Result<(), Finding> {
    let random = &mut Random::new(seed, number);
    for _ in 0..8 {
        small(checker, random)?;
    }
    for _ in 0..64 {
        let (text, size) = (damaged(random), any_size(random));
        checker.input(Family::Damaged, Input::Layer(text), size)?;
    }
    for _ in 0..64 {
        let (input, size) = (damaged_stream(random), any_size(random));
        checker.input(Family::DamagedStreams, input, size)?;
    }
    stream(checker, random)?;
    for _ in 0..4 {
        larger(checker, random, 60, 20_000)?;
    }
    larger(checker, random, 512, GREATEST_BUDGET)?;
    made_layer(checker, random)?;
    if number % REPEATS == 0 {
        repeats_round(checker, seed, number / REPEATS)?;
    }
    Ok(())
}

/// A layer of at most twelve pieces, or of small components, at every budget, if its search is short.
fn small(checker: &mut Checker, random: &mut Random) -> Result<(), Finding> {
    let layer = match random.below(8) {
        0 => small_components(random),
        1..=4 => lively(random),
        _ => {
            let count = random.below(13) as usize;
            any_layer(random, count)
        }
    };
    let budgets = budgets(random, &layer);
    checker.budgets(Family::Small, &layer, &budgets, large_enough(random))
}

/// From 0 to one more than the search needs, rising.
fn budgets(random: &mut Random, layer: &Layer) -> Vec<u64> {
    let search = reference::run(&layer.with_budget(LONGEST_SEARCH), Mutation::None);
    let end = search.steps;
    if end <= EVERY_BUDGET {
        return (0..=end + 1).chain([1_000_000_000]).collect();
    }
    let mut budgets: Vec<u64> = (0..30).map(|_| random.of_any_size(end)).collect();
    budgets.extend([0, 1, end - 1, end, end + 1]);
    budgets.sort();
    budgets.dedup();
    budgets
}

/// A layer of up to `most` pieces at one budget.
fn larger(
    checker: &mut Checker,
    random: &mut Random,
    most: u64,
    greatest: u64,
) -> Result<(), Finding> {
    let count = random.between(11, most) as usize;
    let layer = any_layer(random, count);
    at_some_budget(checker, random, Family::Larger, &layer, greatest)
}

/// A stream of a layer of any kind.
fn stream(checker: &mut Checker, random: &mut Random) -> Result<(), Finding> {
    let count = random.of_any_size(512) as usize;
    let layer = free_layer(random, count).with_budget(random.of_any_size(2_000));
    let input = whole_stream(random, &layer);
    checker.input(Family::Streams, input, large_enough(random))
}

fn made_layer(checker: &mut Checker, random: &mut Random) -> Result<(), Finding> {
    let count = random.between(1, 512) as usize;
    let mut layer = made(random, count);
    if random.once_in(2) {
        fix(random, &mut layer);
    }
    at_some_budget(checker, random, Family::Made, &layer, GREATEST_BUDGET)
}

fn at_some_budget(
    checker: &mut Checker,
    random: &mut Random,
    family: Family,
    layer: &Layer,
    greatest: u64,
) -> Result<(), Finding> {
    let layer = layer.with_budget(random.of_any_size(greatest));
    let size = large_enough(random);
    checker.input(family, Input::Layer(layer.text()), size)
}
