//! Budgets that end before, in and after repeated subtrees of the search. A program may count the steps of
//! such a subtree at once, and must stop in it as if it had taken them one by one.

use crate::check::{Checker, Finding};
use crate::generate::{large_enough, larger_repeating, many_rings, repeating, rings};
use crate::layer::Layer;
use crate::random::Random;
use crate::reference::{repeats, Repeat, REPEAT_KINDS};
use crate::tally::Family;

/// Repeated subtrees are looked for in so many steps: of small layers, and of larger ones.
const STEPS: u64 = 2_000;
const MORE_STEPS: u64 = 10_000;

/// One layer in so many is larger, with at most so many pieces.
const LARGER: u64 = 15;
const PIECES: u64 = 200;

/// The random numbers of these rounds are not those of other rounds.
const SEQUENCES: u64 = 1 << 32;

/// What comes before all rounds: searches that are known, the shorter ones at every budget.
pub fn repeats_limits(checker: &mut Checker) -> Result<(), Finding> {
    for layer in rings() {
        let repeats = repeats(&layer, STEPS);
        let end = repeats.turns.last().expect("the search is short");
        let (all, budgets) = (repeats.subtrees.iter().collect(), (0..=end + 1).collect());
        compare(checker, &layer, all, budgets, 4096)?;
    }
    for layer in many_rings() {
        let repeats = repeats(&layer, MORE_STEPS);
        let chosen = at_ends(&repeats.subtrees);
        let budgets = budgets(&chosen, &repeats.turns);
        compare(checker, &layer, chosen, budgets, 4096)?;
    }
    Ok(())
}

/// One layer; the numbers of masks take turns. A round depends on nothing but the seed and its number.
pub fn repeats_round(checker: &mut Checker, seed: u64, number: u64) -> Result<(), Finding> {
    let random = &mut Random::new(seed, SEQUENCES + number);
    let masks = 2 + number % 7;
    let is_larger = number % LARGER == 0;
    let (layer, repeats) = match is_larger {
        true => larger_repeating(random, masks, PIECES, MORE_STEPS),
        false => repeating(random, masks, STEPS),
    };
    let subtrees = &repeats.subtrees;
    if subtrees.is_empty() {
        return Ok(());
    }
    let mut chosen = at_ends(subtrees);
    if !is_larger {
        chosen.extend(of_kinds(random, subtrees));
    }
    let budgets = budgets(&chosen, &repeats.turns);
    checker.tally.count_nearly(&repeats);
    compare(checker, &layer, chosen, budgets, large_enough(random))
}

fn compare(
    checker: &mut Checker,
    layer: &Layer,
    mut chosen: Vec<&Repeat>,
    budgets: Vec<u64>,
    size: usize,
) -> Result<(), Finding> {
    checker.budgets(Family::Repeats, layer, &budgets, size)?;
    chosen.sort_by_key(|repeat| repeat.before);
    chosen.dedup_by_key(|repeat| repeat.before);
    let masks = layer.settings.masks;
    checker.tally.count_repeats(masks, &chosen, &budgets);
    Ok(())
}

/// The first, the last, the longest and the deepest.
fn at_ends(subtrees: &[Repeat]) -> Vec<&Repeat> {
    let longest = subtrees.iter().max_by_key(|repeat| repeat.steps());
    let deepest = subtrees.iter().max_by_key(|repeat| repeat.place);
    let ends = [subtrees.first(), subtrees.last(), longest, deepest];
    ends.into_iter().flatten().collect()
}

/// Two of all, and one of each kind that is there.
fn of_kinds<'a>(random: &mut Random, subtrees: &'a [Repeat]) -> Vec<&'a Repeat> {
    let any = |random: &mut Random| &subtrees[random.index(subtrees.len())];
    let mut chosen = vec![any(random), any(random)];
    for kind in 0..REPEAT_KINDS.len() {
        let of_kind = subtrees.iter().filter(|repeat| repeat.kinds[kind]);
        let of_kind: Vec<&Repeat> = of_kind.collect();
        if !of_kind.is_empty() {
            chosen.push(random.pick(&of_kind));
        }
    }
    chosen
}

/// Before each subtree, with its first step, in its middle, before its last step, with that, and just past
/// it. A wrong count of steps shows later too, where the incumbent changes and where the search ends.
fn budgets(chosen: &[&Repeat], turns: &[u64]) -> Vec<u64> {
    let of_subtree = |&&Repeat { before, last, .. }: &&Repeat| {
        let middle = (before + last) / 2;
        [before, before + 1, middle, last - 1, last, last + 1]
    };
    let mut budgets: Vec<u64> = chosen.iter().flat_map(of_subtree).collect();
    budgets.extend(turns.iter().flat_map(|turn| [turn - 1, *turn, turn + 1]));
    budgets.sort();
    budgets.dedup();
    budgets
}
