//! The work of the gate, in rounds. A round depends on nothing but the seed and its number.

use std::ops::Range;

use super::check::Checker;
use super::tally::Family;
use crate::check::Finding;
use crate::generate::{
    any_masks, at_limits, damaged, fixed_at_limits, keeping_ties, knot, plain_masks, split_units,
    stray_masks, tied_layer, PLAIN_LISTS,
};
use crate::layer::Layer;
use crate::random::Random;
use crate::reference::{self, mask_lines, Mutation, UNSET};

/// Every list over a few numbers for a small layer, and over fewer where some of its pieces are fixed.
pub fn every_list(checker: &mut Checker) -> Result<(), Finding> {
    let free = knot();
    let mut fixed = free.clone();
    fixed.pieces[2].fixed = Some(1);
    fixed.pieces[4].fixed = Some(0);
    let numbers: [(Layer, &[u64]); 2] = [(free, &[0, 1, 2, 254, UNSET]), (fixed, &[0, 1, UNSET])];
    for (layer, numbers) in numbers {
        for masks in lists_of(5, numbers) {
            let masks = mask_lines(&masks).into_bytes();
            checker.texts(Family::Every, layer.text(), masks)?;
        }
    }
    Ok(())
}

/// Every list of so many of the numbers.
fn lists_of(pieces: usize, numbers: &[u64]) -> Vec<Vec<u64>> {
    let mut lists = vec![Vec::new()];
    for _ in 0..pieces {
        let longer = |list: &Vec<u64>| -> Vec<Vec<u64>> {
            let each = numbers.iter();
            each.map(|&mask| [&list[..], &[mask]].concat()).collect()
        };
        lists = lists.iter().flat_map(longer).collect();
    }
    lists
}

/// The ends of every range, with nothing random in the masks.
pub fn limits(checker: &mut Checker) -> Result<(), Finding> {
    for layer in at_limits() {
        plain(checker, &layer, 0..PLAIN_LISTS)?;
    }
    for layer in fixed_at_limits() {
        plain(checker, &layer, FIXED_LISTS)?;
    }
    Ok(())
}

/// The plain lists for each of the many layers with fixed lines: none set, and masks in turn.
const FIXED_LISTS: Range<usize> = 1..3;

/// Plain lists for a layer. A text that is refused gets those of four pieces.
fn plain(checker: &mut Checker, layer: &[u8], lists: Range<usize>) -> Result<(), Finding> {
    let (pieces, limit) = match reference::read(layer, Mutation::None) {
        Ok(layer) => (layer.pieces.len(), layer.settings.masks),
        Err(_) => (4, 2),
    };
    for masks in &plain_masks(pieces, limit)[lists] {
        let layer = layer.to_vec();
        checker.texts(Family::Limits, layer, masks.clone())?;
    }
    Ok(())
}

pub fn round(checker: &mut Checker, seed: u64, number: u64) -> Result<(), Finding> {
    let random = &mut Random::new(seed, number);
    for _ in 0..3 {
        lists(checker, random, 12, 5)?;
    }
    lists(checker, random, 60, 2)?;
    lists(checker, random, 512, 1)?;
    for _ in 0..4 {
        let layer = damaged(random);
        let masks = masks_for(random, &layer);
        checker.texts(Family::Damaged, layer, masks)?;
    }
    small_walk(checker, random)?;
    if number % 4 == 0 {
        large_walk(checker, random)?;
    }
    Ok(())
}

/// Several lists for one layer of up to `most` pieces.
fn lists(
    checker: &mut Checker,
    random: &mut Random,
    most: u64,
    times: usize,
) -> Result<(), Finding> {
    // Layers of the greatest size are common.
    let count = random.between(0, most + most / 4).min(most) as usize;
    let layer = tied_layer(random, count);
    for _ in 0..times {
        let (layer, masks) = (layer.text(), any_masks(random, &layer));
        checker.texts(Family::Lists, layer, masks)?;
    }
    Ok(())
}

fn masks_for(random: &mut Random, layer: &[u8]) -> Vec<u8> {
    match reference::read(layer, Mutation::None) {
        Ok(layer) => any_masks(random, &layer),
        Err(_) => stray_masks(random),
    }
}

/// One piece after the other.
fn small_walk(checker: &mut Checker, random: &mut Random) -> Result<(), Finding> {
    let count = random.between(1, 12) as usize;
    let layer = tied_layer(random, count);
    let order = any_order(random, layer.pieces.len());
    let stages: Vec<&[usize]> = order.chunks(1).collect();
    walk(checker, random, &layer, &stages)
}

/// Many pieces at once, then two that come one after the other, then the rest.
fn large_walk(checker: &mut Checker, random: &mut Random) -> Result<(), Finding> {
    let count = random.between(60, 512) as usize;
    let layer = tied_layer(random, count);
    let order = any_order(random, layer.pieces.len());
    let (many, rest) = order.split_at(random.index(order.len() + 1));
    let (one, rest) = rest.split_at(rest.len().min(1));
    let (other, rest) = rest.split_at(rest.len().min(1));
    walk(checker, random, &layer, &[many, one, other, rest])
}

fn any_order(random: &mut Random, pieces: usize) -> Vec<usize> {
    let mut order: Vec<usize> = (0..pieces).collect();
    random.shuffle(&mut order);
    order
}

/// A walk to the masks of a run, to others that keep ties, or to some that split a unit.
fn walk(
    checker: &mut Checker,
    random: &mut Random,
    layer: &Layer,
    stages: &[&[usize]],
) -> Result<(), Finding> {
    if random.once_in(2) {
        let layer = layer.with_budget(random.of_any_size(1_000));
        return checker.walk_to_run(&layer, stages);
    }
    let (units, limit) = (reference::units_of(layer), layer.settings.masks);
    let mut masks = keeping_ties(random, &units, limit);
    if random.once_in(4) {
        split_units(random, &units, limit, &mut masks);
    }
    checker.walk(layer, &masks, stages).map(drop)
}

#[cfg(test)]
mod tests {
    use super::*;

    #[test]
    fn the_knot_has_every_kind_of_edge() {
        let knot = knot();
        assert_eq!(reference::units_of(&knot), [0, 1, 0, 0, 4]);
        let counts = |masks: &[u64]| {
            let scored = reference::score(&knot, masks, Mutation::None);
            scored.map(|scored| (scored.score.conflicts, scored.score.stitches))
        };
        assert_eq!(counts(&[0, 0, 0, 0, 0]), Ok((4, 0)));
        assert_eq!(counts(&[0, 1, 0, 0, 1]), Ok((1, 2)));
    }

    #[test]
    fn every_list_is_there_once() {
        let mut lists = lists_of(3, &[0, 1, 2, 254, UNSET]);
        lists.sort();
        lists.dedup();
        assert_eq!(lists.len(), 5 * 5 * 5);
    }
}
