//! Layers whose search repeats itself. Few random layers have such a search, above all on many masks, so the
//! best of several is taken.

use super::rings::with_ring;
use super::{fix, free_layer, made, small_components, LAST};
use crate::layer::{Layer, Piece};
use crate::random::Random;
use crate::reference::{self, Mutation, Repeats, REPEAT_KINDS};

/// A layer, and the repeated subtrees of its search, if there are any.
pub type Repeating = (Layer, Repeats);

/// The one of some small layers on so many masks whose repeated subtrees lie in the most different ways. They
/// are looked for in so many steps. Half of the layers then have one component more, whose search ends with a
/// repeated subtree: a step too many or too few before it shows there.
pub fn repeating(random: &mut Random, masks: u64, steps: u64) -> Repeating {
    let mut best = with_repeats(small(random, masks), steps);
    for _ in 0..8 {
        let other = with_repeats(small(random, masks), steps);
        if ways(&other.1) > ways(&best.1) {
            best = other;
        }
    }
    if random.once_in(2) {
        let (mut layer, _) = best;
        let ring = with_ring(&layer.settings);
        put_beside(&mut layer, ring);
        best = with_repeats(layer, steps);
    }
    best
}

/// A layer of at most so many pieces. Many of these have repeated subtrees of more steps.
pub fn larger_repeating(random: &mut Random, masks: u64, most: u64, steps: u64) -> Repeating {
    let count = random.between(31, most) as usize;
    let mut layer = match random.below(4) {
        0 => made(random, count),
        _ => free_layer(random, count),
    };
    layer.settings.masks = masks;
    if random.once_in(2) {
        fix(random, &mut layer);
    }
    with_repeats(layer, steps)
}

fn with_repeats(layer: Layer, steps: u64) -> Repeating {
    let repeats = match reference::read(&layer.text(), Mutation::None) {
        Ok(layer) => reference::repeats(&layer, steps),
        Err(_) => Repeats::default(),
    };
    (layer, repeats)
}

/// In how many ways repeated subtrees lie. If there are any, what lacks one thing only counts too.
fn ways(repeats: &Repeats) -> usize {
    let subtrees = &repeats.subtrees;
    let there = |kind: &usize| subtrees.iter().any(|repeat| repeat.kinds[*kind]);
    let kinds = (0..REPEAT_KINDS.len()).filter(there).count();
    let nearly = repeats.nearly.iter().filter(|&&there| there).count();
    match subtrees[..] {
        [] => 0,
        _ => 1 + kinds + nearly,
    }
}

/// A layer of at most 30 pieces, or such a one twice.
fn small(random: &mut Random, masks: u64) -> Layer {
    let count = random.between(6, 30) as usize;
    let mut layer = match random.below(8) {
        0 => small_components(random),
        _ => free_layer(random, count),
    };
    layer.settings.masks = masks;
    if random.once_in(2) {
        fix(random, &mut layer);
    }
    if random.once_in(2) {
        double(random, &mut layer);
    }
    layer
}

/// Puts all pieces a second time beside themselves, in another order, so that one search comes after another.
fn double(random: &mut Random, layer: &mut Layer) {
    let mut more = layer.pieces.clone();
    if random.once_in(2) {
        more.iter_mut().for_each(|piece| piece.fixed = None);
    }
    random.shuffle(&mut more);
    put_beside(layer, more);
    if random.once_in(4) {
        random.shuffle(&mut layer.pieces);
    }
}

/// Adds pieces, moved so far that nothing is between them and those that are there, with other shapes. Where
/// the coordinates do not reach so far, nothing is added.
fn put_beside(layer: &mut Layer, mut more: Vec<Piece>) {
    let ends = layer.pieces.iter().map(|piece| piece.x2);
    let away = ends.max().unwrap_or(0) + layer.settings.spacing;
    let taken: Vec<u64> = layer.pieces.iter().map(|piece| piece.shape).collect();
    let mut shapes: Vec<u64> = more.iter().map(|piece| piece.shape).collect();
    shapes.sort();
    shapes.dedup();
    let others: Vec<u64> = (0..512).filter(|shape| !taken.contains(shape)).collect();
    for piece in &mut more {
        let shape = shapes.binary_search(&piece.shape);
        piece.shape = others[shape.expect("the list has all shapes")];
        (piece.x1, piece.x2) = (piece.x1 + away, piece.x2 + away);
    }
    if more.iter().all(|piece| piece.x2.max(piece.y2) <= LAST) {
        layer.pieces.extend(more);
    }
}
