//! Masks that a designer could have set.

use super::masks::{keeping_ties, leave_unset, split_units};
use crate::layer::Layer;
use crate::random::Random;
use crate::reference::{self, is_set, UNSET};

/// Fixes a few pieces of a layer, many, all or none. Fixed pieces of a unit have one mask, but for one layer
/// in ten.
pub fn fix(random: &mut Random, layer: &mut Layer) {
    let units = reference::units_of(layer);
    let limit = layer.settings.masks;
    let mut masks = keeping_ties(random, &units, limit);
    if random.once_in(3) {
        leave_few(random, &mut masks);
    } else {
        leave_unset(random, &units, &mut masks);
    }
    if random.once_in(10) {
        split_units(random, &units, limit, &mut masks);
    }
    for (piece, mask) in layer.pieces.iter_mut().zip(masks) {
        piece.fixed = is_set(mask).then_some(mask);
    }
}

/// Takes back all masks but one to four.
fn leave_few(random: &mut Random, masks: &mut [u64]) {
    let few = random.between(1, 4).min(masks.len() as u64);
    let kept: Vec<usize> = (0..few).map(|_| random.index(masks.len())).collect();
    let others = masks.iter_mut().enumerate();
    let others = others.filter(|(piece, _)| !kept.contains(piece));
    others.for_each(|(_, mask)| *mask = UNSET);
}
