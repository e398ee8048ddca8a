//! Small layers whose search has something to do. Most random layers of few pieces are peeled
//! whole, so the best of several is taken.

use super::{fix, free_layer};
use crate::layer::Layer;
use crate::random::Random;
use crate::reference::{self, Mutation};

/// A search that needs more steps than this counts as too long.
const SHORT: u64 = 250;

/// The liveliest of some layers of at most twelve pieces. Whether they may have fixed masks is chosen for all
/// of them, since those that have win most often.
pub fn lively(random: &mut Random) -> Layer {
    let fixed = random.once_in(2);
    let mut liveliest = some_layer(random, 12, fixed);
    for _ in 0..12 {
        let count = random.between(4, 12) as usize;
        let layer = some_layer(random, count, fixed);
        if liveliness(&layer) > liveliness(&liveliest) {
            liveliest = layer;
        }
    }
    liveliest
}

fn some_layer(random: &mut Random, count: usize, fixed: bool) -> Layer {
    let mut layer = free_layer(random, count);
    if fixed {
        fix(random, &mut layer);
    }
    layer
}

/// Stitches in the best result count most, then a search that improves on the first assignment,
/// then steps.
fn liveliness(layer: &Layer) -> u64 {
    if reference::read(&layer.text(), Mutation::None).is_err() {
        return 0;
    }
    let first = reference::run(&layer.with_budget(0), Mutation::None);
    let last = reference::run(&layer.with_budget(SHORT), Mutation::None);
    if !last.best {
        return 0;
    }
    let stitched = u64::from(last.score.stitches > 0);
    let improved = u64::from(last.score.cost < first.score.cost);
    1000 * stitched + 500 * improved + last.steps
}
