//! Layers, texts and streams to compare on. Everything comes from the random numbers that are handed in.

mod cluster;
mod crossings;
mod damage;
mod fixed;
mod fixed_limits;
mod fixed_lines;
mod limits;
mod lively;
mod made;
mod masks;
mod patches;
mod repeating;
mod rings;
mod small_component_limits;
mod small_components;
mod streams;
mod tiles;
mod wires;

use crate::layer::{Layer, Piece, Settings};
use crate::random::Random;
use crate::reference;
pub use damage::damaged;
pub use fixed::fix;
pub use fixed_limits::{fixed_at_limits, fixed_runs};
pub use limits::{at_limits, knot};
pub use lively::lively;
pub use made::made;
pub use masks::{any_masks, keeping_ties, plain_masks, split_units, stray_masks, PLAIN_LISTS};
pub use repeating::{larger_repeating, repeating};
pub use rings::{many_rings, rings};
pub use small_component_limits::small_components_at_limits;
pub use small_components::small_components;
pub use streams::{damaged_stream, streams_at_limits, whole_stream};

/// A layer of at most `count` pieces with a budget of 0. Half of them may have fixed masks.
pub fn any_layer(random: &mut Random, count: usize) -> Layer {
    let mut layer = free_layer(random, count);
    if random.once_in(2) {
        fix(random, &mut layer);
    }
    layer
}

/// A layer without fixed masks, of one of five kinds.
pub fn free_layer(random: &mut Random, count: usize) -> Layer {
    match random.below(5) {
        0 => wires::wires(random, count),
        1 => cluster::cluster(random, count),
        2 => tiles::tiles(random, count),
        3 => patches::patches(random, count),
        _ => crossings::crossings(random, count),
    }
}

/// A layer of at most `count` pieces, with ties if one of a few has them.
pub fn tied_layer(random: &mut Random, count: usize) -> Layer {
    let is_tied = |layer: &Layer| {
        let units = reference::units_of(layer);
        (0..units.len()).any(|piece| units[piece] != piece)
    };
    let mut layer = any_layer(random, count);
    for _ in 0..3 {
        if is_tied(&layer) {
            break;
        }
        layer = any_layer(random, count);
    }
    layer
}

/// The greatest coordinate.
const LAST: u64 = 1_000_000;

/// The layer of the first pieces, at most `count`, as far as the coordinates reach.
fn first_of(count: usize, settings: Settings, mut pieces: Vec<Piece>) -> Layer {
    pieces.truncate(count);
    pieces.retain(|piece| piece.x2 <= LAST && piece.y2 <= LAST);
    Layer { settings, pieces }
}

/// The layer with its pieces in their order, or in any other.
fn shuffled_or_not(random: &mut Random, mut layer: Layer) -> Layer {
    if random.once_in(2) {
        random.shuffle(&mut layer.pieces);
    }
    layer
}

/// Sizes of result buffers: too small ones, the least that is allowed, and larger ones.
const RESULT_SIZES: [usize; 8] = [0, 1, 4095, 4096, 4097, 5000, 8192, 65_536];

/// The least buffer that is allowed, now and then a larger one.
pub fn large_enough(random: &mut Random) -> usize {
    if random.once_in(8) {
        random.pick(&RESULT_SIZES[3..])
    } else {
        4096
    }
}

/// Mostly a buffer that is large enough, now and then one that is not.
pub fn any_size(random: &mut Random) -> usize {
    if random.once_in(8) {
        random.pick(&RESULT_SIZES)
    } else {
        large_enough(random)
    }
}

/// Settings in their ranges, with a budget of 0. Few masks are common, since they leave a core.
fn settings(random: &mut Random) -> Settings {
    let spacing = spacing(random);
    let margin = match random.below(3) {
        0 => 10,
        1 => random.between(1, 3),
        _ => random.between(1, spacing),
    };
    Settings {
        masks: random.pick(&[2, 2, 2, 3, 3, 3, 4, 4, 5, 6, 7, 8]),
        spacing,
        margin,
        weight: weight(random),
        budget: 0,
    }
}

/// Often divisible by 5, so that a distance of exactly the spacing can be slanted (3, 4, 5).
fn spacing(random: &mut Random) -> u64 {
    match random.below(6) {
        0 => random.between(1, 20),
        1 => random.between(1, 200),
        2 => 5 * random.between(1, 40),
        3 => 5 * random.between(1, 20_000),
        _ => 80,
    }
}

fn weight(random: &mut Random) -> u64 {
    match random.below(4) {
        0 => random.pick(&[1, 2, 3]),
        1 => random.between(1, 1000),
        2 => 1000,
        _ => 10,
    }
}
