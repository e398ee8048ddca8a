//! Layers of equal squares on a grid, from a generator that anybody can repeat.

use super::settings;
use crate::layer::{Layer, Piece};
use crate::random::Random;

pub fn made(random: &mut Random, count: usize) -> Layer {
    let mut settings = settings(random);
    settings.spacing = random.pick(&[80, 80, 80, 60, 57, 61, 20, 21, 100, 120]);
    let pieces = squares(random.next() as u32, count);
    Layer { settings, pieces }
}

/// A square of 20 nm for each shape, at a corner that two draws choose.
fn squares(seed: u32, count: usize) -> Vec<Piece> {
    let mut state = seed;
    let mut corner = || {
        state = state.wrapping_mul(1_664_525).wrapping_add(1_013_904_223);
        40 * (u64::from(state / 65_536) % 32)
    };
    let square = |shape| {
        let (x1, y1) = (corner(), corner());
        Piece {
            shape,
            x1,
            y1,
            x2: x1 + 20,
            y2: y1 + 20,
            fixed: None,
        }
    };
    (0..count as u64).map(square).collect()
}

#[cfg(test)]
mod tests {
    #[test]
    fn the_first_corner_of_seed_0() {
        assert_eq!(super::squares(0, 1)[0].x1, 560);
    }
}
