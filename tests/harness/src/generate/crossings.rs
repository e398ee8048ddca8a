//! Bent wires that lie across each other, cut into pieces. A piece meets only the wires that cross
//! it or come near it, so that changing masks between two pieces of a wire can pay.

use super::{first_of, settings, shuffled_or_not};
use crate::layer::{Layer, Piece};
use crate::random::Random;

/// What the wires of a layer have in common.
struct Style {
    /// How thick they are, and so how long the contact of two pieces is.
    width: u64,
    /// The greatest length of a piece.
    length: u64,
    /// They start in a square of this side.
    square: u64,
}

/// A layer of at most `count` pieces.
pub fn crossings(random: &mut Random, count: usize) -> Layer {
    let mut settings = settings(random);
    settings.spacing = settings.spacing.min(1_000);
    settings.margin = settings.margin.min(1_000);
    let width = settings.margin + random.pick(&[0, 0, 0, 1, settings.margin]);
    let length = width + random.between(1, 8 * settings.spacing);
    let style = Style {
        width: width - u64::from(width > 1 && random.once_in(4)),
        length,
        square: length * random.pick(&[1, 2, 1 + count as u64 / 20]),
    };
    let mut pieces = Vec::new();
    let mut shape = 0;
    while pieces.len() < count {
        pieces.extend(wire(random, shape, &style));
        shape += 1;
    }
    shuffled_or_not(random, first_of(count, settings, pieces))
}

/// A wire of one to four pieces that goes right and up, or right and down. It never turns back, so
/// its pieces do not overlap.
fn wire(random: &mut Random, shape: u64, style: &Style) -> Vec<Piece> {
    let start = 5 * style.length + random.below(style.square);
    let (mut x, mut y) = (random.below(style.square), start);
    let mut pieces = Vec::new();
    for _ in 0..random.between(1, 4) {
        let length = random.between(1, style.length);
        let (x1, y1) = (x, y);
        let (x2, y2) = if random.once_in(2) {
            x += length;
            (x, y + style.width)
        } else {
            y += length;
            (x + style.width, y)
        };
        pieces.push(Piece {
            shape,
            x1,
            y1,
            x2,
            y2,
            fixed: None,
        });
    }
    if random.once_in(2) {
        for piece in &mut pieces {
            (piece.y1, piece.y2) = (2 * start - piece.y2, 2 * start - piece.y1);
        }
    }
    pieces
}
