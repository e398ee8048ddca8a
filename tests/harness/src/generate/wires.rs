//! Rows of wires, each cut into pieces that touch along a length near the margin, or tied into chains.

use super::{first_of, settings, shuffled_or_not};
use crate::layer::{Layer, Piece};
use crate::random::Random;

/// How a whole layer of rows is laid out.
struct Style {
    margin: u64,
    /// The height of a wire.
    height: u64,
    /// The gap between two rows.
    row_gap: u64,
    /// The gap between two wires of a row.
    end_gap: u64,
    /// The greatest length of a piece.
    length: u64,
    /// The greatest number of pieces of a wire.
    cuts: u64,
    /// How many of twelve contacts are too short for a stitch.
    ties: u64,
}

/// A layer of at most `count` pieces, as far as the coordinates reach.
pub fn wires(random: &mut Random, count: usize) -> Layer {
    let mut settings = settings(random);
    settings.spacing = settings.spacing.min(200);
    settings.margin = settings.margin.min(200);
    let style = Style {
        margin: settings.margin,
        height: settings.margin + random.between(1, 20),
        row_gap: gap(random, settings.spacing),
        end_gap: gap(random, settings.spacing),
        length: random.between(1, 4 * settings.spacing),
        cuts: cuts(random, count),
        ties: random.pick(&[0, 0, 0, 2, 6, 11, 12]),
    };
    let mut ends = vec![0; random.between(1, 2 + count as u64 / 8) as usize];
    let mut pieces = Vec::new();
    let mut shape = 0;
    while pieces.len() < count {
        let row = random.index(ends.len());
        let y = row as u64 * (style.height + style.row_gap);
        let wire = wire(random, &style, shape, (ends[row], y));
        ends[row] = wire.last().map_or(0, |piece| piece.x2);
        pieces.extend(wire);
        shape += 1;
    }
    shuffled_or_not(random, first_of(count, settings, pieces))
}

/// Mostly few, now and then up to all that the layer has.
fn cuts(random: &mut Random, count: usize) -> u64 {
    if random.once_in(6) {
        random.between(1, count as u64 + 1)
    } else {
        random.between(1, 6)
    }
}

/// Dense, just below the spacing, at it, or sparse. Rows just below the spacing make neighbours of
/// the pieces that face each other and of few others; there a stitch can pay.
fn gap(random: &mut Random, spacing: u64) -> u64 {
    match random.below(8) {
        0 | 1 => random.between(1, spacing),
        2 => spacing / 2,
        3 | 4 => spacing - spacing / 8,
        5 | 6 => spacing + random.below(3) - 1,
        _ => 2 * spacing,
    }
}

/// The pieces of a wire that starts right of `at`. They climb and fall in turn, so that two
/// neighbours share the chosen length of a side.
fn wire(random: &mut Random, style: &Style, shape: u64, at: (u64, u64)) -> Vec<Piece> {
    let mut x = at.0 + style.end_gap + random.below(3);
    let mut raised = 0;
    let mut pieces = Vec::new();
    for _ in 0..random.between(1, style.cuts) {
        let length = random.between(1, style.length);
        let y = at.1 + raised;
        pieces.push(Piece {
            shape,
            x1: x,
            y1: y,
            x2: x + length,
            y2: y + style.height,
            fixed: None,
        });
        x += length;
        raised = match raised {
            0 => style.height - contact(random, style),
            _ => 0,
        };
    }
    pieces
}

/// Below the margin, around it, the whole height, or a corner only.
fn contact(random: &mut Random, style: &Style) -> u64 {
    if style.margin > 1 && random.below(12) < style.ties {
        return random.between(1, style.margin - 1);
    }
    match random.below(12) {
        0 => 0,
        1 => style.margin - 1,
        2 | 3 => style.margin,
        4 => style.margin + 1,
        _ => style.height,
    }
}
