//! Cells of an uneven grid, some of them empty, the others of few shapes. Neighbours of one shape
//! touch along a length near the margin, or mostly below it, which ties whole regions; others are as
//! near as an empty cell lets them be.

use super::{first_of, settings};
use crate::layer::{Layer, Piece, Settings};
use crate::random::Random;

/// A layer of at most `count` pieces.
pub fn tiles(random: &mut Random, count: usize) -> Layer {
    let mut settings = settings(random);
    settings.margin = match random.below(4) {
        0 => settings.spacing,
        _ => settings.margin.min(settings.spacing),
    };
    let columns = random.between(1, 2 + side(count));
    let rows = 1 + 5 * count as u64 / (4 * columns);
    let xs = lines(random, &settings, columns);
    let ys = lines(random, &settings, rows);
    let shapes = random.between(2, 2 + 2 * settings.masks);
    let mut pieces = Vec::new();
    for x in xs.windows(2) {
        for y in ys.windows(2) {
            if !random.once_in(4) {
                pieces.push(Piece {
                    shape: random.below(shapes),
                    x1: x[0],
                    y1: y[0],
                    x2: x[1],
                    y2: y[1],
                    fixed: None,
                });
            }
        }
    }
    random.shuffle(&mut pieces);
    first_of(count, settings, pieces)
}

/// The side of a square of about so many cells.
fn side(count: usize) -> u64 {
    (0..).find(|side| side * side >= count as u64).unwrap_or(0)
}

/// The lines of the grid along an axis.
fn lines(random: &mut Random, settings: &Settings, cells: u64) -> Vec<u64> {
    let mut lines = vec![0];
    let mut at = 0;
    for _ in 0..cells {
        at += width(random, settings);
        lines.push(at);
    }
    lines
}

/// Lengths that decide about an edge.
fn width(random: &mut Random, settings: &Settings) -> u64 {
    let (margin, spacing) = (settings.margin, settings.spacing);
    let width = match random.below(8) {
        0 => 1,
        1 | 2 => margin + random.below(3) - 1,
        3 => spacing + random.below(3) - 1,
        4 => 3 * spacing / 5,
        5 => 4 * spacing / 5 + random.below(2),
        _ => random.between(1, spacing),
    };
    width.max(1)
}
