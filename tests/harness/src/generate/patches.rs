//! Patches of one shape, each a small grid of cells with narrow rows, narrow columns or both. Cells of a
//! narrow row are tied, and a wide column has stitch edges between two such rows: so two units have
//! several edges between them, and a narrow column elsewhere leaves these edges inside one unit.

use super::{first_of, settings, shuffled_or_not};
use crate::layer::{Layer, Piece};
use crate::random::Random;

/// How a whole layer is laid out.
struct Style {
    margin: u64,
    /// How much a wide row or column may be wider than the margin.
    spare: u64,
    /// The gap between two patches.
    gap: u64,
    /// How many of eight rows, and of eight columns, are narrower than the margin.
    narrow: (u64, u64),
}

/// The most rows or columns of a patch.
const MOST: u64 = 3;

/// A layer of at most `count` pieces, as far as the coordinates reach.
pub fn patches(random: &mut Random, count: usize) -> Layer {
    let mut settings = settings(random);
    settings.spacing = settings.spacing.min(1_000);
    settings.margin = settings.margin.clamp(2, 1_000);
    // Several stitches can be the lesser cost only where a conflict is cheap.
    if random.once_in(2) {
        settings.weight = random.between(1, 4);
    }
    let style = Style {
        margin: settings.margin,
        spare: random.pick(&[1, 3, settings.spacing]),
        gap: random.between(1, settings.spacing + 1),
        narrow: random.pick(&[(8, 1), (6, 2), (4, 4), (1, 1)]),
    };
    let mut ends = vec![0; random.between(1, 2 + count as u64 / 20) as usize];
    let mut pieces = Vec::new();
    let mut shape = 0;
    while pieces.len() < count {
        let track = random.index(ends.len());
        let patch = patch(random, &style, shape % 512, (ends[track], track as u64));
        ends[track] = patch.iter().map(|p| p.x2).max().unwrap_or(ends[track]);
        pieces.extend(patch);
        shape += 1;
    }
    if random.once_in(2) {
        pieces.iter_mut().for_each(turn);
    }
    shuffled_or_not(random, first_of(count, settings, pieces))
}

/// A patch after the end of a track. Two tracks at a time stand with the gap between them, so that their
/// patches face each other, however high they are.
fn patch(random: &mut Random, style: &Style, shape: u64, at: (u64, u64)) -> Vec<Piece> {
    let (x, track) = (at.0 + style.gap + random.below(3), at.1);
    let highest = MOST * (style.margin + style.spare);
    let middle = highest + track / 2 * (2 * highest + 2 * style.gap);
    let xs = lines(random, style, style.narrow.1);
    let ys = lines(random, style, style.narrow.0);
    let height = ys[ys.len() - 1];
    let y = match track % 2 {
        0 => middle + style.gap,
        _ => middle - height,
    };
    let mut pieces = Vec::new();
    for column in xs.windows(2) {
        for row in ys.windows(2) {
            if !random.once_in(6) {
                pieces.push(Piece {
                    shape,
                    x1: x + column[0],
                    y1: y + row[0],
                    x2: x + column[1],
                    y2: y + row[1],
                    fixed: None,
                });
            }
        }
    }
    pieces
}

/// The lines of a patch along an axis, from 0 on; of eight cells, so many are narrow.
fn lines(random: &mut Random, style: &Style, narrow: u64) -> Vec<u64> {
    let mut lines = vec![0];
    let mut at = 0;
    for _ in 0..random.between(1, MOST) {
        at += if random.below(8) < narrow {
            random.between(1, style.margin - 1)
        } else {
            style.margin + random.below(style.spare)
        };
        lines.push(at);
    }
    lines
}

/// The two axes change places.
fn turn(piece: &mut Piece) {
    (piece.x1, piece.y1) = (piece.y1, piece.x1);
    (piece.x2, piece.y2) = (piece.y2, piece.x2);
}
