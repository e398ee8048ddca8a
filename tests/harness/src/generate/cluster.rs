//! Pieces that grow out of each other: each new one touches an earlier piece along a length near
//! the margin, or lies at a distance near the spacing from it.

use super::settings;
use crate::layer::{Layer, Piece, Settings};
use crate::random::Random;

const LAST: i64 = 1_000_000;

/// A stretch along one axis, `from` below `to`.
#[derive(Clone, Copy)]
struct Span {
    from: i64,
    to: i64,
}

#[derive(Clone, Copy)]
struct Rect {
    shape: u64,
    x: Span,
    y: Span,
}

/// How a whole layer is grown.
struct Style {
    settings: Settings,
    /// The usual length of a side; short sides crowd the pieces.
    side: u64,
    /// How many of ten new pieces belong to the shape of the piece that they grow out of.
    touching: u64,
    /// How many of eight of these touch along too little for a stitch.
    ties: u64,
    /// After so many pieces a new island is begun, so that there are several components.
    island: usize,
}

/// A layer of about `count` pieces; a crowded corner can end it early.
pub fn cluster(random: &mut Random, count: usize) -> Layer {
    let style = style(random, count);
    let mut rects = Vec::new();
    for _ in 0..20 * count {
        if rects.len() == count {
            break;
        }
        let next = match rects.len() % style.island {
            0 => first(random, &style, &rects),
            grown => next_to(random, &style, &rects, grown),
        };
        if fits(random, &rects, &next) {
            rects.push(next);
        }
    }
    random.shuffle(&mut rects);
    let pieces = numbered(random, rects);
    let settings = style.settings;
    Layer { settings, pieces }
}

fn style(random: &mut Random, count: usize) -> Style {
    let mut settings = settings(random);
    let side = random.pick(&[8, 4, 2, 1]);
    let side = (2 * settings.spacing / side).max(1);
    settings.margin = settings.margin.min(side);
    let islands = [4, 6, 8, 12, 20, count.max(1)];
    Style {
        settings,
        side,
        touching: random.below(8),
        ties: random.pick(&[0, 0, 2, 5]),
        island: random.pick(&islands),
    }
}

/// The first piece of an island, right of all others.
fn first(random: &mut Random, style: &Style, rects: &[Rect]) -> Rect {
    let middle = random.pick(&[0, LAST / 2]);
    let away = random.between(1, 3 * style.settings.spacing) as i64;
    let last = rects.iter().map(|r| r.x.to).max();
    let mut span = |from: i64| Span {
        from,
        to: from + length(random, style),
    };
    Rect {
        shape: rects.len() as u64,
        x: span(last.map_or(middle, |last| last + away)),
        y: span(rects.first().map_or(middle, |first| first.y.from)),
    }
}

/// Sides around the margin and the spacing; some are a nanometre.
fn length(random: &mut Random, style: &Style) -> i64 {
    let length = match random.below(6) {
        0 => style.settings.margin + random.below(3) - 1,
        1 => style.side + random.below(3) - 1,
        2 => 1,
        3 => style.settings.margin + random.below(style.side),
        _ => random.between(1, style.side),
    };
    length.max(1) as i64
}

/// A piece that grows out of one of the island's, which are the last `grown`.
fn next_to(random: &mut Random, style: &Style, rects: &[Rect], grown: usize) -> Rect {
    let near = random.pick(&rects[rects.len() - grown..]);
    if random.below(10) < style.touching {
        touching(random, style, near)
    } else {
        beside(random, style, rects, near)
    }
}

/// A piece of the same shape that shares a stretch of one side, or only a corner.
fn touching(random: &mut Random, style: &Style, near: Rect) -> Rect {
    let contact = contact(random, style);
    let side = |random: &mut Random| length(random, style);
    let across = beyond(random, near.x, 0, side);
    let along = beyond(random, near.y, -contact, |r| contact.max(1) + side(r) - 1);
    let piece = Rect {
        shape: near.shape,
        x: across,
        y: along,
    };
    turned(random, near, piece)
}

/// Below the margin, around it, above it, or a corner only.
fn contact(random: &mut Random, style: &Style) -> i64 {
    let margin = style.settings.margin as i64;
    if margin > 1 && random.below(8) < style.ties {
        return random.between(1, style.settings.margin - 1) as i64;
    }
    match random.below(8) {
        0 => 0,
        1 => margin - 1,
        2 | 3 => margin,
        4 => margin + 1,
        _ => margin + random.below(style.side) as i64,
    }
}

/// A piece of another shape at a chosen gap.
fn beside(random: &mut Random, style: &Style, rects: &[Rect], near: Rect) -> Rect {
    let (gap_x, gap_y) = gaps(random, style.settings.spacing as i64);
    let side = |random: &mut Random| length(random, style);
    let piece = Rect {
        shape: other_shape(random, rects, near.shape),
        x: beyond(random, near.x, gap_x, side),
        y: beyond(random, near.y, gap_y, side),
    };
    turned(random, near, piece)
}

/// Gaps at and around the spacing, straight and slanted. A negative gap is an overlap.
fn gaps(random: &mut Random, spacing: i64) -> (i64, i64) {
    let nudge = random.below(3) as i64 - 1;
    let inside = -(random.below(spacing as u64) as i64) - 1;
    match random.below(6) {
        0 => (spacing + nudge, inside),
        1 => (spacing + nudge, random.below(2) as i64),
        2 => (3 * spacing / 5, 4 * spacing / 5 + nudge),
        3 => (inside, inside),
        _ => (
            random.below(spacing as u64) as i64,
            random.below(spacing as u64) as i64,
        ),
    }
}

/// A stretch after or before another one, `gap` away.
fn beyond(
    random: &mut Random,
    near: Span,
    gap: i64,
    mut length: impl FnMut(&mut Random) -> i64,
) -> Span {
    let length = length(random);
    if random.once_in(2) {
        let from = near.to + gap;
        Span {
            from,
            to: from + length,
        }
    } else {
        let to = near.from - gap;
        Span {
            from: to - length,
            to,
        }
    }
}

/// Half of the time the two axes change places around the earlier piece.
fn turned(random: &mut Random, near: Rect, piece: Rect) -> Rect {
    if random.once_in(2) {
        return piece;
    }
    let (dx, dy) = (near.x.from - near.y.from, near.y.from - near.x.from);
    let moved = |span: Span, by: i64| Span {
        from: span.from + by,
        to: span.to + by,
    };
    Rect {
        shape: piece.shape,
        x: moved(piece.y, dx),
        y: moved(piece.x, dy),
    }
}

fn other_shape(random: &mut Random, rects: &[Rect], not: u64) -> u64 {
    let shape = random.pick(rects).shape;
    if shape != not && random.once_in(3) {
        shape
    } else {
        rects.len() as u64
    }
}

/// Pieces stay in the coordinates' range. Pieces of one shape overlap only now and then.
fn fits(random: &mut Random, rects: &[Rect], next: &Rect) -> bool {
    let within = |span: Span| 0 <= span.from && span.from < span.to && span.to <= LAST;
    let meet = |a: Span, b: Span| a.from < b.to && b.from < a.to;
    let overlaps = |r: &Rect| r.shape == next.shape && meet(r.x, next.x) && meet(r.y, next.y);
    let allowed = !rects.iter().any(overlaps) || random.once_in(200);
    within(next.x) && within(next.y) && allowed
}

/// The pieces with other shape numbers, and sometimes moved to a border of the range.
fn numbered(random: &mut Random, rects: Vec<Rect>) -> Vec<Piece> {
    let mut numbers: Vec<u64> = (0..512).collect();
    if random.once_in(2) {
        random.shuffle(&mut numbers);
    }
    let (dx, dy) = (
        shift(random, &rects, |r| r.x),
        shift(random, &rects, |r| r.y),
    );
    let piece = |r: Rect| Piece {
        shape: numbers[r.shape as usize],
        x1: (r.x.from + dx) as u64,
        y1: (r.y.from + dy) as u64,
        x2: (r.x.to + dx) as u64,
        y2: (r.y.to + dy) as u64,
        fixed: None,
    };
    rects.into_iter().map(piece).collect()
}

/// How far to move along an axis: to the lowest coordinate, to the highest, or not at all.
fn shift(random: &mut Random, rects: &[Rect], axis: impl Fn(&Rect) -> Span) -> i64 {
    let low = rects.iter().map(|r| axis(r).from).min().unwrap_or(0);
    let high = rects.iter().map(|r| axis(r).to).max().unwrap_or(LAST);
    match random.below(8) {
        0 => LAST - high,
        1 => 0,
        _ => -low,
    }
}
