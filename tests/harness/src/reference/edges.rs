//! Edges and ties between pieces (RULES 2).

use super::mutation::Mutation;
use crate::layer::{Layer, Piece};

/// Pairs of pieces, each once, with the lower piece first.
#[derive(Default)]
pub struct Edges {
    pub conflicts: Vec<(usize, usize)>,
    pub stitches: Vec<(usize, usize)>,
    pub ties: Vec<(usize, usize)>,
}

impl Edges {
    pub fn of(layer: &Layer, wrong: Mutation) -> Edges {
        Edges::tested(layer, wrong, |_, _| {})
    }

    /// The same. Each test of a pair for an edge is told, with whether there is one. A tie is none.
    pub fn tested(
        layer: &Layer,
        wrong: Mutation,
        mut tell: impl FnMut((usize, usize), bool),
    ) -> Edges {
        let (spacing, margin) = (layer.settings.spacing, layer.settings.margin);
        let mut edges = Edges::default();
        for (j, b) in layer.pieces.iter().enumerate() {
            for (i, a) in layer.pieces[..j].iter().enumerate() {
                let conflict = is_conflict(a, b, spacing, wrong);
                let stitch = is_stitch(a, b, margin, wrong);
                tell((i, j), conflict || stitch);
                if conflict {
                    edges.conflicts.push((i, j));
                }
                if stitch {
                    edges.stitches.push((i, j));
                }
                if is_tie(a, b, margin, wrong) {
                    edges.ties.push((i, j));
                }
            }
        }
        edges
    }
}

/// How far two pieces overlap in X; a negative number is a gap.
fn overlap_x(a: &Piece, b: &Piece) -> i64 {
    a.x2.min(b.x2) as i64 - a.x1.max(b.x1) as i64
}

fn overlap_y(a: &Piece, b: &Piece) -> i64 {
    a.y2.min(b.y2) as i64 - a.y1.max(b.y1) as i64
}

/// Whether two pieces of one shape overlap, which a layer must not have.
pub fn is_overlap(a: &Piece, b: &Piece) -> bool {
    a.shape == b.shape && overlap_x(a, b) > 0 && overlap_y(a, b) > 0
}

fn gap(overlap: i64) -> i64 {
    if overlap < 0 {
        -overlap
    } else {
        0
    }
}

pub fn is_conflict(a: &Piece, b: &Piece, spacing: u64, wrong: Mutation) -> bool {
    let square = |length: i64| match wrong {
        Mutation::SquaresIn32Bits => i64::from((length as u32).wrapping_mul(length as u32)),
        _ => length * length,
    };
    let distance = square(gap(overlap_x(a, b))) + square(gap(overlap_y(a, b)));
    let limit = square(spacing as i64);
    let close = match wrong {
        Mutation::ConflictAtSpacing => distance <= limit,
        _ => distance < limit,
    };
    a.shape != b.shape && close
}

/// The length along which two pieces of one shape touch.
fn contact(a: &Piece, b: &Piece) -> i64 {
    let (ox, oy) = (overlap_x(a, b), overlap_y(a, b));
    if ox == 0 && oy > 0 {
        oy
    } else if oy == 0 && ox > 0 {
        ox
    } else {
        0
    }
}

/// Whether two pieces of one shape touch in a corner and nowhere else.
pub fn is_point(a: &Piece, b: &Piece) -> bool {
    a.shape == b.shape && overlap_x(a, b) == 0 && overlap_y(a, b) == 0
}

pub fn is_stitch(a: &Piece, b: &Piece, margin: u64, wrong: Mutation) -> bool {
    let enough = match wrong {
        Mutation::StitchAboveMargin => contact(a, b) > margin as i64,
        _ => contact(a, b) >= margin as i64,
    };
    a.shape == b.shape && enough
}

/// Whether two pieces of one shape touch along too little for a stitch.
pub fn is_tie(a: &Piece, b: &Piece, margin: u64, wrong: Mutation) -> bool {
    let (contact, margin) = (contact(a, b), margin as i64);
    let too_little = match wrong {
        Mutation::TieAtMargin => contact <= margin,
        _ => contact < margin,
    };
    let of_one_shape = a.shape == b.shape || wrong == Mutation::TieAcrossShapes;
    let by_a_point = wrong == Mutation::PointContactTies && is_point(a, b);
    of_one_shape && contact > 0 && too_little || by_a_point
}
