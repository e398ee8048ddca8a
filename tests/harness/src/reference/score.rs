//! The score of masks (RULES 3), and the least cost of a layer by trying everything.

use std::collections::BTreeSet;

use super::edges::Edges;
use super::masks::{is_set, judge_count, judge_masks, Judged};
use super::mutation::Mutation;
use super::ties::units;
use super::Refusal;
use crate::layer::{Layer, Piece};

#[derive(Clone, Copy, Debug, PartialEq, Eq)]
pub struct Score {
    pub conflicts: u64,
    pub stitches: u64,
    pub cost: u64,
}

impl Score {
    /// The lines that state it, as in a result text.
    pub fn text(&self) -> String {
        format!(
            "conflicts={}\nstitches={}\ncost={}\n",
            self.conflicts, self.stitches, self.cost
        )
    }
}

/// What is said of given masks.
#[derive(Clone, Copy, Debug, PartialEq, Eq)]
pub struct Scored {
    pub score: Score,
    /// How many unordered pairs of pieces were tested for an edge.
    pub tested: u64,
}

impl Scored {
    /// All that is printed of it.
    pub fn text(&self) -> String {
        format!("{}tested={}\n", self.score.text(), self.tested)
    }
}

/// The score of given masks of a valid layer, with questions 7, 8 and 12.
pub fn score(layer: &Layer, masks: &[u64], wrong: Mutation) -> Result<Scored, Refusal> {
    let mut masks = judge_count(masks, layer.pieces.len(), wrong)?;
    let mut tested = 0;
    let mut edges = Edges::tested(layer, wrong, |pair, is_edge| {
        tested += counted(pair, is_edge, &masks, wrong);
    });
    let units = units(layer.pieces.len(), &edges.ties, wrong);
    let judged = Judged {
        limit: layer.settings.masks,
        units: &units,
        ties: &edges.ties,
    };
    judge_masks(&masks, &judged, wrong)?;
    match wrong {
        Mutation::BrokenFixedRefused => judge_broken(&masks, &layer.pieces)?,
        Mutation::UnsetFromFixed => fill_fixed(&mut masks, &layer.pieces),
        Mutation::UnsetFromUnit => fill(&mut masks, &units),
        Mutation::DoubledEdgesOnce => {
            edges.conflicts = once(&edges.conflicts, &units);
            edges.stitches = once(&edges.stitches, &units);
        }
        _ => {}
    }
    let score = score_of_edges(&edges, &masks, layer.settings.weight, wrong);
    Ok(Scored { score, tested })
}

/// How often a test of a pair, the lower piece first, is counted: once, whatever is found and set.
fn counted((a, b): (usize, usize), is_edge: bool, masks: &[u64], wrong: Mutation) -> u64 {
    match wrong {
        Mutation::EdgesCounted => u64::from(is_edge),
        Mutation::UnsetNotCounted => u64::from(is_set(masks[a]) && is_set(masks[b])),
        Mutation::CountedFromBothEnds => 2,
        // Only the last pair begins with the last piece but one.
        Mutation::LastPairNotCounted => u64::from(a + 2 != masks.len()),
        _ => 1,
    }
}

/// A fault: set pieces must have their fixed masks.
fn judge_broken(masks: &[u64], pieces: &[Piece]) -> Result<(), Refusal> {
    let broken = |(&mask, piece): (&u64, &Piece)| is_set(mask) && breaks(piece, mask);
    match masks.iter().zip(pieces).position(broken) {
        Some(piece) => Err(Refusal::new(12, piece as u64)),
        None => Ok(()),
    }
}

/// Whether a piece is fixed to another mask.
fn breaks(piece: &Piece, mask: u64) -> bool {
    piece.fixed.map_or(false, |fixed| fixed != mask)
}

/// A fault: pieces that are not set have their fixed masks.
fn fill_fixed(masks: &mut [u64], pieces: &[Piece]) {
    for (mask, piece) in masks.iter_mut().zip(pieces) {
        if !is_set(*mask) {
            *mask = piece.fixed.unwrap_or(*mask);
        }
    }
}

/// A fault: pieces that are not set have the mask of another one of their unit.
fn fill(masks: &mut [u64], units: &[usize]) {
    let given = masks.to_vec();
    for (piece, mask) in masks.iter_mut().enumerate() {
        let of_unit = |&other: &usize| units[other] == units[piece] && is_set(given[other]);
        *mask = (0..given.len()).find(of_unit).map_or(*mask, |p| given[p]);
    }
}

/// A fault: of the edges between two units, only the first is kept.
fn once(edges: &[(usize, usize)], units: &[usize]) -> Vec<(usize, usize)> {
    let mut seen = BTreeSet::new();
    let first = |&&(a, b): &&(usize, usize)| {
        let (a, b) = (units[a], units[b]);
        seen.insert((a.min(b), a.max(b)))
    };
    edges.iter().filter(first).copied().collect()
}

/// The score of masks that keep ties, some of which may not be set.
pub fn score_of_edges(edges: &Edges, masks: &[u64], weight: u64, wrong: Mutation) -> Score {
    let count = |edges: &[(usize, usize)], counts: fn(u64, u64, Mutation) -> bool| {
        let counted = |&&(a, b): &&(usize, usize)| counts(masks[a], masks[b], wrong);
        edges.iter().filter(counted).count() as u64
    };
    let conflicts = count(&edges.conflicts, is_conflict);
    let stitches = count(&edges.stitches, is_stitch);
    let cost = match wrong {
        Mutation::WeightOnStitches => conflicts + weight * stitches,
        _ => weight * conflicts + stitches,
    };
    Score {
        conflicts,
        stitches,
        cost,
    }
}

/// Whether a conflict edge with these masks at its ends is counted.
fn is_conflict(a: u64, b: u64, wrong: Mutation) -> bool {
    let both_set = is_set(a) && is_set(b);
    match wrong {
        Mutation::UnsetConflict => a == b,
        Mutation::HalfSetConflict => both_set && a == b || is_set(a) != is_set(b),
        _ => both_set && a == b,
    }
}

/// Whether a stitch edge with these masks at its ends is counted.
fn is_stitch(a: u64, b: u64, wrong: Mutation) -> bool {
    let both_set = is_set(a) && is_set(b);
    match wrong {
        Mutation::HalfSetStitch => a != b,
        _ => both_set && a != b,
    }
}

/// The least cost over all assignments of a valid layer that break no tie and no fixed mask. Only for
/// layers of few pieces.
pub fn least_cost(layer: &Layer) -> u64 {
    let edges = Edges::of(layer, Mutation::None);
    let keeps_ties = |masks: &[u64]| edges.ties.iter().all(|&(a, b)| masks[a] == masks[b]);
    let keeps_fixed = |masks: &[u64]| {
        let mut both = masks.iter().zip(&layer.pieces);
        !both.any(|(&mask, piece)| breaks(piece, mask))
    };
    let weight = layer.settings.weight;
    let cost = |masks: &[u64]| score_of_edges(&edges, masks, weight, Mutation::None).cost;
    let mut masks = vec![0; layer.pieces.len()];
    let mut least = u64::MAX;
    loop {
        if keeps_ties(&masks) && keeps_fixed(&masks) {
            least = least.min(cost(&masks));
        }
        if !next_assignment(&mut masks, layer.settings.masks) {
            return least;
        }
    }
}

/// Counts up, the masks being digits; false after the last assignment.
pub fn next_assignment(masks: &mut [u64], base: u64) -> bool {
    for mask in masks {
        *mask += 1;
        if *mask < base {
            return true;
        }
        *mask = 0;
    }
    false
}
