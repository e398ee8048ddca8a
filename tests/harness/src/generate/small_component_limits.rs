//! Every graph of at most five units that leaves something to be searched on three masks, by itself, and
//! rows of such components and others, at every budget. There is nothing random in them.

use super::small_components::{in_a_row, piece, Ends, Scale, ARMS};
use crate::layer::{Layer, Piece};
use crate::reference::{self, Mutation};

const SCALE: Scale = Scale { side: 20 };

/// Each at every budget up to one more than its search needs.
pub fn small_components_at_limits() -> Vec<Vec<u8>> {
    let single = every_cross().map(|cross| vec![cross]);
    let on = |masks: u64, row: &[Vec<Piece>]| in_a_row(SCALE, SCALE.settings(masks, 10), row);
    let layers = single.chain(rows()).map(|row| on(3, &row));
    let others = [2, 4].map(|masks| on(masks, &[numbered(&[]), ring()]));
    layers.chain(others).flat_map(at_every_budget).collect()
}

fn at_every_budget(layer: Layer) -> impl Iterator<Item = Vec<u8>> {
    let end = reference::run(&layer.with_budget(1_000), Mutation::None).steps;
    (0..=end + 1).map(move |budget| layer.with_budget(budget).text())
}

/// Five pieces that are all in conflict, but for no pair, one, or two; and four.
fn every_cross() -> impl Iterator<Item = Vec<Piece>> {
    let pairs = || (0..5).flat_map(|b| (0..b).map(move |a| (a, b)));
    let apart = |(a, b): (usize, usize), (c, d): (usize, usize)| a < c && b != c && b != d;
    let one = pairs().map(|far| numbered(&[far]));
    let two = pairs().flat_map(move |far| {
        let others = pairs().filter(move |&other| apart(far, other));
        others.map(move |other| numbered(&[far, other]))
    });
    [numbered(&[]), four()].into_iter().chain(one).chain(two)
}

/// A cross in which the pairs, by their numbers, are too far from each other for a conflict.
fn numbered(far: &[(usize, usize)]) -> Vec<Piece> {
    let gap = |pair: usize| SCALE.spacing() - u64::from(pair >= far.len());
    let mut numbers: Vec<usize> = far.iter().flat_map(|&(a, b)| [a, b]).collect();
    let near: Vec<usize> = (0..5).filter(|number| !numbers.contains(number)).collect();
    numbers.extend(near);
    let mut ends = SCALE.cross([gap(0), gap(1)]);
    for (number, place) in numbers.into_iter().zip(ends) {
        ends[number] = place;
    }
    pieces(&ends)
}

/// Four in conflict with each other.
fn four() -> Vec<Piece> {
    numbered(&[])[1..].to_vec()
}

/// Four arms without a middle, each in conflict with two others.
fn ring() -> Vec<Piece> {
    let gap = SCALE.spacing();
    pieces(&SCALE.cross([gap; 2])[..ARMS.len()])
}

fn pieces(ends: &[Ends]) -> Vec<Piece> {
    let numbered = (0..).zip(ends);
    numbered.map(|(shape, &ends)| piece(shape, ends)).collect()
}

/// Four in conflict with each other, of which one is in two halves.
fn halved(tied: bool) -> Vec<Piece> {
    let mut ends = SCALE.cross([SCALE.spacing() - 1; 2]);
    let half = SCALE.half(&mut ends[4], 0, tied);
    let mut pieces = pieces(&ends);
    pieces.push(piece(4, half));
    pieces.remove(0);
    pieces
}

/// Four in conflict with each other, of which one has a tail, with a piece beside it.
fn tailed(tied: bool) -> Vec<Piece> {
    let mut ends = SCALE.cross([SCALE.spacing() - 1; 2]);
    let tail = SCALE.tail(&mut ends[0], ARMS[0], tied);
    let beside = SCALE.beside(&ends[0], ARMS[0]);
    let mut pieces = pieces(&ends);
    pieces.remove(1);
    pieces.extend([piece(0, tail), piece(5, beside)]);
    pieces
}

/// Six in conflict with each other but for one pair.
fn six() -> Vec<Piece> {
    let mut pieces = numbered(&[(0, 4)]);
    pieces.push(Piece {
        shape: 5,
        ..pieces[1]
    });
    pieces
}

/// Four in conflict with each other, of which one is fixed.
fn fixed() -> Vec<Piece> {
    let mut pieces = four();
    pieces[2].fixed = Some(2);
    pieces
}

/// Components in a row: such as need a step to end, such as need none, and such as are no part of the
/// library.
fn rows() -> impl Iterator<Item = Vec<Vec<Piece>>> {
    let searched = || numbered(&[(0, 4)]);
    let others = [halved(false), halved(true), six(), fixed()];
    let mut rows = vec![
        vec![searched(), four(), numbered(&[])],
        vec![four(), searched(), searched()],
        vec![tailed(false), tailed(true)],
    ];
    for other in others {
        rows.push(vec![four(), other.clone(), four()]);
        rows.push(vec![other, searched()]);
    }
    rows.into_iter()
}

#[cfg(test)]
mod tests {
    use super::*;
    use std::collections::BTreeSet;

    /// The pairs of pieces that are less than the spacing apart.
    fn joined(pieces: &[Piece]) -> BTreeSet<(usize, usize)> {
        let gap = |a: [u64; 2], b: [u64; 2]| a[0].max(b[0]).saturating_sub(a[1].min(b[1]));
        let near = |a: &Piece, b: &Piece| {
            let x = gap([a.x1, a.x2], [b.x1, b.x2]);
            let y = gap([a.y1, a.y2], [b.y1, b.y2]);
            x * x + y * y < SCALE.spacing() * SCALE.spacing()
        };
        let pairs = (0..pieces.len()).flat_map(|b| (0..b).map(move |a| (a, b)));
        pairs
            .filter(|&(a, b)| near(&pieces[a], &pieces[b]))
            .collect()
    }

    /// On three masks the others of at most five units are peeled, in part or whole.
    #[test]
    fn every_graph_with_three_neighbours_for_each_unit_is_there() {
        let graphs: BTreeSet<_> = every_cross().map(|cross| joined(&cross)).collect();
        assert_eq!((every_cross().count(), graphs.len()), (27, 27));
        let degree = |graph: &BTreeSet<(usize, usize)>, unit: usize| {
            graph
                .iter()
                .filter(|&&(a, b)| a == unit || b == unit)
                .count()
        };
        let all_there = |graph| (0..4).all(|unit| degree(graph, unit) >= 3);
        assert!(graphs.iter().all(all_there));
    }
}
