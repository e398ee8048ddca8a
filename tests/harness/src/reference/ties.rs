//! Units, which ties make of pieces, and the graph that has them as vertices (RULES 17).

use std::collections::BTreeMap;

use super::edges::Edges;
use super::fixed::of_units;
use super::mutation::Mutation;
use crate::layer::Layer;

/// For each piece the number of its unit, its lowest piece: that number goes from piece to piece along
/// the ties until it has come everywhere.
pub fn units(pieces: usize, ties: &[(usize, usize)], wrong: Mutation) -> Vec<usize> {
    let mut units: Vec<usize> = (0..pieces).collect();
    match wrong {
        Mutation::TiesIgnored => return units,
        Mutation::TiesNotCarriedOn => {
            ties.iter().for_each(|&(a, b)| units[b] = units[b].min(a));
            return units;
        }
        _ => {}
    }
    loop {
        let before = units.clone();
        for &(a, b) in ties {
            let number = match wrong {
                Mutation::UnitByHighest => units[a].max(units[b]),
                _ => units[a].min(units[b]),
            };
            (units[a], units[b]) = (number, number);
        }
        if units == before {
            return units;
        }
    }
}

/// A neighbour, and how many edges lead there.
#[derive(Clone, Copy)]
pub struct Near {
    pub unit: usize,
    pub edges: u64,
}

/// For each unit its neighbours, in rising order. A piece that gives no unit its number has none.
pub struct Graph {
    /// The numbers of the units, rising.
    pub units: Vec<usize>,
    pub conflicts: Vec<Vec<Near>>,
    pub stitches: Vec<Vec<Near>>,
    /// The mask that each unit must have, where it is fixed.
    pub fixed: Vec<Option<u64>>,
}

impl Graph {
    /// The graph of the units that `units` names for the pieces.
    pub fn of(layer: &Layer, edges: &Edges, units: &[usize], wrong: Mutation) -> Graph {
        let mut numbers = units.to_vec();
        numbers.sort();
        numbers.dedup();
        Graph {
            units: numbers,
            conflicts: between(&edges.conflicts, units, wrong),
            stitches: between(&edges.stitches, units, wrong),
            fixed: of_units(&layer.pieces, units, wrong),
        }
    }

    /// One more than the greatest number that a unit can have.
    pub fn size(&self) -> usize {
        self.conflicts.len()
    }
}

/// The edges between different units, counted.
fn between(edges: &[(usize, usize)], units: &[usize], wrong: Mutation) -> Vec<Vec<Near>> {
    let mut counts = BTreeMap::new();
    for &(a, b) in edges {
        let (a, b) = (units[a], units[b]);
        if a != b || wrong == Mutation::InsideEdgesCounted {
            *counts.entry((a, b)).or_insert(0) += 1;
            *counts.entry((b, a)).or_insert(0) += 1;
        }
    }
    let mut near = vec![Vec::new(); units.len()];
    for ((from, unit), edges) in counts {
        near[from].push(Near { unit, edges });
    }
    near
}
