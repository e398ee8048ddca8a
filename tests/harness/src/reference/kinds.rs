//! What ties, fixed masks and small components do in a layer, so that the tally can tell what was seen of it.

use super::edges::{is_point, Edges};
use super::mutation::Mutation;
use super::peel::{peel, Removed};
use super::search::components;
use super::small_kinds::{of_small, SMALL_KINDS};
use super::ties::{units, Graph, Near};
use crate::layer::Layer;

/// What a layer can have.
pub const KINDS: [&str; TIES + FIXED + SMALL_KINDS] = [
    "ties",
    "ties carried on",
    "doubled conflict edges",
    "doubled stitch edges",
    "(B) with several edges",
    "stitch edges inside a unit",
    "point contacts",
    "fixed masks",
    "different fixed masks",
    "all pieces fixed",
    "fixed units of several pieces",
    "units not fixed by their lowest piece",
    "units with several fixed pieces",
    "fixed units that could be peeled",
    "units peeled beside a fixed one",
    "conflicts between fixed units",
    "components in which a fixed unit is not the first",
    "components with a fixed unit and components without",
    "components that the library of small graphs serves",
    "several of these",
    "such of five units",
    "such with steps",
    "such with stitch edges inside a tied unit",
    "such with stitch edges to peeled units",
    "such with doubled edges to peeled units",
    "such beside fixed units",
    "small components with stitch edges",
    "small ones with doubled edges",
    "small ones with fixed units",
    "those of six units",
    "small ones on two masks",
    "small ones on four masks",
];

const TIES: usize = 7;
const FIXED: usize = 11;

pub struct Kinds {
    /// Whether the layer has each of `KINDS`.
    pub there: [bool; KINDS.len()],
    /// How many pieces the largest unit has.
    pub largest: usize,
    /// How many pieces are fixed.
    pub fixed: usize,
}

/// The kinds of a valid layer.
pub fn kinds(layer: &Layer) -> Kinds {
    let edges = Edges::of(layer, Mutation::None);
    let units = units(layer.pieces.len(), &edges.ties, Mutation::None);
    let graph = Graph::of(layer, &edges, &units, Mutation::None);
    let mut there = [false; KINDS.len()];
    there[..TIES].copy_from_slice(&of_ties(layer, &edges, &units, &graph));
    there[TIES..TIES + FIXED].copy_from_slice(&of_fixed(layer, &units, &graph));
    there[TIES + FIXED..].copy_from_slice(&of_small(layer, &edges, &units, &graph));
    let sizes = graph.units.iter().map(|&unit| size(&units, unit));
    Kinds {
        there,
        largest: sizes.max().unwrap_or(0),
        fixed: layer.pieces.iter().filter(|p| p.fixed.is_some()).count(),
    }
}

fn of_ties(layer: &Layer, edges: &Edges, units: &[usize], graph: &Graph) -> [bool; TIES] {
    let removed = peel(graph, layer.settings.masks, Mutation::None).removed;
    let inside = |&(a, b): &(usize, usize)| units[a] == units[b];
    let hangs = |r: &Removed| matches!(r, Removed::Hanging { to, .. } if to.edges > 1);
    let sizes = graph.units.iter().map(|&unit| size(units, unit));
    // A unit of m pieces in which all are tied to each other has m × (m − 1) / 2 ties.
    let within: usize = sizes.map(|m| m * (m - 1) / 2).sum();
    [
        !edges.ties.is_empty(),
        within > edges.ties.len(),
        is_doubled(&graph.conflicts),
        is_doubled(&graph.stitches),
        removed.iter().any(hangs),
        edges.stitches.iter().any(inside),
        has_points(layer, units),
    ]
}

fn of_fixed(layer: &Layer, units: &[usize], graph: &Graph) -> [bool; FIXED] {
    let fixed: Vec<u64> = layer.pieces.iter().filter_map(|p| p.fixed).collect();
    if fixed.is_empty() {
        return [false; FIXED];
    }
    let is_fixed = |unit: &usize| graph.fixed[*unit].is_some();
    let near_fixed = |near: &Near| graph.fixed[near.unit].is_some();
    let on_one_mask = |unit: usize, near: &Near| graph.fixed[unit] == graph.fixed[near.unit];
    let masks = layer.settings.masks;
    let core = peel(graph, masks, Mutation::None).core;
    let smaller = peel(graph, masks, Mutation::FixedPeeled).core;
    let components = components(graph, &core, Mutation::None);
    let fixed_ones = components.iter().filter(|c| c.iter().any(is_fixed));
    let fixed_ones: Vec<&Vec<usize>> = fixed_ones.collect();
    let all_fixed = || graph.units.iter().filter(|unit| is_fixed(unit));
    let of_unit = |unit: usize| (0..units.len()).filter(move |&piece| units[piece] == unit);
    let set = |&piece: &usize| layer.pieces[piece].fixed.is_some();
    let peeled = |unit: &usize| core.binary_search(unit).is_err();
    [
        true,
        fixed.iter().any(|&mask| mask != fixed[0]),
        fixed.len() == layer.pieces.len(),
        all_fixed().any(|&unit| of_unit(unit).count() > 1),
        all_fixed().any(|&unit| !set(&unit)),
        all_fixed().any(|&unit| of_unit(unit).filter(set).count() > 1),
        all_fixed().any(|unit| smaller.binary_search(unit).is_err()),
        (graph.units.iter()).any(|u| peeled(u) && graph.conflicts[*u].iter().any(near_fixed)),
        all_fixed().any(|&u| graph.conflicts[u].iter().any(|n| on_one_mask(u, n))),
        fixed_ones.iter().any(|component| !is_fixed(&component[0])),
        fixed_ones.len() < components.len(),
    ]
}

fn size(units: &[usize], unit: usize) -> usize {
    units.iter().filter(|&&of| of == unit).count()
}

fn is_doubled(near: &[Vec<Near>]) -> bool {
    near.iter().flatten().any(|near| near.edges > 1)
}

/// Whether two units touch in a point.
fn has_points(layer: &Layer, units: &[usize]) -> bool {
    let pieces = || layer.pieces.iter().zip(units);
    pieces().any(|(a, of_a)| pieces().any(|(b, of_b)| of_a != of_b && is_point(a, b)))
}
