//! Units that can wait until the others have their masks (RULES 4 and 7). A fixed unit has its mask and waits
//! for nothing.

use super::mutation::Mutation;
use super::ties::{Graph, Near};

/// A removed unit, and by which case it went.
#[derive(Clone, Copy)]
pub enum Removed {
    /// (A): no stitch edge, and conflict edges to fewer units than there are masks.
    Loose(usize),
    /// (B): no conflict edge, and stitch edges to one unit.
    Hanging { unit: usize, to: Near },
}

pub struct Peeled {
    /// In the order of removal.
    pub removed: Vec<Removed>,
    /// What is left, rising.
    pub core: Vec<usize>,
}

pub fn peel(graph: &Graph, masks: u64, wrong: Mutation) -> Peeled {
    let mut there = vec![false; graph.size()];
    for &unit in &graph.units {
        there[unit] = true;
    }
    let mut removed = Vec::new();
    while let Some(next) = lowest_that_may_go(graph, &there, masks, wrong) {
        let (Removed::Loose(unit) | Removed::Hanging { unit, .. }) = next;
        there[unit] = false;
        removed.push(next);
    }
    let core = (0..graph.size()).filter(|&unit| there[unit]).collect();
    Peeled { removed, core }
}

fn lowest_that_may_go(
    graph: &Graph,
    there: &[bool],
    masks: u64,
    wrong: Mutation,
) -> Option<Removed> {
    let mut units = (0..graph.size()).filter(|&unit| there[unit]);
    let may_go = |unit| may_go(graph, there, unit, masks, wrong);
    match wrong {
        Mutation::PeelHighestFirst => units.rev().find_map(may_go),
        _ => units.find_map(may_go),
    }
}

fn may_go(
    graph: &Graph,
    there: &[bool],
    unit: usize,
    masks: u64,
    wrong: Mutation,
) -> Option<Removed> {
    let is_fixed = |unit: usize| graph.fixed[unit].is_some();
    if is_fixed(unit) && wrong != Mutation::FixedPeeled {
        return None;
    }
    let counts = |near: &Near| {
        let left_out = wrong == Mutation::FixedNotCounted && is_fixed(near.unit);
        there[near.unit] && !left_out
    };
    let still_there =
        |near: &[Near]| -> Vec<Near> { near.iter().copied().filter(counts).collect() };
    let conflicts = still_there(&graph.conflicts[unit]);
    let stitches = still_there(&graph.stitches[unit]);
    let conflict_degree = degree(&conflicts, wrong == Mutation::ConflictDegreeOfEdges);
    let stitch_degree = degree(&stitches, wrong == Mutation::StitchDegreeOfEdges);
    let few_conflicts = match wrong {
        Mutation::PeelAtMasks => conflict_degree <= masks,
        _ => conflict_degree < masks,
    };
    if stitch_degree == 0 && few_conflicts {
        Some(Removed::Loose(unit))
    } else if conflict_degree == 0 && stitch_degree == 1 {
        let to = stitches[0];
        Some(Removed::Hanging { unit, to })
    } else if wrong == Mutation::PeelStitchBelowTwo && stitch_degree < 2 && few_conflicts {
        Some(Removed::Loose(unit))
    } else {
        None
    }
}

/// How many neighbours there are. Only a fault counts the edges to them.
fn degree(near: &[Near], by_edges: bool) -> u64 {
    if by_edges {
        return near.iter().map(|n| n.edges).sum();
    }
    near.len() as u64
}

/// Gives the removed units their masks. A unit that is not there has no mask yet.
pub fn put_back(
    graph: &Graph,
    removed: &[Removed],
    mut there: Vec<Option<u64>>,
    masks: u64,
    wrong: Mutation,
) -> Vec<u64> {
    let mut returning = removed.to_vec();
    if wrong != Mutation::PutBackInOrder {
        returning.reverse();
    }
    for next in returning {
        match next {
            Removed::Loose(unit) => there[unit] = lowest_free(graph, &there, unit, masks),
            Removed::Hanging { unit, to } => there[unit] = there[to.unit],
        }
    }
    // By the rules every unit has a mask here; mutations can leave one without.
    there.into_iter().map(|mask| mask.unwrap_or(0)).collect()
}

fn lowest_free(graph: &Graph, there: &[Option<u64>], unit: usize, masks: u64) -> Option<u64> {
    let taken = |mask| {
        let mut near = graph.conflicts[unit].iter();
        near.any(|n| there[n.unit] == Some(mask))
    };
    (0..masks).find(|&mask| !taken(mask))
}
