//! The library of small graphs: the least number of conflicts of each on three masks, and the components
//! whose search ends at it.

use super::mutation::Mutation;
use super::score::next_assignment;
use super::ties::{Graph, Near};
use crate::layer::Settings;

/// The masks that the library is for, and the most units of a component.
const MASKS: u64 = 3;
const UNITS: usize = 5;

/// The pairs of five units, in the order of the bits of an index.
const PAIRS: [(usize, usize); 10] = [
    (0, 1),
    (0, 2),
    (0, 3),
    (0, 4),
    (1, 2),
    (1, 3),
    (1, 4),
    (2, 3),
    (2, 4),
    (3, 4),
];

/// The cost at which the search of a component ends, if the library serves it.
pub fn final_cost(
    graph: &Graph,
    component: &[usize],
    settings: &Settings,
    wrong: Mutation,
) -> Option<u64> {
    if !is_served(graph, component, settings.masks, wrong) {
        return None;
    }
    let joined = joined(graph, component);
    let entry = match wrong {
        Mutation::SixUnitsServed => least_conflicts(component.len(), &joined),
        _ => entry(index(&joined, wrong)),
    };
    let entry = match wrong {
        Mutation::EntryTooHigh => entry + 1,
        Mutation::EntryTooLow => entry.saturating_sub(1),
        _ => entry,
    };
    match wrong {
        Mutation::EntryWithoutWeight => Some(entry),
        _ => Some(settings.weight * entry),
    }
}

/// Whether a component has what the library asks.
fn is_served(graph: &Graph, component: &[usize], masks: u64, wrong: Mutation) -> bool {
    let masks_fit = match wrong {
        Mutation::TwoMasksServed => masks == MASKS || masks == 2,
        Mutation::FourMasksServed => masks == MASKS || masks == 4,
        _ => masks == MASKS,
    };
    let size_fits = match wrong {
        Mutation::SixUnitsServed => component.len() <= UNITS + 1,
        Mutation::FiveUnitsNotServed => component.len() < UNITS,
        Mutation::FourUnitsNotServed => component.len() == UNITS,
        _ => component.len() <= UNITS,
    };
    if !masks_fit || !size_fits {
        return false;
    }
    let seen = |all_units: Mutation| match wrong == all_units {
        true => &graph.units,
        false => component,
    };
    let (peeled, doubled_peeled) = (Mutation::PeeledStitchBars, Mutation::PeeledDoubledBars);
    let stitched = has_edges(&graph.stitches, component, seen(peeled), 1);
    let doubled = has_edges(&graph.conflicts, component, seen(doubled_peeled), 2);
    let fixed = has_fixed(graph, seen(Mutation::FixedElsewhereBars));
    (!stitched || wrong == Mutation::StitchedServed)
        && (!doubled || wrong == Mutation::DoubledServed)
        && (!fixed || wrong == Mutation::FixedServed)
}

/// Whether at least so many edges join a unit of a component with one of the others.
pub fn has_edges(edges: &[Vec<Near>], component: &[usize], others: &[usize], least: u64) -> bool {
    let joins = |near: &Near| near.edges >= least && others.contains(&near.unit);
    (component.iter()).any(|&unit| edges[unit].iter().any(joins))
}

pub fn has_fixed(graph: &Graph, units: &[usize]) -> bool {
    units.iter().any(|&unit| graph.fixed[unit].is_some())
}

/// The pairs of a component, by its units' positions, that have a conflict edge.
fn joined(graph: &Graph, component: &[usize]) -> Vec<(usize, usize)> {
    let mut joined = Vec::new();
    for (a, &unit) in component.iter().enumerate() {
        for near in &graph.conflicts[unit] {
            let other = component.iter().position(|&other| other == near.unit);
            joined.extend(other.filter(|&b| a < b).map(|b| (a, b)));
        }
    }
    joined
}

/// The index of a graph: the bit of each pair that is joined.
fn index(joined: &[(usize, usize)], wrong: Mutation) -> usize {
    let mut pairs = PAIRS;
    if wrong == Mutation::PairsByGreater {
        pairs.sort_by_key(|&(a, b)| (b, a));
    }
    let bit = |number: usize| usize::from(joined.contains(&pairs[number])) << number;
    (0..pairs.len()).map(bit).sum()
}

/// The entry of an index: the least number of conflicts of its graph.
fn entry(index: usize) -> u64 {
    let there = |number: &usize| index >> number & 1 == 1;
    let numbers = (0..PAIRS.len()).filter(there);
    let joined: Vec<(usize, usize)> = numbers.map(|number| PAIRS[number]).collect();
    least_conflicts(UNITS, &joined)
}

/// The least number of pairs on one mask, of those that are joined, over all assignments.
fn least_conflicts(units: usize, joined: &[(usize, usize)]) -> u64 {
    let mut masks = vec![0; units];
    let mut least = u64::MAX;
    loop {
        let conflicts = joined.iter().filter(|&&(a, b)| masks[a] == masks[b]);
        least = least.min(conflicts.count() as u64);
        if !next_assignment(&mut masks, MASKS) {
            return least;
        }
    }
}

#[cfg(test)]
mod tests {
    use super::*;

    #[test]
    fn entries() {
        assert_eq!([entry(0), entry(183), entry(1023)], [0, 1, 2]);
        let clique = |units: usize| {
            let joined: Vec<(usize, usize)> =
                PAIRS.iter().copied().filter(|&(_, b)| b < units).collect();
            index(&joined, Mutation::None)
        };
        assert_eq!([clique(4), clique(5)], [183, 1023]);
    }

    #[test]
    fn of_the_graphs_of_four_only_the_clique_has_a_conflict() {
        // Graphs in which the last unit has no edge.
        let last = |number: &usize| PAIRS[*number].1 == 4;
        let without = |index: &usize| !(0..10).filter(last).any(|number| index >> number & 1 == 1);
        let above: Vec<usize> = (0..1024)
            .filter(without)
            .filter(|&i| entry(i) > 0)
            .collect();
        assert_eq!(above, [183]);
        assert_eq!((0..1024).filter(without).count(), 64);
    }
}
