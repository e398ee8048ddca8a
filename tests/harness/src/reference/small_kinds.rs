//! What the library of small graphs meets in a layer: components that it serves, and components that lack
//! one thing only.

use super::edges::Edges;
use super::mutation::Mutation;
use super::peel::peel;
use super::search::{components, search};
use super::small_graphs::{final_cost, has_edges, has_fixed};
use super::ties::Graph;
use crate::layer::{Layer, Settings};

pub const SMALL_KINDS: usize = 14;

/// Whether a layer has each of the last of `KINDS`.
pub fn of_small(
    layer: &Layer,
    edges: &Edges,
    units: &[usize],
    graph: &Graph,
) -> [bool; SMALL_KINDS] {
    let settings = &layer.settings;
    let core = peel(graph, settings.masks, Mutation::None).core;
    let components = components(graph, &core, Mutation::None);
    let small: Vec<Small> = (components.iter().filter(|units| units.len() <= 6))
        .map(|units| Small::of(graph, units, settings))
        .collect();
    let served: Vec<&Small> = small.iter().filter(|small| small.is_served).collect();
    let any = |there: &dyn Fn(&Small) -> bool| served.iter().any(|small| there(small));
    let inside = |&(a, b): &(usize, usize)| (units[a] == units[b]).then_some(units[a]);
    let stitched_inside: Vec<usize> = edges.stitches.iter().filter_map(inside).collect();
    let peeled = |unit: &usize| core.binary_search(unit).is_err();
    let peeled: Vec<usize> = graph.units.iter().copied().filter(peeled).collect();
    let lacks = |there: [usize; 5]| small.iter().any(|small| small.reasons(settings) == there);
    [
        !served.is_empty(),
        served.len() > 1,
        any(&|small| small.units.len() == 5),
        any(&|small| takes_steps(graph, small.units, settings)),
        any(&|small| small.units.iter().any(|u| stitched_inside.contains(u))),
        any(&|small| has_edges(&graph.stitches, small.units, &peeled, 1)),
        any(&|small| has_edges(&graph.conflicts, small.units, &peeled, 2)),
        !served.is_empty() && has_fixed(graph, &graph.units),
        lacks([3, 0, 1, 0, 0]),
        lacks([3, 0, 0, 1, 0]),
        lacks([3, 0, 0, 0, 1]),
        lacks([3, 1, 0, 0, 0]),
        lacks([2, 0, 0, 0, 0]),
        lacks([4, 0, 0, 0, 0]),
    ]
}

/// A component of at most six units.
struct Small<'a> {
    units: &'a [usize],
    is_served: bool,
    stitched: bool,
    doubled: bool,
    fixed: bool,
}

impl<'a> Small<'a> {
    fn of(graph: &Graph, units: &'a [usize], settings: &Settings) -> Small<'a> {
        Small {
            units,
            is_served: final_cost(graph, units, settings, Mutation::None).is_some(),
            stitched: has_edges(&graph.stitches, units, units, 1),
            doubled: has_edges(&graph.conflicts, units, units, 2),
            fixed: has_fixed(graph, units),
        }
    }

    /// The number of masks, and what else can keep the component from the library.
    fn reasons(&self, settings: &Settings) -> [usize; 5] {
        let six = self.units.len() == 6;
        let [six, stitched, doubled, fixed] =
            [six, self.stitched, self.doubled, self.fixed].map(usize::from);
        [settings.masks as usize, six, stitched, doubled, fixed]
    }
}

/// Whether the first assignment of a component does not end its search.
fn takes_steps(graph: &Graph, component: &[usize], settings: &Settings) -> bool {
    let settings = Settings {
        budget: 1,
        ..*settings
    };
    search(graph, component, &settings, Mutation::None).steps > 0
}
