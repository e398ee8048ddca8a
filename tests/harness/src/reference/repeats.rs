//! Subtrees of the search that repeat the one before them. A subtree that finds no incumbent depends on the
//! cost that is left for it, on the masks in use, and on the masks of those earlier places that have an edge
//! to a place that it looks at. So a program may count the steps of a mask that has all of this in common
//! with the mask before it, and need not take them. The walk of the rules takes each, and its tries tell
//! which steps these are.

use super::edges::Edges;
use super::mutation::Mutation;
use super::peel::peel;
use super::search::{components, search};
use super::small_graphs::{has_edges, has_fixed};
use super::ties::{units, Graph};
use super::walk::{Walk, ASKED};
use crate::layer::Layer;

/// Where a repeated subtree can lie: in what component, after what, and in which part of the search.
pub const REPEAT_KINDS: [&str; OF_COMPONENT + 4] = [
    "beside fixed units",
    "beside stitch edges",
    "beside doubled conflict edges",
    "beside tied units",
    "after steps of another component",
    "after a new incumbent",
    "inside another",
    "at the end of the search",
];

const OF_COMPONENT: usize = 4;

/// A subtree whose steps are those after `before`, up to `last`.
pub struct Repeat {
    pub before: u64,
    pub last: u64,
    /// The place of its first step.
    pub place: usize,
    /// Whether it is of each of `REPEAT_KINDS`.
    pub kinds: [bool; REPEAT_KINDS.len()],
}

impl Repeat {
    pub fn steps(&self) -> u64 {
        self.last - self.before
    }
}

/// What repeats in a search, as far as it was followed.
#[derive(Default)]
pub struct Repeats {
    /// In the order of their first steps.
    pub subtrees: Vec<Repeat>,
    /// For each of `ASKED` whether some mask lacks nothing else to repeat the one before it.
    pub nearly: [bool; ASKED.len()],
    /// The steps with which an incumbent was found, and with which the search ended if it did.
    pub turns: Vec<u64>,
}

/// What repeats in the search of a valid layer, which is followed for so many steps.
pub fn repeats(layer: &Layer, steps: u64) -> Repeats {
    let settings = layer.with_budget(steps).settings;
    let edges = Edges::of(layer, Mutation::None);
    let units = units(layer.pieces.len(), &edges.ties, Mutation::None);
    let graph = Graph::of(layer, &edges, &units, Mutation::None);
    let core = peel(&graph, settings.masks, Mutation::None).core;
    let searched = search(&graph, &core, &settings, Mutation::None);
    let components = components(&graph, &core, Mutation::None);
    let mut repeats = Repeats::default();
    let mut before = 0;
    for (component, tried) in components.iter().zip(&searched.tried) {
        let after = before + tried.len() as u64;
        let is_whole = searched.best || after < steps;
        let walk = Walk::new(&graph, component, tried, is_whole);
        repeats.add(&walk, of_component(&graph, &units, component), before);
        before = after;
    }
    if searched.best {
        repeats.end(searched.steps);
    }
    repeats
}

impl Repeats {
    /// What repeats in one component, where others took so many steps before.
    fn add(&mut self, walk: &Walk, of_component: [bool; OF_COMPONENT], before: u64) {
        let found = walk.found();
        let mut inside = 0;
        for sibling in walk.siblings() {
            match sibling.lacks[..] {
                [] => {}
                [asked] => {
                    self.nearly[asked] = true;
                    continue;
                }
                _ => continue,
            }
            let [fixed, stitched, doubled, tied] = of_component;
            self.subtrees.push(Repeat {
                before: before + sibling.from as u64,
                last: before + sibling.end as u64,
                place: walk.tried[sibling.from].place,
                kinds: [
                    fixed,
                    stitched,
                    doubled,
                    tied,
                    before > 0,
                    found.first().map_or(false, |&first| first < sibling.from),
                    sibling.end <= inside,
                    false,
                ],
            });
            inside = inside.max(sibling.end);
        }
        let turns = found.iter().map(|&at| before + at as u64 + 1);
        self.turns.extend(turns);
    }

    /// A search that ended after so many steps.
    fn end(&mut self, steps: u64) {
        for repeat in &mut self.subtrees {
            repeat.kinds[REPEAT_KINDS.len() - 1] = repeat.last == steps;
        }
        self.turns.push(steps);
    }
}

fn of_component(graph: &Graph, units: &[usize], component: &[usize]) -> [bool; OF_COMPONENT] {
    let is_tied = |unit: &usize| units.iter().filter(|&of| of == unit).count() > 1;
    [
        has_fixed(graph, component),
        has_edges(&graph.stitches, component, component, 1),
        has_edges(&graph.conflicts, component, component, 2),
        component.iter().any(is_tied),
    ]
}
