//! Repeated subtrees of searches that can be computed by hand, and of random ones.

use super::counting::Counting;
use super::edges::Edges;
use super::peel::peel;
use super::search::{components, Budget, Search};
use super::ties::units;
use super::*;
use crate::generate::{repeating, rings, small_components_at_limits};
use crate::random::Random;

/// The steps before each subtree, and those with it.
fn ends<'a>(repeats: impl IntoIterator<Item = &'a Repeat>) -> Vec<(u64, u64)> {
    let ends = |repeat: &Repeat| (repeat.before, repeat.last);
    repeats.into_iter().map(ends).collect()
}

fn is_inside(repeat: &Repeat) -> bool {
    let mut kinds = REPEAT_KINDS.iter().zip(repeat.kinds);
    kinds.any(|(&kind, there)| there && kind == "inside another")
}

/// Of a pile with one ring: each unit of the pile tries one mask more than the one before it. Then the far bar
/// of the ring tries each mask, and the last unit of the pile all of them each time.
#[test]
fn all_masks_of_a_far_bar_but_the_first_repeat() {
    for masks in 2..=8 {
        let pile = masks * (masks + 1) / 2;
        let with = |bars: u64| pile + bars * (1 + masks);
        let repeated: Vec<(u64, u64)> = (1..masks).map(|n| (with(n), with(n + 1))).collect();
        let found = repeats(&rings()[4 * (masks as usize - 2)], 1_000);
        assert_eq!(ends(&found.subtrees), repeated);
        assert_eq!(found.turns, [with(masks)]);
    }
}

/// Of two units that are fixed and two rings: the far bar of the first one tries each mask, that of the second
/// one too, and then two steps are left. So on two masks the first bar has seven steps with each mask, and the
/// second one three.
#[test]
fn repeated_subtrees_lie_inside_others() {
    let found = repeats(&rings()[2], 1_000);
    assert_eq!(ends(&found.subtrees), [(4, 7), (7, 14), (11, 14)]);
    let inside = found.subtrees.iter().filter(|repeat| is_inside(repeat));
    assert_eq!(ends(inside), [(11, 14)]);
    assert_eq!(found.turns, [14]);
}

/// Each of the 27 graphs that the library can meet, by itself.
#[test]
fn nothing_repeats_where_the_library_of_small_graphs_serves() {
    let texts = small_components_at_limits();
    let layers = texts
        .iter()
        .map(|text| read(text, Mutation::None).expect("it is valid"));
    let graphs = layers.filter(|layer| layer.settings.budget == 0).take(27);
    for layer in graphs {
        assert!(repeats(&layer, 1_000).subtrees.is_empty());
    }
}

/// The subtrees that the counting search counts in so many steps, but for the one in which they end.
fn counted(layer: &Layer, steps: u64) -> Vec<(u64, u64)> {
    let wrong = Mutation::SubtreesCounted;
    let edges = Edges::of(layer, wrong);
    let units = units(layer.pieces.len(), &edges.ties, wrong);
    let graph = Graph::of(layer, &edges, &units, wrong);
    let core = peel(&graph, layer.settings.masks, wrong).core;
    let mut budget = Budget {
        limit: steps,
        steps: 0,
        used_up: false,
    };
    let mut counted = Vec::new();
    for component in components(&graph, &core, wrong) {
        let settings = &layer.settings;
        let mut search = Search::new(&graph, &component, settings, &mut budget, wrong);
        let mut counting = Counting::new(&mut search);
        counting.place(0, 0);
        counted.extend(counting.counted);
    }
    counted.retain(|&(_, last)| last < steps);
    counted
}

/// What is inside a repeated subtree is not walked, and so not counted by itself.
#[test]
fn repeated_subtrees_are_those_that_are_counted() {
    let steps = 2_000;
    let mut some = 0;
    for number in 0..70 {
        let (layer, repeats) = repeating(&mut Random::new(5, number), 2 + number % 7, steps);
        let ended = repeats.subtrees.iter().filter(|repeat| repeat.last < steps);
        let outside = ends(ended.filter(|repeat| !is_inside(repeat)));
        if !outside.is_empty() {
            assert_eq!(outside, counted(&layer, steps));
            some += 1;
        }
    }
    assert!(some > 35);
}
