//! The walk of the rules through one component, told by its tries: which masks were entered after another one
//! at the same place, and whether they repeat it.

use super::search::Try;
use super::small_graphs::has_fixed;
use super::ties::Graph;

/// What a mask must have in common with the mask entered before it, or what that one must not do, if its
/// subtree is to be the same.
pub const ASKED: [&str; 4] = [
    "the same cost",
    "as many masks in use",
    "no neighbour looked at",
    "nothing found",
];

/// A mask that was entered after another one: the number of its try, and that of the first try after its
/// subtree.
pub struct Sibling {
    pub from: usize,
    pub end: usize,
    /// Those of `ASKED` that are not so.
    pub lacks: Vec<usize>,
}

pub struct Walk<'a> {
    pub tried: &'a [Try],
    /// Whether the budget did not end in them.
    is_whole: bool,
    has_fixed: bool,
    /// For each place the first later one that an edge joins to it, or the number of places.
    next_joined: Vec<usize>,
}

impl<'a> Walk<'a> {
    pub fn new(graph: &Graph, component: &[usize], tried: &'a [Try], is_whole: bool) -> Walk<'a> {
        Walk {
            tried,
            is_whole,
            has_fixed: has_fixed(graph, component),
            next_joined: next_joined(graph, component),
        }
    }

    /// All masks that were entered after another one, but for those in whose subtrees the budget ended.
    pub fn siblings(&self) -> Vec<Sibling> {
        let places = self.next_joined.len();
        let mut masks = vec![0; places];
        let mut entered = vec![None; places];
        let mut siblings = Vec::new();
        for (from, tried) in self.tried.iter().enumerate() {
            let place = tried.place;
            masks[place] = tried.mask;
            entered[place + 1..].fill(None);
            if !tried.goes_on {
                continue;
            }
            let before = entered[place].replace(from);
            if let (Some(before), Some(end)) = (before, self.end(from)) {
                let lacks = self.lacks(before, from, &masks[..place]);
                siblings.push(Sibling { from, end, lacks });
            }
        }
        siblings
    }

    /// The number of the first try after a subtree, unless the budget ended in it.
    fn end(&self, from: usize) -> Option<usize> {
        let is_above = |other: &Try| other.place <= self.tried[from].place;
        match self.tried[from + 1..].iter().position(is_above) {
            Some(below) => Some(from + 1 + below),
            None => self.is_whole.then_some(self.tried.len()),
        }
    }

    /// What a mask lacks to repeat the one before it, where the earlier places have these masks.
    fn lacks(&self, before: usize, from: usize, earlier: &[u64]) -> Vec<usize> {
        let (first, second) = (&self.tried[before], &self.tried[from]);
        let is_new = |mask: u64| !self.has_fixed && !earlier.contains(&mask);
        let end = self.end(before).expect("another mask was tried after it");
        let subtree = &self.tried[before..end];
        let next_joined = self.next_joined[first.place];
        let there = [
            first.cost == second.cost,
            is_new(first.mask) == is_new(second.mask),
            subtree.iter().all(|tried| tried.place < next_joined),
            !subtree.iter().any(|tried| self.finds(tried)),
        ];
        (0..ASKED.len()).filter(|&asked| !there[asked]).collect()
    }

    /// The numbers of the tries that make an incumbent.
    pub fn found(&self) -> Vec<usize> {
        let numbers = 0..self.tried.len();
        numbers.filter(|&at| self.finds(&self.tried[at])).collect()
    }

    fn finds(&self, tried: &Try) -> bool {
        tried.goes_on && tried.place + 1 == self.next_joined.len()
    }
}

fn next_joined(graph: &Graph, component: &[usize]) -> Vec<usize> {
    let is_joined = |unit: usize, other: usize| {
        let mut near = graph.conflicts[unit].iter().chain(&graph.stitches[unit]);
        near.any(|near| near.unit == other)
    };
    let places = component.len();
    let next = |place: usize| {
        let mut later = place + 1..places;
        let next = later.find(|&other| is_joined(component[place], component[other]));
        next.unwrap_or(places)
    };
    (0..places).map(next).collect()
}
