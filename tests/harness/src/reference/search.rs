//! Components of the core, their first assignments and the search within the budget (RULES 5, 6).

use std::mem;
use std::ops::Range;

use super::counting::Counting;
use super::mutation::Mutation;
use super::small_graphs::final_cost;
use super::ties::{Graph, Near};
use crate::layer::Settings;

pub struct Searched {
    /// The masks of the core; other units have none yet.
    pub masks: Vec<Option<u64>>,
    pub steps: u64,
    pub best: bool,
    /// The steps of each component, unless they are counted.
    pub tried: Vec<Vec<Try>>,
}

/// A mask that was tried at a place.
#[derive(Clone, Copy)]
pub struct Try {
    pub place: usize,
    pub mask: u64,
    /// The cost of the partial assignment with it.
    pub cost: u64,
    pub goes_on: bool,
}

pub fn search(graph: &Graph, core: &[usize], settings: &Settings, wrong: Mutation) -> Searched {
    let mut budget = Budget {
        limit: settings.budget + u64::from(wrong == Mutation::BudgetOneMore),
        steps: 0,
        used_up: false,
    };
    let mut masks = vec![None; graph.size()];
    let mut tried = Vec::new();
    for component in components(graph, core, wrong) {
        if wrong == Mutation::BudgetForEachComponent {
            budget.limit = budget.steps + settings.budget;
        }
        if wrong == Mutation::LastSearchDecides {
            budget.used_up = false;
        }
        let mut search = Search::new(graph, &component, settings, &mut budget, wrong);
        let first = search.incumbent.clone();
        if wrong.counts_subtrees() {
            Counting::new(&mut search).place(0, 0);
        } else {
            search.place(0, 0);
        }
        tried.push(search.tried);
        let reached = search.incumbent;
        let kept = match wrong {
            Mutation::StoppedKeepsFirst if budget.used_up => first,
            _ => reached,
        };
        for (&unit, mask) in component.iter().zip(kept) {
            masks[unit] = Some(mask);
        }
    }
    let full = wrong == Mutation::FullBudgetIsOpen && budget.steps == budget.limit;
    Searched {
        masks,
        steps: budget.steps,
        best: !budget.used_up && !full,
        tried,
    }
}

/// The connected components in the order of their lowest unit, each rising.
pub fn components(graph: &Graph, core: &[usize], wrong: Mutation) -> Vec<Vec<usize>> {
    let mut left = vec![false; graph.size()];
    for &unit in core {
        left[unit] = true;
    }
    let mut components = Vec::new();
    for &unit in core {
        if left[unit] {
            let mut component = Vec::new();
            collect(graph, unit, &mut left, &mut component, wrong);
            component.sort();
            components.push(component);
        }
    }
    components
}

/// Takes a unit, and everything that is joined to it, out of those left.
fn collect(
    graph: &Graph,
    unit: usize,
    left: &mut [bool],
    component: &mut Vec<usize>,
    wrong: Mutation,
) {
    left[unit] = false;
    component.push(unit);
    if wrong == Mutation::FixedSplitsComponent && graph.fixed[unit].is_some() {
        return;
    }
    let mut near = graph.conflicts[unit].clone();
    if wrong != Mutation::ComponentsByConflicts {
        near.extend(&graph.stitches[unit]);
    }
    for Near { unit, .. } in near {
        if left[unit] {
            collect(graph, unit, left, component, wrong);
        }
    }
}

/// One count of steps for all components.
pub struct Budget {
    pub limit: u64,
    pub steps: u64,
    pub used_up: bool,
}

impl Budget {
    /// Whether the step that is due can be taken.
    fn has_step(&mut self) -> bool {
        self.used_up |= self.steps == self.limit;
        self.steps < self.limit
    }

    /// The same; if it can be, it is.
    fn step(&mut self) -> bool {
        let taken = self.has_step();
        self.steps += u64::from(taken);
        taken
    }
}

/// The search of one component.
pub struct Search<'a> {
    pub graph: &'a Graph,
    pub component: &'a [usize],
    settings: &'a Settings,
    pub budget: &'a mut Budget,
    pub wrong: Mutation,
    /// The search's own masks; units that it has not reached have none.
    pub partial: Vec<Option<u64>>,
    tried: Vec<Try>,
    incumbent: Vec<u64>,
    pub incumbent_cost: u64,
    first_cost: u64,
    /// The incumbent's cost at which the search ends, where the library of small graphs has one.
    final_cost: Option<u64>,
    /// A fault: whether the search could have ended before its last step.
    was_over: bool,
}

impl<'a> Search<'a> {
    /// The search before its first step: the first assignment is the incumbent.
    pub fn new(
        graph: &'a Graph,
        component: &'a [usize],
        settings: &'a Settings,
        budget: &'a mut Budget,
        wrong: Mutation,
    ) -> Search<'a> {
        let mut search = Search {
            graph,
            component,
            settings,
            budget,
            wrong,
            partial: vec![None; graph.size()],
            tried: Vec::new(),
            incumbent: Vec::new(),
            incumbent_cost: 0,
            first_cost: 0,
            final_cost: final_cost(graph, component, settings, wrong),
            was_over: false,
        };
        for &unit in component {
            let mask = search.first(unit);
            search.incumbent_cost += search.added(unit, mask);
            search.incumbent.push(mask);
            search.partial[unit] = Some(mask);
        }
        search.first_cost = search.incumbent_cost;
        search.partial = vec![None; graph.size()];
        search
    }

    /// The mask of a unit in the first assignment.
    fn first(&self, unit: usize) -> u64 {
        match self.graph.fixed[unit] {
            Some(mask) if self.wrong != Mutation::FirstIgnoresFixed => mask,
            _ => self.cheapest(unit),
        }
    }

    /// The lowest of the masks that add least at a unit.
    fn cheapest(&self, unit: usize) -> u64 {
        let added = |mask: &u64| self.added(unit, *mask);
        match self.wrong {
            Mutation::FirstTakesHighest => (0..self.settings.masks).rev().min_by_key(added),
            _ => (0..self.settings.masks).min_by_key(added),
        }
        .expect("there are at least two masks")
    }

    /// What a mask adds at a unit, against the units that have one.
    pub fn added(&self, unit: usize, mask: u64) -> u64 {
        let mut cost = 0;
        for near in &self.graph.conflicts[unit] {
            if self.partial[near.unit] == Some(mask) {
                cost += self.settings.weight * self.paid(near, Mutation::DoubledConflictsOnce);
            }
        }
        for near in &self.graph.stitches[unit] {
            if self.partial[near.unit].unwrap_or(mask) != mask {
                cost += self.paid(near, Mutation::DoubledStitchesOnce);
            }
        }
        cost
    }

    /// How many edges to a neighbour are paid for: all, but for the fault.
    fn paid(&self, near: &Near, once: Mutation) -> u64 {
        if self.wrong == once {
            1
        } else {
            near.edges
        }
    }

    /// Tries the masks of a place; `cost` is that of the places before it.
    fn place(&mut self, place: usize, cost: u64) {
        if place == self.component.len() {
            self.becomes_incumbent(cost);
            return;
        }
        let unit = self.component[place];
        let cost_on_entry = self.incumbent_cost;
        for mask in self.masks_to_try(place) {
            if !self.takes_step(place) {
                break;
            }
            let cost = cost + self.added(unit, mask);
            let goes_on = self.goes_on(cost, cost_on_entry);
            self.tried.push(Try {
                place,
                mask,
                cost,
                goes_on,
            });
            if goes_on {
                self.partial[unit] = Some(mask);
                self.place(place + 1, cost);
                self.partial[unit] = None;
            }
        }
    }

    /// Whether another mask is tried at a place, which is a step. Where the search is over none is due, and
    /// the budget is not asked.
    pub fn takes_step(&mut self, place: usize) -> bool {
        if self.wrong == Mutation::BudgetBeforeEnd && !self.budget.has_step() {
            return false;
        }
        let unit = self.component[place];
        let free = self.wrong == Mutation::FixedStepFree && self.graph.fixed[unit].is_some();
        !self.is_over(place) && (free || self.budget.step())
    }

    /// Whether the incumbent has the cost that the library of small graphs knows as the least. Only with a
    /// fault can it be below.
    fn is_over(&mut self, place: usize) -> bool {
        let cost = self.incumbent_cost;
        let over = self.final_cost.map_or(false, |least| cost <= least);
        match self.wrong {
            Mutation::EndSeenLate => mem::replace(&mut self.was_over, over),
            // Place 0 has one mask to try.
            Mutation::FirstStepTaken => over && place > 0,
            Mutation::FirstNotCompared => over && cost < self.first_cost,
            Mutation::OnlyFirstCompared => over && cost == self.first_cost,
            _ => over,
        }
    }

    /// The mask of a fixed unit. Other units have all masks to try where the component has a fixed one,
    /// since exchanging masks makes a difference there.
    pub fn masks_to_try(&self, place: usize) -> Range<u64> {
        match self.graph.fixed[self.component[place]] {
            Some(mask) if self.wrong != Mutation::CandidatesIgnoreFixed => mask..mask + 1,
            _ if self.masks_have_names(place) => 0..self.settings.masks,
            _ => 0..self.masks_in_turn(place),
        }
    }

    /// Whether the component has a fixed unit.
    pub fn masks_have_names(&self, place: usize) -> bool {
        let is_fixed = |&unit: &usize| self.graph.fixed[unit].is_some();
        match self.wrong {
            Mutation::FixedRenamed => false,
            Mutation::FixedLiftsAll => self.graph.units.iter().any(is_fixed),
            Mutation::FixedLiftsLater => self.component[..place].iter().any(is_fixed),
            _ => self.component.iter().any(is_fixed),
        }
    }

    /// One mask more than the earlier places use, and at most all.
    fn masks_in_turn(&self, place: usize) -> u64 {
        let earlier = &self.component[..place];
        let used = |mask: &u64| {
            earlier
                .iter()
                .any(|&unit| self.partial[unit] == Some(*mask))
        };
        match self.wrong {
            Mutation::AllMasksTried => self.settings.masks,
            _ => {
                let different = (0..self.settings.masks).filter(used).count() as u64;
                (different + 1).min(self.settings.masks)
            }
        }
    }

    /// Whether a partial assignment of this cost is followed further. The incumbent's cost is
    /// that of now, not the one on entry to the place.
    fn goes_on(&self, cost: u64, cost_on_entry: u64) -> bool {
        match self.wrong {
            Mutation::IncumbentSeenLate => cost < cost_on_entry,
            Mutation::EqualCostGoesOn => cost <= self.incumbent_cost,
            _ => cost < self.incumbent_cost,
        }
    }

    pub fn becomes_incumbent(&mut self, cost: u64) {
        let mask_of = |&unit: &usize| self.partial[unit].expect("every place has its mask");
        self.incumbent = self.component.iter().map(mask_of).collect();
        self.incumbent_cost = cost;
    }
}
