//! The search with a rule for speed: the steps of a subtree that repeats the one before it are counted, and
//! not taken one by one. It is here for its faults: budgets at such subtrees must show each.

use super::mutation::Mutation;
use super::search::Search;

/// A mask that was entered at a place, and what came of it.
#[derive(Clone, Copy)]
struct Entered {
    cost: u64,
    /// Whether it was not in use, where that makes a difference.
    is_new: bool,
    /// Its own step and those below it.
    steps: u64,
    /// The last place that was looked at.
    reach: usize,
    found: bool,
}

pub struct Counting<'a, 'b> {
    search: &'a mut Search<'b>,
    /// The mask that was entered last at each place.
    last: Vec<Option<Entered>>,
    /// The steps before each counted subtree, and those with it.
    #[cfg(test)]
    pub counted: Vec<(u64, u64)>,
}

impl<'a, 'b> Counting<'a, 'b> {
    pub fn new(search: &'a mut Search<'b>) -> Counting<'a, 'b> {
        let places = search.component.len();
        Counting {
            search,
            last: vec![None; places],
            #[cfg(test)]
            counted: Vec::new(),
        }
    }

    /// Tries the masks of a place, and hands over the last place that was looked at.
    pub fn place(&mut self, place: usize, cost: u64) -> usize {
        let wrong = self.search.wrong;
        if place == self.search.component.len() {
            self.search.becomes_incumbent(cost);
            return place - 1;
        }
        if wrong != Mutation::CountedAcrossVisits {
            self.last[place] = None;
        }
        let unit = self.search.component[place];
        let mut reach = place;
        for mask in self.search.masks_to_try(place) {
            if !self.search.takes_step(place) {
                break;
            }
            let cost = cost + self.search.added(unit, mask);
            if cost >= self.search.incumbent_cost {
                continue;
            }
            let is_new = self.is_new(place, mask);
            match self.last[place] {
                // It reaches as far as the one before it, so the reach stays.
                Some(last) if self.is_repeat(place, &last, cost, is_new) => self.count(last.steps),
                _ => {
                    let entered = self.enter(place, mask, cost, is_new);
                    self.last[place] = Some(entered);
                    reach = match wrong {
                        Mutation::ReachOfLastMask => entered.reach,
                        _ => reach.max(entered.reach),
                    };
                }
            }
        }
        reach
    }

    /// Whether no earlier place has the mask. Where masks have names, that makes no difference.
    fn is_new(&self, place: usize, mask: u64) -> bool {
        let search = &self.search;
        let in_use = |&unit: &usize| search.partial[unit] == Some(mask);
        !search.masks_have_names(place) && !search.component[..place].iter().any(in_use)
    }

    fn is_repeat(&self, place: usize, last: &Entered, cost: u64, is_new: bool) -> bool {
        let wrong = self.search.wrong;
        (last.cost == cost || wrong == Mutation::CountedAtAnyCost)
            && (last.is_new == is_new || wrong == Mutation::CountedOnNewMask)
            && (!last.found || wrong == Mutation::CountedAfterFind)
            && last.reach < self.next_joined(place)
    }

    /// The first later place that an edge joins to this one, or the number of places.
    fn next_joined(&self, place: usize) -> usize {
        let (graph, component) = (self.search.graph, self.search.component);
        let mut near = graph.conflicts[component[place]].clone();
        if self.search.wrong != Mutation::CountedPastStitches {
            near.extend(&graph.stitches[component[place]]);
        }
        let is_joined = |other: &usize| near.iter().any(|near| near.unit == component[*other]);
        let next = (place + 1..component.len()).find(is_joined);
        let further = usize::from(self.search.wrong == Mutation::CountedOnePlaceFurther);
        next.map_or(component.len(), |next| next + further)
    }

    /// Goes on with a mask whose step is taken.
    fn enter(&mut self, place: usize, mask: u64, cost: u64, is_new: bool) -> Entered {
        let unit = self.search.component[place];
        let (steps, incumbent_cost) = (self.search.budget.steps, self.search.incumbent_cost);
        self.search.partial[unit] = Some(mask);
        let reach = self.place(place + 1, cost);
        self.search.partial[unit] = None;
        Entered {
            cost,
            is_new,
            steps: 1 + self.search.budget.steps - steps,
            reach: match self.search.wrong {
                Mutation::ReachOfNextPlace => place + 1,
                _ => reach,
            },
            found: self.search.incumbent_cost < incumbent_cost,
        }
    }

    /// Takes the steps of a subtree whose first one is taken, or as many as are left.
    fn count(&mut self, steps: u64) {
        let wrong = self.search.wrong;
        let budget = &mut *self.search.budget;
        let below = steps - 1 - u64::from(wrong == Mutation::CountedWithoutOwnStep);
        let left = budget.limit - budget.steps;
        let is_stopped = match wrong {
            Mutation::CountedFullIsOpen => left <= below,
            _ => left < below,
        };
        #[cfg(test)]
        self.counted.push((budget.steps - 1, budget.steps + below));
        budget.used_up |= is_stopped && wrong != Mutation::CountedEndNotNoted;
        match wrong {
            Mutation::CountedPastBudget => budget.steps += below,
            // The search ends here all the same.
            Mutation::CountedStepsLeft if is_stopped => budget.limit = budget.steps,
            Mutation::CountedStopForgotten if is_stopped => {}
            _ => budget.steps += below.min(left),
        }
    }
}
