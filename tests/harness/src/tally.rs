//! Counts of what was compared, so that a reader sees what a run covered.

use crate::compare::field;
use crate::layer::Layer;
use crate::reference::{kinds, Answer, Repeat, Repeats, ASKED, KINDS, REPEAT_KINDS};

/// Where an input comes from.
#[derive(Clone, Copy)]
pub enum Family {
    Limits,
    Small,
    Repeats,
    Larger,
    Made,
    Damaged,
    StreamLimits,
    Streams,
    DamagedStreams,
}

const FAMILIES: [&str; 9] = [
    "limits",
    "small",
    "repeated subtrees",
    "larger",
    "made",
    "damaged",
    "stream limits",
    "streams",
    "damaged streams",
];

impl Family {
    fn is_of_streams(self) -> bool {
        self as usize >= Family::StreamLimits as usize
    }
}

/// The refusals that a text can meet, and those that a stream can.
const OF_TEXTS: [usize; 8] = [1, 2, 3, 4, 5, 6, 13, 14];
const OF_STREAMS: [usize; 8] = [1, 2, 3, 4, 6, 9, 10, 11];

/// The numbers of masks that a layer can have.
const MASKS: [usize; 7] = [2, 3, 4, 5, 6, 7, 8];

/// A unit can have all the pieces that a layer can have, and all can be fixed.
const MOST_PIECES: usize = 512;

#[derive(Default)]
pub struct Tally {
    families: [u64; FAMILIES.len()],
    best: u64,
    open: u64,
    /// Results with at least one step.
    searched: u64,
    /// Results with at least one stitch.
    stitched: u64,
    /// Streams that were decomposed.
    streams: u64,
    /// Refusals by number, of texts and of streams.
    refused: [[u64; 15]; 2],
    /// Layers whose cost was compared with that of all assignments.
    pub least: u64,
    /// Layers that were decomposed, and those that had each kind of tie, edge or fixed mask.
    layers: u64,
    kinds: [u64; KINDS.len()],
    /// The pieces of the largest unit.
    largest: usize,
    /// The most fixed pieces of a layer.
    most_fixed: usize,
    /// Budgets that end before, in and after repeated subtrees, by the number of masks.
    at_repeats: [u64; 9],
    /// These subtrees, those of each kind, and the steps of the longest.
    repeats: u64,
    repeat_kinds: [u64; REPEAT_KINDS.len()],
    longest_repeat: u64,
    /// Layers with a subtree that lacks one thing to be a repeated one, by that thing.
    nearly: [u64; ASKED.len()],
}

impl Tally {
    pub fn cases(&self) -> u64 {
        self.families.iter().sum()
    }

    /// Counts a case; one that differs has no answer.
    pub fn count(&mut self, family: Family, answer: Option<&Answer>) {
        self.families[family as usize] += 1;
        match answer {
            Some(Ok(text)) => {
                self.count_result(text);
                self.streams += u64::from(family.is_of_streams());
            }
            Some(Err(refusal)) => {
                let of = usize::from(family.is_of_streams());
                self.refused[of][refusal.number as usize] += 1;
            }
            None => {}
        }
    }

    fn count_result(&mut self, text: &[u8]) {
        if text.starts_with(b"verdict=best\n") {
            self.best += 1;
        } else {
            self.open += 1;
        }
        self.searched += u64::from(field(text, "steps=") != Some(0));
        self.stitched += u64::from(field(text, "stitches=") != Some(0));
    }

    /// Counts what ties and fixed masks do in a layer that was decomposed.
    pub fn count_layer(&mut self, layer: &Layer) {
        let found = kinds(layer);
        self.layers += 1;
        for (count, there) in self.kinds.iter_mut().zip(found.there) {
            *count += u64::from(there);
        }
        self.largest = self.largest.max(found.largest);
        self.most_fixed = self.most_fixed.max(found.fixed);
    }

    /// Counts subtrees, and the budgets of a layer that end at them or in them.
    pub fn count_repeats(&mut self, masks: u64, repeats: &[&Repeat], budgets: &[u64]) {
        let is_at = |budget: u64| {
            let mut at = repeats.iter().map(|repeat| repeat.before..=repeat.last + 1);
            at.any(|at| at.contains(&budget))
        };
        let at = budgets.iter().filter(|&&budget| is_at(budget)).count();
        self.at_repeats[masks as usize] += at as u64;
        self.repeats += repeats.len() as u64;
        for repeat in repeats {
            for (count, there) in self.repeat_kinds.iter_mut().zip(repeat.kinds) {
                *count += u64::from(there);
            }
            self.longest_repeat = self.longest_repeat.max(repeat.steps());
        }
    }

    /// Counts what subtrees of a layer lack to be repeated ones.
    pub fn count_nearly(&mut self, repeats: &Repeats) {
        for (count, there) in self.nearly.iter_mut().zip(repeats.nearly) {
            *count += u64::from(there);
        }
    }

    /// Whether every answer that a call can give was seen, all that ties and fixed masks can do, and repeated
    /// subtrees on every number of masks.
    pub fn is_complete(&self) -> bool {
        let counts = [
            self.best,
            self.open,
            self.searched,
            self.stitched,
            self.least,
            self.streams,
        ];
        let texts = OF_TEXTS.map(|number| self.refused[0][number]);
        let streams = OF_STREAMS.map(|number| self.refused[1][number]);
        let repeats = MASKS.map(|masks| self.at_repeats[masks]);
        let mut all = (counts.iter().chain(&self.families).chain(&self.kinds))
            .chain(texts.iter().chain(&streams))
            .chain(repeats.iter().chain(&self.repeat_kinds))
            .chain(&self.nearly);
        let most = [self.largest, self.most_fixed] == [MOST_PIECES; 2];
        all.all(|&count| count > 0) && most
    }

    /// One line.
    pub fn summary(&self) -> String {
        format!(
            "{} answers agree ({}); best {}, open {}, with steps {}, with stitches {}; texts refused {}; streams decomposed {}, refused {}; least cost of {} layers; of {} layers with {}; largest unit {}, most fixed {}; budgets at repeated subtrees, by masks, {}; of {} such subtrees {}, the longest of {} steps; layers with subtrees that lack one thing to be repeated: {}",
            self.cases(),
            named(&FAMILIES, &self.families),
            self.best,
            self.open,
            self.searched,
            self.stitched,
            counts(&OF_TEXTS, &self.refused[0]),
            self.streams,
            counts(&OF_STREAMS, &self.refused[1]),
            self.least,
            self.layers,
            named(&KINDS, &self.kinds),
            self.largest,
            self.most_fixed,
            counts(&MASKS, &self.at_repeats),
            self.repeats,
            named(&REPEAT_KINDS, &self.repeat_kinds),
            self.longest_repeat,
            named(&ASKED, &self.nearly)
        )
    }
}

pub fn named(names: &[&str], counts: &[u64]) -> String {
    let pairs = names.iter().zip(counts);
    let words: Vec<String> = pairs
        .map(|(name, count)| format!("{name} {count}"))
        .collect();
    words.join(", ")
}

pub fn counts(numbers: &[usize], counted: &[u64]) -> String {
    let count = |&number: &usize| format!("{number}: {}", counted[number]);
    numbers.iter().map(count).collect::<Vec<_>>().join(", ")
}

#[cfg(test)]
mod tests {
    use super::*;

    /// Where all has been seen once.
    fn complete() -> Tally {
        Tally {
            families: [1; FAMILIES.len()],
            best: 1,
            open: 1,
            searched: 1,
            stitched: 1,
            streams: 1,
            refused: [[1; 15]; 2],
            least: 1,
            layers: 1,
            kinds: [1; KINDS.len()],
            largest: MOST_PIECES,
            most_fixed: MOST_PIECES,
            at_repeats: [1; 9],
            repeats: 1,
            repeat_kinds: [1; REPEAT_KINDS.len()],
            longest_repeat: 1,
            nearly: [1; ASKED.len()],
        }
    }

    #[test]
    fn repeated_subtrees_are_needed_on_every_number_of_masks() {
        assert!(complete().is_complete());
        for masks in MASKS {
            let mut tally = complete();
            tally.at_repeats[masks] = 0;
            assert!(!tally.is_complete());
        }
    }

    #[test]
    fn repeated_subtrees_of_every_kind_are_needed() {
        for kind in 0..REPEAT_KINDS.len() {
            let mut tally = complete();
            tally.repeat_kinds[kind] = 0;
            assert!(!tally.is_complete());
        }
        for asked in 0..ASKED.len() {
            let mut tally = complete();
            tally.nearly[asked] = 0;
            assert!(!tally.is_complete());
        }
    }
}
