//! Counts of what was scored, so that a reader sees what a run covered.

use crate::layer::Layer;
use crate::reference::{score_kinds, Answer, Refusal, HALF_DONE, SCORE_KINDS};
use crate::tally::{counts, named};

/// Where masks come from.
#[derive(Clone, Copy)]
pub enum Family {
    Every,
    Limits,
    Lists,
    Walks,
    Damaged,
}

const FAMILIES: [&str; 5] = ["every list", "limits", "lists", "walks", "damaged"];

/// The refusals that scoring of two texts can meet.
const REFUSALS: [usize; 10] = [2, 3, 4, 5, 6, 7, 8, 12, 13, 14];

/// The numbers of masks that a layer can have.
const MASKS: [usize; 7] = [2, 3, 4, 5, 6, 7, 8];

/// A layer can have so many pieces.
const MOST_PIECES: usize = 512;

#[derive(Default)]
pub struct Tally {
    families: [u64; FAMILIES.len()],
    /// Refusals by number.
    refused: [u64; 15],
    /// What the masks on valid layers had.
    kinds: [u64; SCORE_KINDS.len()],
    /// Half-done scores by the layer's number of masks.
    half_done: [u64; 9],
    /// The most pieces of a half-done score.
    largest: usize,
    /// Walks that ended in the masks of a run.
    pub runs: u64,
}

impl Tally {
    pub fn cases(&self) -> u64 {
        self.families.iter().sum()
    }

    /// Counts a case; one that differs has no answer.
    pub fn count(&mut self, family: Family, answer: Option<&Answer>) {
        self.families[family as usize] += 1;
        if let Some(Err(refusal)) = answer {
            self.refused[refusal.number as usize] += 1;
        }
    }

    /// Counts what masks on a valid layer had.
    pub fn count_masks(&mut self, layer: &Layer, masks: &[u64], refused: Option<&Refusal>) {
        let found = score_kinds(layer, masks, refused.copied());
        if found[HALF_DONE] {
            self.half_done[layer.settings.masks as usize] += 1;
            self.largest = self.largest.max(masks.len());
        }
        for (count, there) in self.kinds.iter_mut().zip(found) {
            *count += u64::from(there);
        }
    }

    /// Whether every kind of answer was seen.
    pub fn is_complete(&self) -> bool {
        let refused = REFUSALS.map(|number| self.refused[number]);
        let half_done = MASKS.map(|masks| self.half_done[masks]);
        let mut all = (self.families.iter().chain(&self.kinds).chain([&self.runs]))
            .chain(refused.iter().chain(&half_done));
        all.all(|&count| count > 0) && self.largest == MOST_PIECES
    }

    /// One line.
    pub fn summary(&self) -> String {
        format!(
            "{} answers agree ({}); {}; refused {}; half done by the number of masks {}, with up to {} pieces; {} walks to the masks of a run",
            self.cases(),
            named(&FAMILIES, &self.families),
            named(&SCORE_KINDS, &self.kinds),
            counts(&REFUSALS, &self.refused),
            counts(&MASKS, &self.half_done),
            self.largest,
            self.runs
        )
    }
}
