//! Checks of scores, with a count of what was seen and a report of what was wrong.

use super::shrink::smallest;
use super::tally::{Family, Tally};
use super::{compare, Given, Scorer};
use crate::check::Finding;
use crate::compare::{self as call, field, Case};
use crate::input::Input;
use crate::layer::Layer;
use crate::reference::{self, mask_lines, read_masks, Answer, Mutation, UNSET};
use crate::shrink::lines;
use crate::subject::Subject;

pub struct Checker {
    scorer: Scorer,
    /// What gives the results of runs.
    runs: Subject,
    pub tally: Tally,
}

impl Checker {
    pub fn new(scorer: Scorer, runs: Subject) -> Checker {
        Checker {
            scorer,
            runs,
            tally: Tally::default(),
        }
    }

    /// Compares what is printed for a layer text and mask lines.
    pub fn texts(&mut self, family: Family, layer: Vec<u8>, masks: Vec<u8>) -> Result<(), Finding> {
        self.compared(family, &Given { layer, masks }).map(drop)
    }

    fn compared(&mut self, family: Family, given: &Given) -> Result<Answer, Finding> {
        let compared = compare(&self.scorer, given);
        self.tally.count(family, compared.as_ref().ok());
        let answer = compared.map_err(|_| self.smallest(given))?;
        self.count_masks(given, &answer);
        Ok(answer)
    }

    /// Counts what is special about masks on a layer that is not refused.
    fn count_masks(&mut self, given: &Given, answer: &Answer) {
        let layer = reference::read(&given.layer, Mutation::None);
        let masks = read_masks(&given.masks, Mutation::None);
        if let (Ok(layer), Some(masks)) = (layer, masks) {
            self.tally
                .count_masks(&layer, &masks, answer.as_ref().err());
        }
    }

    /// Sets the pieces stage by stage, from none to all, and compares the scores on the way with
    /// each other. The last one is handed over.
    pub fn walk(
        &mut self,
        layer: &Layer,
        masks: &[u64],
        stages: &[&[usize]],
    ) -> Result<Answer, Finding> {
        let mut set = vec![UNSET; masks.len()];
        let mut before = self.compared(Family::Walks, &pair(layer, &set))?;
        for stage in stages {
            stage.iter().for_each(|&piece| set[piece] = masks[piece]);
            let given = pair(layer, &set);
            let after = self.compared(Family::Walks, &given)?;
            if let Some(fault) = fault_of_more_set(&before, &after) {
                return Err(broken(&given, fault));
            }
            before = after;
        }
        Ok(before)
    }

    /// A walk to the masks of a run, if the layer is not refused.
    pub fn walk_to_run(&mut self, layer: &Layer, stages: &[&[usize]]) -> Result<(), Finding> {
        match self.run(layer)? {
            Some(stated) => self.walk_to(layer, stated, stages),
            None => Ok(()),
        }
    }

    /// The walk must end with the score that the run states.
    fn walk_to(&mut self, layer: &Layer, run: Stated, stages: &[&[usize]]) -> Result<(), Finding> {
        self.tally.runs += 1;
        let last = self.walk(layer, &run.masks, stages)?;
        if last.map(|text| score_lines(&text)) == Ok(run.score) {
            return Ok(());
        }
        let given = pair(layer, &run.masks);
        Err(broken(&given, "is not the one that the run states"))
    }

    /// What a run states, unless the layer is refused.
    fn run(&self, layer: &Layer) -> Result<Option<Stated>, Finding> {
        let case = Case {
            input: Input::Layer(layer.text()),
            result_size: 4096,
            salt: self.tally.cases(),
        };
        match call::compare(self.runs, &case) {
            Ok(answer) => Ok(answer.ok().map(|text| stated(&text))),
            Err(report) => Err(Finding {
                size: case.input.size(),
                report: format!("{report}\n{}", case.input.shown()),
            }),
        }
    }

    /// The report of a difference, on input as small as is found.
    fn smallest(&self, given: &Given) -> Finding {
        let given = smallest(given, &|given| compare(&self.scorer, given).is_err());
        let fault = compare(&self.scorer, &given).err().unwrap_or_default();
        Finding {
            size: given.size(),
            report: format!("{fault}\n{}", given.shown()),
        }
    }
}

fn pair(layer: &Layer, masks: &[u64]) -> Given {
    Given {
        layer: layer.text(),
        masks: mask_lines(masks).into_bytes(),
    }
}

/// The lines of a result text for the score, and its masks (RULES 10).
#[derive(Debug, PartialEq, Eq)]
struct Stated {
    score: Vec<u8>,
    masks: Vec<u64>,
}

fn stated(result: &[u8]) -> Stated {
    let lines = lines(result);
    let masks = read_masks(&lines[5..].concat(), Mutation::None);
    Stated {
        score: lines[1..4].concat(),
        masks: masks.expect("a result text ends with mask lines"),
    }
}

/// The lines of an answer that a result text has too.
fn score_lines(text: &[u8]) -> Vec<u8> {
    lines(text)[..3].concat()
}

/// What is wrong about the score of masks of which fewer were set before.
fn fault_of_more_set(fewer: &Answer, more: &Answer) -> Option<&'static str> {
    match (fewer, more) {
        (_, Err(_)) => None,
        (Err(_), Ok(_)) => Some("is one although fewer set pieces were refused"),
        (Ok(fewer), Ok(more)) => {
            let mut keys = ["conflicts=", "stitches=", "cost="].iter();
            if keys.any(|key| field(more, key) < field(fewer, key)) {
                return Some("is lower than with fewer pieces set");
            }
            let other = field(more, "tested=") != field(fewer, "tested=");
            other.then_some("counts other pairs as tested than with fewer pieces set")
        }
    }
}

/// The scorer and the reference agree on a score that the rules do not allow.
fn broken(given: &Given, fault: &str) -> Finding {
    Finding {
        size: given.size(),
        report: format!("the score {fault}\n{}", given.shown()),
    }
}

#[cfg(test)]
mod tests {
    use super::*;
    use crate::layer::{Piece, Settings};
    use crate::reference::Refusal;

    #[test]
    fn more_set_is_never_less() {
        let score = |numbers: [u64; 4]| {
            let keys = ["conflicts", "stitches", "cost", "tested"].iter();
            let lines = keys.zip(numbers).map(|(key, n)| format!("{key}={n}\n"));
            Ok(lines.collect::<String>().into_bytes())
        };
        let fault = |fewer, more| fault_of_more_set(&score(fewer), &score(more)).is_some();
        assert!(!fault([1, 2, 12, 6], [1, 2, 12, 6]));
        assert!(!fault([1, 2, 12, 6], [1, 3, 13, 6]));
        assert!(fault([1, 2, 12, 6], [0, 22, 22, 6]));
        assert!(fault([1, 2, 12, 6], [2, 1, 21, 6]));
        assert!(fault([1, 2, 12, 6], [1, 2, 11, 6]));
        assert!(fault([1, 2, 12, 6], [1, 2, 12, 5]));
        assert!(fault([1, 2, 12, 6], [1, 2, 12, 7]));
        let refused = Err(Refusal {
            number: 12,
            place: 3,
        });
        assert!(fault_of_more_set(&refused, &score([0; 4])).is_some());
        assert!(fault_of_more_set(&score([0; 4]), &refused).is_none());
        assert!(fault_of_more_set(&refused, &refused).is_none());
    }

    #[test]
    fn a_walk_ends_with_the_score_of_the_run() {
        let layer = Layer {
            settings: Settings {
                masks: 2,
                spacing: 1,
                margin: 1,
                weight: 7,
                budget: 0,
            },
            pieces: [0, 1].map(Piece::at_corner).to_vec(),
        };
        let runs = Subject::Wrong(Mutation::None);
        let mut checker = Checker::new(Scorer::Wrong(Mutation::None), runs);
        let mut walk = |score: &str| {
            let (score, masks) = (score.as_bytes().to_vec(), vec![1, 1]);
            let run = Stated { score, masks };
            checker.walk_to(&layer, run, &[&[1], &[0]]).is_ok()
        };
        assert!(walk("conflicts=1\nstitches=0\ncost=7\n"));
        assert!(!walk("conflicts=1\nstitches=0\ncost=8\n"));
    }

    #[test]
    fn a_result_states_its_score() {
        let result = b"verdict=best\nconflicts=1\nstitches=0\ncost=10\nsteps=5\nmask=0\nmask=1\n";
        let score = b"conflicts=1\nstitches=0\ncost=10\n".to_vec();
        let masks = vec![0, 1];
        assert_eq!(stated(result), Stated { score, masks });
    }
}
