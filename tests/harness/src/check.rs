//! Checks of one layer, text or stream, with a count of what was seen and a report of what was wrong.

use crate::compare::{compare, field, Case};
use crate::input::Input;
use crate::layer::Layer;
use crate::reference::{self, Answer};
use crate::shrink;
use crate::shrink_stream;
use crate::subject::Subject;
use crate::tally::{Family, Tally};

/// A difference, on the smallest input that was found for it.
pub struct Finding {
    /// How much input that is.
    pub size: String,
    pub report: String,
}

/// Layers with at most so many assignments have all of them tried.
const MOST_ASSIGNMENTS: u64 = 70_000;

pub struct Checker {
    pub subject: Subject,
    pub tally: Tally,
}

impl Checker {
    pub fn new(subject: Subject) -> Checker {
        let tally = Tally::default();
        Checker { subject, tally }
    }

    /// Compares one call on input of any kind.
    pub fn input(
        &mut self,
        family: Family,
        input: Input<Vec<u8>>,
        size: usize,
    ) -> Result<(), Finding> {
        let case = self.case(input, size);
        match self.compared(family, &case) {
            Ok(Ok(_)) => self.decomposed(&case.input),
            Ok(Err(_)) => {}
            Err(_) => return Err(self.smallest(&case)),
        }
        Ok(())
    }

    /// Counts what ties and fixed masks do in input that was not refused.
    fn decomposed(&mut self, input: &Input<Vec<u8>>) {
        let layer = input.as_bytes().layer();
        self.tally
            .count_layer(&layer.expect("the reference decomposed it"));
    }

    /// Compares one call on a layer, and hands over the result text unless it is refused.
    fn layer(
        &mut self,
        family: Family,
        layer: &Layer,
        size: usize,
    ) -> Result<Option<Vec<u8>>, Finding> {
        let case = self.case(Input::Layer(layer.text()), size);
        match self.compared(family, &case) {
            Ok(answer) => Ok(answer.ok()),
            Err(_) => Err(self.smallest(&case)),
        }
    }

    /// Compares calls at rising budgets, and what they say with each other. A layer that is small
    /// enough must have the least cost where the last of them says best.
    pub fn budgets(
        &mut self,
        family: Family,
        layer: &Layer,
        budgets: &[u64],
        size: usize,
    ) -> Result<(), Finding> {
        let mut before: Option<Vec<u8>> = None;
        for &budget in budgets {
            let layer = layer.with_budget(budget);
            let text = match self.layer(family, &layer, size)? {
                Some(text) => text,
                None => return Ok(()),
            };
            let fault = before.and_then(|before| fault_of_more_budget(&before, &text));
            if let Some(fault) = fault {
                return Err(broken(&layer, fault));
            }
            before = Some(text);
        }
        self.tally.count_layer(layer);
        match before {
            Some(text) if is_best(&text) => self.least(layer, cost(&text)),
            _ => Ok(()),
        }
    }

    /// What is called best must cost no more than any other assignment.
    fn least(&mut self, layer: &Layer, cost: u64) -> Result<(), Finding> {
        let count = layer.settings.masks.checked_pow(layer.pieces.len() as u32);
        if count.unwrap_or(u64::MAX) > MOST_ASSIGNMENTS {
            return Ok(());
        }
        self.tally.least += 1;
        let least = reference::least_cost(layer);
        if cost != least {
            let fault = format!("is called best but the least cost is {least}");
            return Err(broken(layer, &fault));
        }
        Ok(())
    }

    fn case(&self, input: Input<Vec<u8>>, result_size: usize) -> Case {
        Case {
            input,
            result_size,
            salt: self.tally.cases(),
        }
    }

    fn compared(&mut self, family: Family, case: &Case) -> Result<Answer, String> {
        let answer = compare(self.subject, case);
        self.tally.count(family, answer.as_ref().ok());
        answer
    }

    /// The report of a case that differs, on input as small as is found.
    fn smallest(&self, case: &Case) -> Finding {
        let differs = |input| compare(self.subject, &with_input(case, input)).is_err();
        let input = match &case.input {
            Input::Layer(text) => Input::Layer(shrink::smallest_text(text, &|text| {
                differs(Input::Layer(text.to_vec()))
            })),
            Input::Stream { settings, stream } => {
                let differs =
                    |settings: &[u8], stream: &[u8]| differs(stream_input(settings, stream));
                let (settings, stream) = shrink_stream::stream(settings, stream, &differs);
                Input::Stream { settings, stream }
            }
        };
        let fault = compare(self.subject, &with_input(case, input.clone())).err();
        let report = format!(
            "with a result buffer of {} bytes {}\n{}",
            case.result_size,
            fault.unwrap_or_default(),
            input.shown()
        );
        let size = input.size();
        Finding { size, report }
    }
}

fn stream_input(settings: &[u8], stream: &[u8]) -> Input<Vec<u8>> {
    Input::Stream {
        settings: settings.to_vec(),
        stream: stream.to_vec(),
    }
}

/// The same call on other input.
fn with_input(case: &Case, input: Input<Vec<u8>>) -> Case {
    Case { input, ..*case }
}

fn is_best(text: &[u8]) -> bool {
    text.starts_with(b"verdict=best\n")
}

fn cost(text: &[u8]) -> u64 {
    field(text, "cost=").expect("a result text has a cost")
}

/// What is wrong about a result with more budget than another had.
fn fault_of_more_budget(less: &[u8], more: &[u8]) -> Option<&'static str> {
    if cost(more) > cost(less) {
        Some("costs more than with less budget")
    } else if is_best(less) && less != more {
        Some("is not the best result that less budget gave")
    } else {
        None
    }
}

/// The subject and the reference agree on a result that the rules do not allow.
fn broken(layer: &Layer, fault: &str) -> Finding {
    let input = Input::Layer(layer.text());
    let report = format!("the result {fault}\n{}", input.shown());
    let size = input.size();
    Finding { size, report }
}

#[cfg(test)]
mod tests {
    use super::*;
    use crate::layer::{Piece, Settings};
    use crate::reference::Mutation;

    fn result(verdict: &str, cost: u64) -> Vec<u8> {
        format!("verdict={verdict}\ncost={cost}\n").into_bytes()
    }

    #[test]
    fn more_budget_is_never_worse() {
        let fault = |less: (&str, u64), more: (&str, u64)| {
            fault_of_more_budget(&result(less.0, less.1), &result(more.0, more.1)).is_some()
        };
        assert!(!fault(("open", 5), ("open", 5)));
        assert!(!fault(("open", 5), ("best", 4)));
        assert!(fault(("open", 5), ("open", 6)));
        assert!(fault(("best", 5), ("best", 4)));
        assert!(fault(("best", 5), ("open", 5)));
    }

    #[test]
    fn best_means_least() {
        let layer = Layer {
            settings: Settings {
                masks: 2,
                spacing: 1,
                margin: 1,
                weight: 7,
                budget: 0,
            },
            pieces: [0, 1, 2].map(Piece::at_corner).to_vec(),
        };
        let mut checker = Checker::new(Subject::Wrong(Mutation::None));
        assert!(checker.least(&layer, 7).is_ok());
        assert!(checker.least(&layer, 8).is_err());
    }
}
