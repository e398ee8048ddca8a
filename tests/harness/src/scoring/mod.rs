//! Scoring by the program `score`, compared with the reference. The library has no call for it.

mod check;
mod program;
mod rounds;
mod shrink;
mod tally;

use crate::input::shown;
use crate::reference::{self, printed, Answer, Mutation};
use crate::shrink::lines;
pub use check::Checker;
pub use program::Program;
pub use rounds::{every_list, limits, round};

/// What the program is given: a layer text and a text of mask lines.
#[derive(Clone, Debug, PartialEq, Eq)]
pub struct Given {
    pub layer: Vec<u8>,
    pub masks: Vec<u8>,
}

impl Given {
    /// What the reference answers, with a fault put in or none.
    fn answer(&self, wrong: Mutation) -> Answer {
        let answer = reference::answer_score(&self.layer, &self.masks, wrong);
        answer.expect("the second text has mask lines only")
    }

    /// How much there is of it.
    fn size(&self) -> String {
        let count = |text: &[u8]| lines(text).len();
        let (layer, masks) = (count(&self.layer), count(&self.masks));
        format!("{layer} lines and {masks} masks")
    }

    /// All of it for people.
    fn shown(&self) -> String {
        format!(
            "the layer text:\n{}\nthe masks:\n{}",
            shown(&self.layer),
            shown(&self.masks)
        )
    }
}

/// What is compared with the reference: the program, or the reference with a fault put in.
pub enum Scorer {
    Program(Program),
    Wrong(Mutation),
}

impl Scorer {
    fn printed(&self, given: &Given) -> Result<Vec<u8>, String> {
        match self {
            Scorer::Program(program) => program.printed(given),
            Scorer::Wrong(mutation) => Ok(printed(&given.answer(*mutation))),
        }
    }
}

/// The reference's answer, or what is different about the scorer's.
pub fn compare(scorer: &Scorer, given: &Given) -> Result<Answer, String> {
    let answer = given.answer(Mutation::None);
    let (expected, found) = (printed(&answer), scorer.printed(given)?);
    if found == expected {
        return Ok(answer);
    }
    Err(format!(
        "another text is printed\nexpected:\n{}found:\n{}",
        shown(&expected),
        shown(&found)
    ))
}
