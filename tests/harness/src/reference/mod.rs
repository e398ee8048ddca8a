//! The decomposition as docs/RULES.md states it, written from that text and as plainly as possible:
//! no code, definition or trick of the proved crates is used. Speed does not matter.
//!
//! Where the self-test can put a fault, a function takes a `Mutation`; `Mutation::None` is the rules. Only the
//! self-test runs `counting`, which is a search with a rule for speed.

mod counting;
mod edges;
mod faults;
mod fixed;
#[cfg(test)]
mod fixed_tests;
mod kinds;
mod masks;
mod mutation;
mod peel;
mod polygon;
mod read;
mod records;
mod repeats;
#[cfg(test)]
mod repeats_tests;
mod score;
mod score_kinds;
#[cfg(test)]
mod score_tests;
mod search;
mod small_graphs;
#[cfg(test)]
mod small_graphs_tests;
mod small_kinds;
mod stream;
#[cfg(test)]
mod stream_tests;
#[cfg(test)]
mod tests;
mod ties;
mod units;
mod walk;

use crate::layer::Layer;
use edges::Edges;
use fixed::judge_fixed;
pub use kinds::{kinds, KINDS};
pub use masks::{is_set, mask_lines, read_masks, UNSET};
pub use mutation::Mutation;
pub use read::read;
pub use repeats::{repeats, Repeat, Repeats, REPEAT_KINDS};
pub use score::{least_cost, score, Score};
pub use score_kinds::{score_kinds, HALF_DONE, SCORE_KINDS};
pub use stream::read_stream;
use ties::Graph;
pub use walk::ASKED;

/// Why a call is refused (RULES 11). The place is a line, a piece, a record of a stream, or 0
/// for nothing.
#[derive(Clone, Copy, Debug, PartialEq, Eq)]
pub struct Refusal {
    pub number: u64,
    pub place: u64,
}

impl Refusal {
    fn new(number: u64, place: u64) -> Refusal {
        Refusal { number, place }
    }
}

/// The result text, or a refusal.
pub type Answer = Result<Vec<u8>, Refusal>;

/// The outcome of a decomposition (RULES 8).
pub struct Run {
    pub masks: Vec<u64>,
    pub score: Score,
    pub steps: u64,
    pub best: bool,
}

/// The least size of a result buffer.
const RESULT_ROOM: usize = 4096;

/// The job loader's call (RULES 12): a layer text in, its result text out.
pub fn answer(text: &[u8], result_size: usize, wrong: Mutation) -> Answer {
    judge_room(result_size, wrong)?;
    let layer = read(text, wrong)?;
    Ok(result_text(&run(&layer, wrong)))
}

/// Its call on a stream: a settings text and a stream in, the result text out.
pub fn answer_stream(
    settings: &[u8],
    stream: &[u8],
    result_size: usize,
    wrong: Mutation,
) -> Answer {
    let room = judge_room(result_size, wrong);
    if wrong != Mutation::RoomLate {
        room?;
    }
    let layer = read_stream(settings, stream, wrong)?;
    room?;
    Ok(result_text(&run(&layer, wrong)))
}

/// What `score` says of a layer text and a text of mask lines. Of a text that has other lines the
/// rules say nothing.
pub fn answer_score(layer: &[u8], masks: &[u8], wrong: Mutation) -> Option<Answer> {
    let masks = read_masks(masks, wrong)?;
    if wrong == Mutation::LongListFirst && masks.len() > 512 {
        return Some(Err(Refusal::new(7, 0)));
    }
    let scored = read(layer, wrong).and_then(|layer| {
        let scored = score(&layer, &masks, wrong)?;
        if wrong == Mutation::DifferAfterMasks {
            judge_fixed(&layer, Mutation::None)?;
        }
        Ok(scored)
    });
    Some(scored.map(|scored| scored.text().into_bytes()))
}

/// What a program prints for an answer (RULES 12).
pub fn printed(answer: &Answer) -> Vec<u8> {
    match answer {
        Ok(text) => text.clone(),
        Err(Refusal { number, place }) => format!("refused={number},{place}\n").into_bytes(),
    }
}

/// Question 1.
fn judge_room(result_size: usize, wrong: Mutation) -> Result<(), Refusal> {
    if result_size < RESULT_ROOM - usize::from(wrong == Mutation::BufferOneShorter) {
        return Err(Refusal::new(1, 0));
    }
    Ok(())
}

/// The whole decomposition of a valid layer (RULES 4 to 7).
pub fn run(layer: &Layer, wrong: Mutation) -> Run {
    let edges = Edges::of(layer, wrong);
    let units = ties::units(layer.pieces.len(), &edges.ties, wrong);
    let graph = Graph::of(layer, &edges, &units, wrong);
    let peeled = peel::peel(&graph, layer.settings.masks, wrong);
    let searched = search::search(&graph, &peeled.core, &layer.settings, wrong);
    let of_units = peel::put_back(
        &graph,
        &peeled.removed,
        searched.masks,
        layer.settings.masks,
        wrong,
    );
    let masks: Vec<u64> = units.iter().map(|&unit| of_units[unit]).collect();
    Run {
        score: score::score_of_edges(&edges, &masks, layer.settings.weight, wrong),
        masks,
        steps: searched.steps,
        best: searched.best,
    }
}

/// For each piece of a valid layer the number of its unit.
pub fn units_of(layer: &Layer) -> Vec<usize> {
    let edges = Edges::of(layer, Mutation::None);
    ties::units(layer.pieces.len(), &edges.ties, Mutation::None)
}

/// The result text (RULES 10).
fn result_text(run: &Run) -> Vec<u8> {
    let mut text = format!(
        "verdict={}\n{}steps={}\n",
        if run.best { "best" } else { "open" },
        run.score.text(),
        run.steps
    );
    text += &mask_lines(&run.masks);
    text.into_bytes()
}
