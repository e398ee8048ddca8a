//! What is special about masks that are scored or refused, so that the tally can tell what was seen.

use super::edges::Edges;
use super::masks::{first_split, is_set, Judged};
use super::mutation::Mutation;
use super::score::score_of_edges;
use super::ties::units;
use super::Refusal;
use crate::layer::Layer;

/// What masks can have: first those that are scored, then those that are refused.
pub const SCORE_KINDS: [&str; SCORED + REFUSED] = [
    "all set",
    "half done",
    "none set",
    "half done with conflicts",
    "half done with stitches",
    "conflict edges half set",
    "conflict edges unset",
    "stitch edges half set",
    "stitch edges unset",
    "units with their lowest unset",
    "units unset beside others",
    "fixed masks kept",
    "fixed masks broken",
    "fixed pieces unset",
    "7 beside a mask out of range",
    "8 by 254",
    "8 by more than 255",
    "8 above a split",
    "12 with the lowest unset",
    "12 over unset ties",
];

const SCORED: usize = 14;
const REFUSED: usize = 6;

/// The place of the half-done ones among `SCORE_KINDS`.
pub const HALF_DONE: usize = 1;

/// Whether masks of a valid layer have each of `SCORE_KINDS`. What refused them is known.
pub fn score_kinds(
    layer: &Layer,
    masks: &[u64],
    refused: Option<Refusal>,
) -> [bool; SCORE_KINDS.len()] {
    let edges = Edges::of(layer, Mutation::None);
    let units = units(layer.pieces.len(), &edges.ties, Mutation::None);
    let judged = Judged {
        limit: layer.settings.masks,
        units: &units,
        ties: &edges.ties,
    };
    let mut there = [false; SCORE_KINDS.len()];
    match refused {
        None => there[..SCORED].copy_from_slice(&of_scored(masks, layer, &edges, &units)),
        Some(refusal) => there[SCORED..].copy_from_slice(&of_refused(masks, &judged, refusal)),
    }
    there
}

fn of_scored(masks: &[u64], layer: &Layer, edges: &Edges, units: &[usize]) -> [bool; SCORED] {
    let set = |piece: usize| is_set(masks[piece]);
    let of_set = masks.iter().filter(|&&mask| is_set(mask)).count();
    let half_done = 0 < of_set && of_set < masks.len();
    let score = score_of_edges(edges, masks, 1, Mutation::None);
    let half_set = |&(a, b): &(usize, usize)| set(a) != set(b);
    let unset = |&(a, b): &(usize, usize)| !set(a) && !set(b);
    let mut of_units = vec![0; masks.len()];
    let set_pieces = (0..masks.len()).filter(|&piece| set(piece));
    set_pieces.for_each(|piece| of_units[units[piece]] += 1);
    let mut tied = (0..masks.len()).filter(|&piece| units[piece] != piece);
    let pieces = layer.pieces.iter().zip(masks);
    let fixed = pieces.filter_map(|(piece, &mask)| Some((piece.fixed?, mask)));
    let fixed: Vec<(u64, u64)> = fixed.collect();
    let broken = fixed
        .iter()
        .any(|&(fixed, mask)| is_set(mask) && fixed != mask);
    [
        of_set > 0 && !half_done,
        half_done,
        of_set == 0 && !masks.is_empty(),
        half_done && score.conflicts > 0,
        half_done && score.stitches > 0,
        edges.conflicts.iter().any(half_set),
        edges.conflicts.iter().any(unset),
        edges.stitches.iter().any(half_set),
        edges.stitches.iter().any(unset),
        tied.clone().any(|piece| set(piece) && !set(units[piece])),
        half_done && tied.any(|piece| of_units[units[piece]] == 0),
        !broken && fixed.iter().any(|&(_, mask)| is_set(mask)),
        broken,
        fixed.iter().any(|&(_, mask)| !is_set(mask)),
    ]
}

fn of_refused(masks: &[u64], of: &Judged, refusal: Refusal) -> [bool; REFUSED] {
    let place = refusal.place as usize;
    let is = |number: u64| refusal.number == number;
    let out_of_range = |&mask: &u64| is_set(mask) && mask >= of.limit;
    let split = || first_split(masks, of, Mutation::None);
    let differ =
        |&(a, b): &(usize, usize)| is_set(masks[a]) && is_set(masks[b]) && masks[a] != masks[b];
    [
        is(7) && masks.iter().any(out_of_range),
        is(8) && masks[place] == 254,
        is(8) && masks[place] > 255,
        is(8) && split().map_or(false, |lower| lower < place),
        is(12) && !is_set(masks[of.units[place]]),
        is(12) && !of.ties.iter().any(differ),
    ]
}
