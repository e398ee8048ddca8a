//! Masks that the designer set: whether those of a unit agree, and the one that a unit must have.

use super::edges::Edges;
use super::mutation::Mutation;
use super::ties::units;
use super::Refusal;
use crate::layer::{Layer, Piece};

/// Question 14: names the lowest piece whose fixed mask is not that of a lower piece of its unit.
pub fn judge_fixed(layer: &Layer, wrong: Mutation) -> Result<(), Refusal> {
    let pieces = &layer.pieces;
    let fixed = |&piece: &usize| pieces[piece].fixed.is_some();
    let fixed: Vec<usize> = (0..pieces.len()).filter(fixed).collect();
    let left_out = [Mutation::DifferByPiece, Mutation::DifferAfterMasks].contains(&wrong);
    if fixed.len() < 2 || left_out {
        return Ok(());
    }
    let ties = Edges::of(layer, wrong).ties;
    let units = units(pieces.len(), &ties, wrong);
    let compared = |lower: usize, piece: usize| match wrong {
        Mutation::DifferByTies => ties.contains(&(lower, piece)),
        Mutation::DifferByLowest => lower == units[piece],
        _ => units[lower] == units[piece],
    };
    let differs_from = |piece: usize| {
        let mut lower = fixed.iter().copied().take_while(|&lower| lower < piece);
        lower.find(|&lower| compared(lower, piece) && pieces[lower].fixed != pieces[piece].fixed)
    };
    let mut differ = (fixed.iter()).filter_map(|&piece| Some((differs_from(piece)?, piece)));
    let found = match wrong {
        Mutation::DifferNamesEarlier => differ.next().map(|(lower, _)| lower),
        Mutation::DifferNamesLast => differ.next_back().map(|(_, piece)| piece),
        _ => differ.next().map(|(_, piece)| piece),
    };
    found.map_or(Ok(()), |piece| Err(Refusal::new(14, piece as u64)))
}

/// The mask of each unit that has a fixed piece, at the unit's number. In a valid layer all fixed pieces
/// of a unit have the same.
pub fn of_units(pieces: &[Piece], units: &[usize], wrong: Mutation) -> Vec<Option<u64>> {
    let mut masks = vec![None; pieces.len()];
    for (number, piece) in pieces.iter().enumerate() {
        let unit = units[number];
        if wrong != Mutation::UnitFixedByLowest || unit == number {
            masks[unit] = masks[unit].or(piece.fixed);
        }
    }
    masks
}
