//! Masks that somebody sets by hand: their lines, and the questions about them (RULES 3, 11 and 17).

use super::mutation::Mutation;
use super::read::number;
use super::Refusal;

/// Stands in the place of a mask that is not set.
pub const UNSET: u64 = 255;

pub fn is_set(mask: u64) -> bool {
    mask != UNSET
}

/// A line for each mask.
pub fn mask_lines(masks: &[u64]) -> String {
    masks.iter().map(|mask| format!("mask={mask}\n")).collect()
}

/// The masks of a text that has mask lines and nothing else.
pub fn read_masks(text: &[u8], wrong: Mutation) -> Option<Vec<u64>> {
    let mask = |line: &[u8]| {
        let digits = line.strip_prefix(b"mask=")?.strip_suffix(b"\n")?;
        mask_of(digits, wrong)
    };
    let lines = text.split_inclusive(|&byte| byte == b'\n');
    lines.map(mask).collect()
}

/// The mask that some digits state; one that is too large for 64 bits is as large as they allow.
fn mask_of(digits: &[u8], wrong: Mutation) -> Option<u64> {
    match wrong {
        Mutation::MasksWrapAt8Bits => Some(number(digits, Mutation::WrapAt32Bits)? % 256),
        Mutation::MasksWrapAt32Bits => number(digits, Mutation::WrapAt32Bits),
        Mutation::MasksWrapAt64Bits => number(digits, Mutation::WrapAt64Bits),
        Mutation::LargeMasksUnset => Some(number(digits, Mutation::None)?.min(UNSET)),
        _ => number(digits, Mutation::None),
    }
}

/// What the questions look at beside the masks themselves.
pub struct Judged<'a> {
    /// How many masks there are to choose from.
    pub limit: u64,
    /// The unit of each piece.
    pub units: &'a [usize],
    pub ties: &'a [(usize, usize)],
}

/// Question 7. The list is handed back, since with a fault it may be another one.
pub fn judge_count(masks: &[u64], pieces: usize, wrong: Mutation) -> Result<Vec<u64>, Refusal> {
    let mut list = masks.to_vec();
    match wrong {
        Mutation::ShortListFilled if list.len() < pieces => list.resize(pieces, UNSET),
        Mutation::LongListCut => list.truncate(pieces),
        Mutation::ListCutAt512 => list.truncate(512),
        _ => {}
    }
    if list.len() == pieces {
        Ok(list)
    } else {
        Err(Refusal::new(7, 0))
    }
}

/// Question 8 for the whole list, then question 12.
pub fn judge_masks(masks: &[u64], of: &Judged, wrong: Mutation) -> Result<(), Refusal> {
    let range = out_of_range(masks, of.limit, wrong).map(|piece| Refusal::new(8, piece as u64));
    let split = first_split(masks, of, wrong).map(|piece| Refusal::new(12, piece as u64));
    let refusal = match wrong {
        Mutation::SplitFirst => split.or(range),
        Mutation::PieceByPiece => range.into_iter().chain(split).min_by_key(|r| r.place),
        _ => range.or(split),
    };
    refusal.map_or(Ok(()), Err)
}

/// The lowest piece whose mask is neither below the limit nor the number for not set.
fn out_of_range(masks: &[u64], limit: u64, wrong: Mutation) -> Option<usize> {
    let passes = |&mask: &u64| match wrong {
        Mutation::UnsetRefused => mask < limit,
        Mutation::NearUnsetPasses => mask < limit || mask == 254 || mask == UNSET,
        Mutation::MaskAtLimit => mask <= limit || mask == UNSET,
        _ => mask < limit || mask == UNSET,
    };
    match wrong {
        Mutation::LastMaskNamed => masks.iter().rposition(|mask| !passes(mask)),
        _ => masks.iter().position(|mask| !passes(mask)),
    }
}

/// The lowest set piece whose mask is not that of the lowest set piece of its unit.
pub fn first_split(masks: &[u64], of: &Judged, wrong: Mutation) -> Option<usize> {
    let mut splits = (0..masks.len()).filter(|&piece| is_split(piece, masks, of, wrong));
    match wrong {
        Mutation::LastSplitNamed => splits.next_back(),
        _ => splits.next(),
    }
}

fn is_split(piece: usize, masks: &[u64], of: &Judged, wrong: Mutation) -> bool {
    let set = |&piece: &usize| is_set(masks[piece]);
    let lowest = of.units[piece];
    let of_unit = |other: &usize| of.units[*other] == lowest && set(other);
    let like = match wrong {
        Mutation::SplitByLowest | Mutation::UnsetSplits => Some(lowest),
        Mutation::SplitSkipped => Some(lowest).filter(set),
        Mutation::SplitByHighest => (0..masks.len()).rev().find(of_unit),
        Mutation::SplitByTies => tied_to(piece, masks, of.ties),
        _ => (0..masks.len()).find(of_unit),
    };
    let asked = set(&piece) || wrong == Mutation::UnsetSplits;
    asked && like.map_or(false, |like| masks[like] != masks[piece])
}

/// A lower set piece on another mask that is tied to this one itself.
fn tied_to(piece: usize, masks: &[u64], ties: &[(usize, usize)]) -> Option<usize> {
    let lower = |&&(a, b): &&(usize, usize)| b == piece && is_set(masks[a]) && masks[a] != masks[b];
    ties.iter().find(lower).map(|&(a, _)| a)
}
