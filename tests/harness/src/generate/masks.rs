//! Masks that somebody could have set by hand: half done, or splitting a unit, or out of range, or too
//! few or too many.

use crate::layer::Layer;
use crate::random::Random;
use crate::reference::{self, is_set, mask_lines, UNSET};

/// Numbers at the ends of ranges and of words, and those that become 254 or 255 when cut.
const TELLING: [u128; 22] = [
    8,
    9,
    253,
    254,
    254,
    254,
    256,
    257,
    510,
    511,
    65_535,
    65_536 + 255,
    (1 << 31) - 1,
    (1 << 32) - 1,
    1 << 32,
    (1 << 32) + 255,
    (1 << 63) + 255,
    (1 << 64) - 1,
    1 << 64,
    (1 << 64) + 255,
    (1 << 64) + (1 << 32) + 1,
    u128::MAX,
];

/// The most bytes that a mask file may have.
const LONGEST_TEXT: usize = 65_536;

/// The mask lines of a list for a layer. Most lists are half done and in order.
pub fn any_masks(random: &mut Random, layer: &Layer) -> Vec<u8> {
    let units = reference::units_of(layer);
    let limit = layer.settings.masks;
    let mut masks = keeping_ties(random, &units, limit);
    if random.once_in(2) {
        keep_fixed(layer, &units, &mut masks);
    }
    leave_unset(random, &units, &mut masks);
    if random.once_in(3) {
        split_units(random, &units, limit, &mut masks);
    }
    let mut numbers: Vec<String> = masks.iter().map(u64::to_string).collect();
    if random.once_in(5) {
        put_out_of_range(random, limit, &mut numbers);
    }
    if random.once_in(12) {
        change_length(random, &mut numbers);
    }
    text(&numbers)
}

/// Mask lines for a layer that is refused.
pub fn stray_masks(random: &mut Random) -> Vec<u8> {
    let count = random.of_any_size(600);
    let number = |_| match random.below(3) {
        0 => UNSET.to_string(),
        1 => random.below(9).to_string(),
        _ => random.pick(&TELLING).to_string(),
    };
    text(&(0..count).map(number).collect::<Vec<_>>())
}

/// One mask for each unit. Where few are in use, there are many conflicts.
pub fn keeping_ties(random: &mut Random, units: &[usize], limit: u64) -> Vec<u64> {
    let in_use = random.between(1, limit);
    let first = random.below(limit);
    let of_units: Vec<u64> = (units.iter())
        .map(|_| (first + random.below(in_use)) % limit)
        .collect();
    units.iter().map(|&unit| of_units[unit]).collect()
}

/// Gives each unit the mask that it is fixed to.
fn keep_fixed(layer: &Layer, units: &[usize], masks: &mut [u64]) {
    for (number, piece) in layer.pieces.iter().enumerate() {
        if let Some(fixed) = piece.fixed {
            let of_unit = (0..masks.len()).filter(|&other| units[other] == units[number]);
            of_unit.for_each(|other| masks[other] = fixed);
        }
    }
}

/// Takes back the masks of some pieces, of all or of none.
pub fn leave_unset(random: &mut Random, units: &[usize], masks: &mut [u64]) {
    let pieces = masks.len();
    if pieces == 0 {
        return;
    }
    let (one, of_eight) = (random.index(pieces), random.pick(&[1, 4, 7]));
    let chosen: Vec<bool> = (0..pieces).map(|_| random.below(8) < of_eight).collect();
    let kind = random.below(8);
    let unset = |piece: usize| match kind {
        0 => false,
        1 => true,
        2 => piece != one,
        3 => piece == one,
        4 => units[piece] == piece,
        5 => units[piece] == piece || chosen[piece],
        6 => chosen[units[piece]],
        _ => chosen[piece],
    };
    let each = masks.iter_mut().enumerate();
    each.filter(|(piece, _)| unset(*piece))
        .for_each(|(_, mask)| *mask = UNSET);
}

/// Gives some set pieces that are not the only ones of their units another mask.
pub fn split_units(random: &mut Random, units: &[usize], limit: u64, masks: &mut [u64]) {
    let mut set = vec![0; masks.len()];
    let of_set = (0..masks.len()).filter(|&piece| is_set(masks[piece]));
    let of_set: Vec<usize> = of_set.collect();
    of_set.iter().for_each(|&piece| set[units[piece]] += 1);
    let shared = of_set.into_iter().filter(|&piece| set[units[piece]] > 1);
    let shared: Vec<usize> = shared.collect();
    if shared.is_empty() {
        return;
    }
    for _ in 0..random.pick(&[1, 1, 2, 4]) {
        let piece = random.pick(&shared);
        masks[piece] = (masks[piece] + random.between(1, limit - 1)) % limit;
    }
}

fn put_out_of_range(random: &mut Random, limit: u64, numbers: &mut [String]) {
    if numbers.is_empty() {
        return;
    }
    for _ in 0..random.pick(&[1, 1, 1, 2, 3]) {
        let at = random.index(numbers.len());
        numbers[at] = match random.below(8) {
            0 | 1 => (limit + random.below(2)).to_string(),
            2 => "255".repeat(random.of_any_size(5_000).max(2) as usize),
            _ => random.pick(&TELLING).to_string(),
        };
    }
}

/// One too few, one too many, none, or far too many.
fn change_length(random: &mut Random, numbers: &mut Vec<String>) {
    let more = random.pick(&["0", "1", "254", "255"]).to_string();
    match random.below(8) {
        0 | 1 => drop(numbers.pop()),
        2 | 3 => numbers.push(more),
        4 => numbers.clear(),
        5 => numbers.resize(513, more),
        6 => numbers.resize(numbers.len() + 256, more),
        _ => numbers.resize(LONGEST_TEXT, more),
    }
}

/// The lines, as many as there is room for.
fn text(numbers: &[String]) -> Vec<u8> {
    let mut text = Vec::new();
    for number in numbers {
        let line = format!("mask={number}\n");
        if text.len() + line.len() > LONGEST_TEXT {
            break;
        }
        text.extend(line.into_bytes());
    }
    text
}

/// How many lists `plain_masks` gives.
pub const PLAIN_LISTS: usize = 11;

/// Lists with nothing random for a layer of so many pieces.
pub fn plain_masks(pieces: usize, limit: u64) -> Vec<Vec<u8>> {
    let last = pieces.wrapping_sub(1);
    let lists: [&dyn Fn(usize) -> u64; 9] = [
        &|_| 0,
        &|_| UNSET,
        &|piece| piece as u64 % limit,
        &|piece| if piece == last { UNSET } else { limit - 1 },
        &|piece| if piece == last { limit - 1 } else { UNSET },
        &|piece| [UNSET, 0, 1][usize::from(piece > 0) + usize::from(piece == last)],
        &|piece| if piece < pieces / 2 { UNSET } else { 1 },
        &|piece| if piece == last { 254 } else { UNSET },
        &|piece| if piece == last { limit } else { 0 },
    ];
    let list = |count: usize, mask: &dyn Fn(usize) -> u64| {
        let masks: Vec<u64> = (0..count).map(mask).collect();
        mask_lines(&masks).into_bytes()
    };
    let mut texts: Vec<Vec<u8>> = lists.map(|mask| list(pieces, mask)).to_vec();
    texts.extend([pieces + 1, last.min(pieces)].map(|count| list(count, &|_| UNSET)));
    texts
}
