//! Makes a layer and its masks smaller while their difference stays.

use super::Given;
use crate::layer::{Layer, Piece};
use crate::reference::{self, Mutation};
use crate::shrink::{fewer, lines, smallest_text};

/// Removes pieces with their masks, then parts of either text, and lowers numbers of the layer.
pub fn smallest(start: &Given, differs: &dyn Fn(&Given) -> bool) -> Given {
    let mut given = start.clone();
    loop {
        let before = given.clone();
        given = fewer_pieces(&given, differs);
        let masks = given.masks.clone();
        given.layer = smallest_text(&given.layer, &|layer| differs(&pair(layer, &masks)));
        let layer = given.layer.clone();
        let still = |masks: &[&[u8]]| differs(&pair(&layer, &masks.concat()));
        given.masks = fewer(&lines(&given.masks), &still).concat();
        if given == before {
            return given;
        }
    }
}

fn pair(layer: &[u8], masks: &[u8]) -> Given {
    Given {
        layer: layer.to_vec(),
        masks: masks.to_vec(),
    }
}

/// Leaves out pieces and their masks together, where each piece has one.
fn fewer_pieces(given: &Given, differs: &dyn Fn(&Given) -> bool) -> Given {
    let layer = match reference::read(&given.layer, Mutation::None) {
        Ok(layer) => layer,
        Err(_) => return given.clone(),
    };
    let masks = lines(&given.masks);
    if masks.len() != layer.pieces.len() {
        return given.clone();
    }
    let both: Vec<(Piece, &[u8])> = layer.pieces.into_iter().zip(masks).collect();
    let of = |both: &[(Piece, &[u8])]| {
        let settings = layer.settings;
        let pieces = both.iter().map(|(piece, _)| *piece).collect();
        let masks: Vec<&[u8]> = both.iter().map(|(_, mask)| *mask).collect();
        pair(&Layer { settings, pieces }.text(), &masks.concat())
    };
    of(&fewer(&both, &|both| differs(&of(both))))
}

#[cfg(test)]
mod tests {
    use super::*;
    use crate::layer::Settings;

    #[test]
    fn pieces_go_with_their_masks() {
        let settings = Settings {
            masks: 3,
            spacing: 80,
            margin: 10,
            weight: 10,
            budget: 7,
        };
        let pieces = (0..40).map(Piece::at_corner).collect();
        let masks: Vec<u64> = (0..40)
            .map(|piece| if piece == 31 { 255 } else { 1 })
            .collect();
        let start = Given {
            layer: Layer { settings, pieces }.text(),
            masks: reference::mask_lines(&masks).into_bytes(),
        };
        let differs = |given: &Given| {
            let masks = String::from_utf8_lossy(&given.masks).into_owned();
            let read = reference::read(&given.layer, Mutation::None);
            let pieces = read.map_or(0, |layer| layer.pieces.len());
            masks.contains("255") && masks.lines().count() == pieces
        };
        let found = smallest(&start, &differs);
        let layer =
            b"masks=2\nspacing=1\nmargin=1\nweight=1\nbudget=0\npieces=1\npiece=0,0,0,1,1\n";
        assert_eq!(found, pair(layer, b"mask=255\n"));
    }
}
