//! Searches whose repeated subtrees are known, on every number of masks. There is nothing random in them.
//!
//! A ring of four stitched bars is not peeled, and costs nothing on one mask. Its far bar comes early, and
//! the bars that touch it come late. In between are units that cost as much as the first assignment, whatever
//! the ring has: so each mask of the far bar has the same subtree, and the search ends with the last of them.

use crate::layer::{Layer, Piece, Settings};

/// The lengths of a ring: the spacing, and the width of a bar, along which two bars touch.
#[derive(Clone, Copy)]
struct Scale {
    spacing: u64,
    width: u64,
}

const SCALE: Scale = Scale {
    spacing: 80,
    width: 20,
};
const MARGIN: u64 = 10;

/// From one component to the next.
const APART: u64 = 1_000;

/// What costs as much as the first assignment.
#[derive(Clone, Copy)]
enum Cost {
    /// One unit more than there are masks, all in conflict; the last of them comes after the far bars.
    Pile,
    /// Two units in conflict that are fixed to mask 1, after the far bars.
    Fixed,
}

/// Layers for every budget. Some have two components, or tied units with doubled edges.
pub fn rings() -> Vec<Layer> {
    let of_masks = |masks: u64| {
        let component = |cost, rings, tied| SCALE.component(masks, cost, rings, tied);
        let [one, two] = [
            component(Cost::Fixed, 1, false),
            component(Cost::Pile, 1, true),
        ];
        [
            layer(masks, &[component(Cost::Pile, 1, false)]),
            layer(masks, &[component(Cost::Pile, 2, true)]),
            layer(masks, &[component(Cost::Fixed, 2, true)]),
            layer(masks, &[one, two]),
        ]
    };
    (2..=8).flat_map(of_masks).collect()
}

/// Layers whose search takes several thousand steps.
pub fn many_rings() -> Vec<Layer> {
    let counts = [11, 7, 5, 4, 4, 3, 3];
    let of_masks =
        |(masks, rings)| layer(masks, &[SCALE.component(masks, Cost::Pile, rings, true)]);
    (2..=8).zip(counts).map(of_masks).collect()
}

/// The pieces of a component with a ring, by the settings of a layer.
pub fn with_ring(settings: &Settings) -> Vec<Piece> {
    let scale = Scale {
        spacing: settings.spacing,
        width: settings.margin,
    };
    scale.component(settings.masks, Cost::Pile, 1, false)
}

fn layer(masks: u64, components: &[Vec<Piece>]) -> Layer {
    let settings = Settings {
        masks,
        spacing: SCALE.spacing,
        margin: MARGIN,
        weight: 10,
        budget: 0,
    };
    let mut pieces = Vec::new();
    for (number, component) in (0..).zip(components) {
        pieces.extend(component.iter().map(|piece| Piece {
            shape: piece.shape + 100 * number,
            y1: piece.y1 + APART * number,
            y2: piece.y2 + APART * number,
            ..*piece
        }));
    }
    Layer { settings, pieces }
}

impl Scale {
    /// So many rings, each just near enough for a conflict to a long bar below them, and to nothing else.
    fn component(self, masks: u64, cost: Cost, rings: u64, tied: bool) -> Vec<Piece> {
        let width = self.width;
        let pitch = 6 * width + self.spacing;
        let square = |shape: u64| piece(shape, [0, 0, width, width]);
        let bar = |shape: u64| piece(shape, [0, 1, rings * pitch, width + 1]);
        let fixed = |piece: Piece| Piece {
            fixed: Some(1),
            ..piece
        };
        let (before, after) = match cost {
            Cost::Pile => {
                // Mask 0 is that of the rings in the first assignment, so the bar is not to have it.
                let pile = (0..masks).map(|n| if n == 1 { bar(n) } else { square(n) });
                (pile.collect(), vec![square(masks)])
            }
            Cost::Fixed => (Vec::new(), vec![fixed(bar(0)), fixed(square(1))]),
        };
        let ring = |number: u64| self.ring(10 + number, number * pitch, tied);
        let rings: Vec<Vec<Piece>> = (0..rings).map(ring).collect();
        let far = rings.iter().map(|ring| ring[0]).collect();
        let near = rings.iter().flat_map(|ring| ring[1..].to_vec()).collect();
        [before, far, after, near].concat()
    }

    /// The far bar, those at its ends, and the near bar; with a tie, a piece more that is as near.
    fn ring(self, shape: u64, x: u64, tied: bool) -> Vec<Piece> {
        let width = self.width;
        let y = width + self.spacing;
        let (right, top) = (x + 5 * width, y + 5 * width);
        let mut ring = vec![
            piece(shape, [x, top - width, right, top]),
            piece(shape, [x, y + width, x + width, top - width]),
            piece(shape, [right - width, y + width, right, top - width]),
            piece(shape, [x, y, right, y + width]),
        ];
        if tied {
            ring.push(piece(shape, [right, y, right + width, y + MARGIN - 1]));
        }
        ring
    }
}

fn piece(shape: u64, [x1, y1, x2, y2]: [u64; 4]) -> Piece {
    Piece {
        shape,
        x1,
        y1,
        x2,
        y2,
        fixed: None,
    }
}
