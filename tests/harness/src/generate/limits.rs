//! Texts at the ends of every range, one number at a time, and layers with the most edges and ties.
//! There is nothing random in them.

use crate::layer::{Layer, Piece, Settings};

/// A change of one number of a layer.
type Change = fn(&mut Layer, u64);

/// Each number that a text holds, with the ends of its range.
const NUMBERS: [(Change, u64, u64); 10] = [
    (|layer, value| layer.settings.masks = value, 2, 8),
    (|layer, value| layer.settings.spacing = value, 1, 100_000),
    (|layer, value| layer.settings.margin = value, 1, 100_000),
    (|layer, value| layer.settings.weight = value, 1, 1_000),
    (
        |layer, value| layer.settings.budget = value,
        0,
        1_000_000_000,
    ),
    (|layer, value| layer.pieces[1].shape = value, 0, 511),
    (|layer, value| layer.pieces[1].x1 = value, 0, 1_000_000),
    (|layer, value| layer.pieces[1].y1 = value, 0, 1_000_000),
    (|layer, value| layer.pieces[1].x2 = value, 0, 1_000_000),
    (|layer, value| layer.pieces[1].y2 = value, 0, 1_000_000),
];

pub fn at_limits() -> Vec<Vec<u8>> {
    let mut texts = Vec::new();
    for (change, least, greatest) in NUMBERS {
        for value in around(least, greatest) {
            let mut layer = row(4);
            change(&mut layer, value);
            texts.push(layer.text());
        }
    }
    texts.extend([0, 1, 511, 512, 513, 514].map(|count| row(count).text()));
    texts.extend([(511, 512), (512, 511), (512, 513), (513, 512)].map(miscounted));
    for (masks, budget) in [(2, 0), (2, 2_000), (8, 0), (8, 2_000)] {
        texts.push(largest(heap(), masks, budget).text());
        texts.push(largest(sheet(), masks, budget).text());
        texts.extend(most_tied().map(|pieces| tied(pieces, masks, budget).text()));
    }
    texts
}

/// The ends of a range, what lies beside them, and what becomes them when cut to 32 bits.
pub fn around(least: u64, greatest: u64) -> Vec<u64> {
    let wrapped = 1 << 32;
    vec![
        least.saturating_sub(1),
        least,
        least + 1,
        greatest - 1,
        greatest,
        greatest + 1,
        wrapped - 1,
        wrapped + least,
        wrapped + greatest,
        u64::MAX,
    ]
}

/// Squares in a row, each in conflict with the next.
pub fn row(count: u64) -> Layer {
    let square = |shape| Piece {
        shape: shape % 512,
        x1: 40 * shape,
        y1: 0,
        x2: 40 * shape + 20,
        y2: 20,
        fixed: None,
    };
    Layer {
        settings: Settings {
            masks: 2,
            spacing: 50,
            margin: 10,
            weight: 10,
            budget: 100,
        },
        pieces: (0..count).map(square).collect(),
    }
}

/// A unit of pieces 0, 3 and 2, the ties in this order. Piece 1 is in conflict with all others, and piece
/// 4 has stitch edges to pieces 0 and 3.
pub fn knot() -> Layer {
    let piece = |[shape, x1, y1]: [u64; 3]| Piece {
        shape,
        x1,
        y1,
        x2: x1 + 20,
        y2: y1 + 20,
        fixed: None,
    };
    let corners = [[0, 0, 0], [1, 60, 60], [0, 40, 22], [0, 20, 11], [0, 0, 20]];
    Layer {
        settings: Settings {
            masks: 2,
            spacing: 80,
            margin: 10,
            weight: 7,
            budget: 0,
        },
        pieces: corners.map(piece).to_vec(),
    }
}

/// A text that states one number of pieces and has another.
fn miscounted((stated, there): (u64, u64)) -> Vec<u8> {
    let text = String::from_utf8(row(there).text()).expect("a layer text is ASCII");
    let (right, wrong) = (format!("pieces={there}\n"), format!("pieces={stated}\n"));
    text.replace(&right, &wrong).into_bytes()
}

/// As many conflict edges as there can be: all pieces in one place.
pub fn heap() -> Vec<Piece> {
    (0..512).map(Piece::at_corner).collect()
}

/// Stitch edges only: one shape in 16 rows of 32 cells.
pub fn sheet() -> Vec<Piece> {
    let cell = |number: u64| Piece {
        shape: 0,
        x1: number % 32,
        y1: number / 32,
        x2: number % 32 + 1,
        y2: number / 32 + 1,
        fixed: None,
    };
    (0..512).map(cell).collect()
}

/// As many ties as there can be, the longest chains of them, numbered from either end and without order,
/// and units with as many edges between them as there can be.
fn most_tied() -> [Vec<Piece>; 6] {
    [
        sheet(),
        chain(|number| number),
        chain(|number| 511 - number),
        chain(|number| 205 * number % 512),
        chains(2),
        chains(3),
    ]
}

/// A piece of a chain in which each is tied to the next: a square of 2 nm that touches the one before
/// along 1 nm.
fn link(shape: u64, position: u64) -> Piece {
    Piece {
        shape,
        x1: 2 * position,
        y1: position % 2,
        x2: 2 * position + 2,
        y2: position % 2 + 2,
        fixed: None,
    }
}

/// A chain of 512 pieces, with the position of each number.
pub fn chain(position: impl Fn(u64) -> u64) -> Vec<Piece> {
    (0..512).map(|number| link(0, position(number))).collect()
}

/// Chains in one place, numbered in turn.
pub fn chains(shapes: u64) -> Vec<Piece> {
    (0..512)
        .map(|number| link(number % shapes, number / shapes))
        .collect()
}

/// A contact of 1 nm ties.
pub fn tied(pieces: Vec<Piece>, masks: u64, budget: u64) -> Layer {
    let mut layer = largest(pieces, masks, budget);
    layer.settings.margin = 2;
    layer
}

pub fn largest(pieces: Vec<Piece>, masks: u64, budget: u64) -> Layer {
    Layer {
        settings: Settings {
            masks,
            spacing: 100_000,
            margin: 1,
            weight: 1_000,
            budget,
        },
        pieces,
    }
}
