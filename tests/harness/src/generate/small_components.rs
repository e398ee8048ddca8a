//! Small components far from each other, mostly on three masks. Each is a cross of a middle and four arms, or
//! some of them, in which all are in conflict but for arms that lie opposite and far enough apart. Some are
//! joined by stitch edges or several edges, have fixed masks, or have pieces beside them that are peeled.

use super::weight;
use crate::layer::{Layer, Piece, Settings};
use crate::random::Random;

/// The lengths of a layer, by the side of a piece: the spacing is four times as much, the margin half of it.
#[derive(Clone, Copy)]
pub struct Scale {
    pub side: u64,
}

/// A rectangle by its ends along X and along Y.
pub type Ends = [[u64; 2]; 2];

/// The places in a cross: the arms with their axis and their end of it, and the middle.
pub const ARMS: [(usize, usize); 4] = [(0, 0), (0, 1), (1, 0), (1, 1)];
const MIDDLE: usize = 4;

impl Scale {
    pub fn spacing(self) -> u64 {
        4 * self.side
    }

    fn margin(self) -> u64 {
        self.side / 2
    }

    pub fn settings(self, masks: u64, weight: u64) -> Settings {
        Settings {
            masks,
            spacing: self.spacing(),
            margin: self.margin(),
            weight,
            budget: 0,
        }
    }

    /// From one cross to the next. All that is put to a cross is within half of it.
    fn pitch(self) -> u64 {
        10 * self.spacing()
    }

    /// The arms of ARMS and the middle. Opposite arms have these gaps between them.
    pub fn cross(self, gaps: [u64; 2]) -> [Ends; 5] {
        let low = 4 * self.spacing();
        let from = |gap: u64| {
            [
                low,
                low + self.side + (gap - self.side) / 2,
                low + self.side + gap,
            ]
        };
        let at = |x: usize, y: usize| {
            let (x1, y1) = (from(gaps[0])[x], from(gaps[1])[y]);
            [[x1, x1 + self.side], [y1, y1 + self.side]]
        };
        [at(0, 1), at(2, 1), at(1, 0), at(1, 2), at(1, 1)]
    }

    /// Lengthens an arm, so that what lies at its end is far from the rest of the cross, and hands over a
    /// piece that touches the end. With a tie it does so along less than the margin.
    pub fn tail(self, arm: &mut Ends, (axis, end): (usize, usize), tied: bool) -> Ends {
        let outwards =
            |from: u64, length: u64| [from - length * (1 - end as u64), from + length * end as u64];
        arm[axis][end] = outwards(arm[axis][end], self.spacing())[end];
        let mut tail = *arm;
        tail[axis] = outwards(arm[axis][end], self.side);
        if tied {
            self.shift(&mut tail[1 - axis]);
        }
        tail
    }

    /// A narrow piece between a tied tail and its arm: tied to the arm, and with a stitch edge to the tail.
    pub fn wedge(self, tail: &Ends, (axis, _): (usize, usize)) -> Ends {
        let across = tail[1 - axis][0];
        let mut wedge = *tail;
        wedge[1 - axis] = [across + 1 - self.margin(), across];
        wedge
    }

    /// A piece beside the end of a lengthened arm, near its tail too.
    pub fn beside(self, arm: &Ends, (axis, end): (usize, usize)) -> Ends {
        let (along, across) = (arm[axis][end], arm[1 - axis][1] + 2 * self.side);
        let mut beside = [[across, across + self.side]; 2];
        beside[axis] = [along - self.margin(), along + self.margin()];
        beside
    }

    /// Takes half of a piece away and hands it over, either to be stitched or tied.
    pub fn half(self, piece: &mut Ends, axis: usize, tied: bool) -> Ends {
        let mut half = *piece;
        let middle = piece[axis][0] + self.side / 2;
        piece[axis][1] = middle;
        half[axis][0] = middle;
        if tied {
            self.shift(&mut half[1 - axis]);
        }
        half
    }

    /// Moves a piece by so much that one less than the margin is left to touch.
    fn shift(self, ends: &mut [u64; 2]) {
        let by = self.side + 1 - self.margin();
        *ends = ends.map(|end| end + by);
    }
}

pub fn piece(shape: u64, [[x1, x2], [y1, y2]]: Ends) -> Piece {
    Piece {
        shape,
        x1,
        y1,
        x2,
        y2,
        fixed: None,
    }
}

/// Components so far from each other that nothing is between them, each with shapes of its own.
pub fn in_a_row(scale: Scale, settings: Settings, components: &[Vec<Piece>]) -> Layer {
    let mut pieces = Vec::new();
    for (number, component) in (0..).zip(components) {
        pieces.extend(component.iter().map(|piece| Piece {
            shape: piece.shape + 10 * number,
            x1: piece.x1 + number * scale.pitch(),
            x2: piece.x2 + number * scale.pitch(),
            ..*piece
        }));
    }
    Layer { settings, pieces }
}

/// Up to three crosses and what is put to them, with a budget of 0.
pub fn small_components(random: &mut Random) -> Layer {
    let side = random.pick(&[20, 20, 20, 4, 6, 50]);
    let scale = Scale { side };
    let masks = random.pick(&[3, 3, 3, 3, 3, 3, 2, 4]);
    let settings = scale.settings(masks, weight(random));
    let count = random.between(1, 3);
    let components: Vec<_> = (0..count)
        .map(|_| component(random, scale, masks))
        .collect();
    let mut layer = in_a_row(scale, settings, &components);
    if random.once_in(3) {
        random.shuffle(&mut layer.pieces);
    }
    layer
}

/// A cross, whole or without one of its pieces, numbered in any order.
fn component(random: &mut Random, scale: Scale, masks: u64) -> Vec<Piece> {
    let gaps = [0; 2].map(|_| scale.spacing() - random.below(2));
    let mut ends = scale.cross(gaps);
    let arm = random.index(ARMS.len());
    let changed = random.index(ends.len());
    let axis = random.index(2);
    let tied = random.once_in(2);
    let mut more = Vec::new();
    match random.below(8) {
        0 | 1 => {
            let tail = scale.tail(&mut ends[arm], ARMS[arm], tied);
            more.push((arm, tail));
            if tied && random.once_in(2) {
                more.push((arm, scale.wedge(&tail, ARMS[arm])));
            }
            if random.once_in(2) {
                more.push((ends.len(), scale.beside(&ends[arm], ARMS[arm])));
            }
        }
        2 => more.push((changed, scale.half(&mut ends[changed], axis, tied))),
        3 => more.push((ends.len(), ends[MIDDLE])),
        _ => {}
    }
    let all = ends.iter().copied().enumerate().chain(more);
    let mut pieces: Vec<Piece> = all.map(|(n, ends)| piece(n as u64, ends)).collect();
    if random.once_in(3) {
        pieces.remove(random.index(ends.len()));
    }
    if random.once_in(8) {
        let fixed = random.index(pieces.len());
        pieces[fixed].fixed = Some(random.below(masks));
    }
    random.shuffle(&mut pieces);
    pieces
}
