//! The five points of an XY record, and the rectangle that they go around.

use super::mutation::Mutation;

pub struct Polygon([(i64, i64); 5]);

impl Polygon {
    /// The points of the data, big-endian and signed, if there are five.
    pub fn of(data: &[u8], wrong: Mutation) -> Option<Polygon> {
        let number = |bytes: &[u8]| {
            let bytes = [bytes[0], bytes[1], bytes[2], bytes[3]];
            match wrong {
                Mutation::LittleEndian => i64::from(i32::from_le_bytes(bytes)),
                _ => i64::from(i32::from_be_bytes(bytes)),
            }
        };
        let point = |bytes: &[u8]| (number(&bytes[..4]), number(&bytes[4..]));
        let points: Vec<(i64, i64)> = data.chunks_exact(8).map(point).collect();
        points.try_into().ok().map(Polygon)
    }

    /// X1, Y1, X2 and Y2, if the points go once around a rectangle and back to the first.
    pub fn rectangle(&self, wrong: Mutation) -> Option<[i64; 4]> {
        let xs = self.0.map(|point| point.0);
        let ys = self.0.map(|point| point.1);
        let [x1, y1] = [xs, ys].map(|values| values.into_iter().fold(i64::MAX, i64::min));
        let [x2, y2] = [xs, ys].map(|values| values.into_iter().fold(i64::MIN, i64::max));
        let area = match wrong {
            Mutation::ThereAndBack => i128::from(x2 - x1) * i128::from(y2 - y1),
            Mutation::OneWayRound => self.twice_area().max(0),
            _ => self.twice_area(),
        };
        let closed = self.0[0] == self.0[4] || wrong == Mutation::OpenPath;
        let from_corner = self.0[0] == (x1, y1) || wrong != Mutation::LeastCornerFirst;
        let fits = closed && from_corner && self.is_along_axes(wrong) && area != 0;
        fits.then_some([x1, y1, x2, y2])
    }

    fn is_along_axes(&self, wrong: Mutation) -> bool {
        let sides = self.0.windows(2);
        let slanted = sides.filter(|side| side[0].0 != side[1].0 && side[0].1 != side[1].1);
        slanted.count() == 0 || wrong == Mutation::SlantedSides
    }

    /// The sum over the sides, below zero where they go clockwise. Paths without area have 0.
    fn twice_area(&self) -> i128 {
        let wide = |value: i64| i128::from(value);
        let side = |side: &[(i64, i64)]| {
            wide(side[0].0) * wide(side[1].1) - wide(side[1].0) * wide(side[0].1)
        };
        self.0.windows(2).map(side).sum()
    }
}
