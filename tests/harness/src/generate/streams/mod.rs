//! Streams of layers, whole ones and damaged ones.

mod damage;
mod limits;
mod number;
mod optional;
mod sizes;
mod unit;

use super::free_layer;
use crate::input::Input;
use crate::layer::{Layer, Piece};
use crate::random::Random;
use crate::stream::{
    Record, Stream, BGNLIB, BGNSTR, BOUNDARY, DATATYPE, ENDEL, ENDLIB, ENDSTR, HEADER, LAYER,
    LIBNAME, PROPATTR, PROPVALUE, STRNAME, UNITS, XY,
};
pub use damage::damaged_stream;
pub use limits::streams_at_limits;

/// The first real of UNITS as most programs write it: a nanometre in user units of 1 µm.
const USER_UNIT: [u8; 8] = [0x3E, 0x41, 0x89, 0x37, 0x4B, 0xC6, 0xA7, 0xF0];

/// Five points.
type Path = [(i64, i64); 5];

/// A layer's settings text and a stream of its pieces, with all that may differ chosen at random.
pub fn whole_stream(random: &mut Random, layer: &Layer) -> Input<Vec<u8>> {
    let stream = any_stream(random, layer).bytes();
    pair(settings_text(layer), stream)
}

fn pair(settings: Vec<u8>, stream: Vec<u8>) -> Input<Vec<u8>> {
    Input::Stream { settings, stream }
}

/// The settings alone, as a layer text without pieces.
fn settings_text(layer: &Layer) -> Vec<u8> {
    let settings = layer.settings;
    let pieces = Vec::new();
    Layer { settings, pieces }.text()
}

/// A stream of the pieces, with all that may differ chosen at random.
fn any_stream(random: &mut Random, layer: &Layer) -> Stream {
    let mut user_unit = USER_UNIT;
    if random.once_in(2) {
        user_unit = random.next().to_be_bytes();
    }
    let units = [user_unit, unit::any_unit(random)].concat();
    let header = [
        Record::new(HEADER, &random_bytes(random, 2)),
        Record::new(BGNLIB, &random_bytes(random, 24)),
        Record::new(LIBNAME, &any_name(random)),
        Record::new(UNITS, &units),
        Record::new(BGNSTR, &random_bytes(random, 24)),
        Record::new(STRNAME, &any_name(random)),
    ];
    let mut records = header.to_vec();
    for piece in &layer.pieces {
        let path = any_path(random, piece);
        let mut element = element(&path, &number::digits(piece.shape));
        element[1].data = random_bytes(random, 2);
        element[2].data = random_bytes(random, 2);
        records.extend(element);
    }
    records.push(Record::new(ENDSTR, &[]));
    records.push(Record::new(ENDLIB, &[]));
    let zeros = random.pick(&[0, 0, 0, 1, 2, 3, 5, 8, 64, 2048]);
    let after = vec![0; zeros];
    Stream { records, after }
}

/// A stream of the pieces in which everything is the plainest.
fn plain_stream(pieces: &[Piece]) -> Stream {
    let units = [USER_UNIT, unit::NANOMETRE].concat();
    let mut records = vec![
        Record::new(HEADER, &[0x02, 0x58]),
        Record::new(BGNLIB, &[0; 24]),
        Record::new(LIBNAME, b"LIBRARY\0"),
        Record::new(UNITS, &units),
        Record::new(BGNSTR, &[0; 24]),
        Record::new(STRNAME, b"TOP\0"),
    ];
    for piece in pieces {
        records.extend(element(&path(piece), &number::digits(piece.shape)));
    }
    records.push(Record::new(ENDSTR, &[]));
    records.push(Record::new(ENDLIB, &[]));
    let after = Vec::new();
    Stream { records, after }
}

fn element(path: &Path, value: &[u8]) -> Vec<Record> {
    vec![
        Record::new(BOUNDARY, &[]),
        Record::new(LAYER, &[0, 1]),
        Record::new(DATATYPE, &[0, 0]),
        Record::new(XY, &points(path)),
        Record::new(PROPATTR, &[0, 1]),
        Record::new(PROPVALUE, value),
        Record::new(ENDEL, &[]),
    ]
}

/// The data of XY.
fn points(path: &[(i64, i64)]) -> Vec<u8> {
    let number = |value: i64| (value as i32).to_be_bytes();
    let point = |&(x, y): &(i64, i64)| [number(x), number(y)].concat();
    path.iter().flat_map(point).collect()
}

/// The corners of a piece against the clock, from the lowest.
fn corners(piece: &Piece) -> [(i64, i64); 4] {
    let [x1, y1, x2, y2] = [piece.x1, piece.y1, piece.x2, piece.y2].map(|value| value as i64);
    [(x1, y1), (x2, y1), (x2, y2), (x1, y2)]
}

fn path(piece: &Piece) -> Path {
    let [a, b, c, d] = corners(piece);
    [a, b, c, d, a]
}

/// The path from any corner on, in either direction.
fn any_path(random: &mut Random, piece: &Piece) -> Path {
    let mut corners = corners(piece);
    corners.rotate_left(random.index(4));
    if random.once_in(2) {
        corners.reverse();
    }
    let [a, b, c, d] = corners;
    [a, b, c, d, a]
}

/// A name of any even length; long ones are rare.
fn any_name(random: &mut Random) -> Vec<u8> {
    let most = random.pick(&[0, 1, 4, 4, 16, 16, 22, 60]);
    let pairs = random.between(0, most) as usize;
    match random.below(3) {
        0 => random_bytes(random, 2 * pairs),
        1 => b"NAME".iter().copied().cycle().take(2 * pairs).collect(),
        _ => vec![0; 2 * pairs],
    }
}

fn random_bytes(random: &mut Random, count: usize) -> Vec<u8> {
    (0..count).map(|_| random.next() as u8).collect()
}

/// A layer of few pieces whose search ends soon.
fn short_layer(random: &mut Random) -> Layer {
    let most = random.pick(&[1, 3, 3, 8, 8, 40]);
    let count = random.between(0, most) as usize;
    free_layer(random, count).with_budget(random.below(500))
}
