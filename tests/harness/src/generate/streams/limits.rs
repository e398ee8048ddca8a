//! Streams at the ends of every range, one thing at a time. There is nothing random in them.

use super::optional::optional;
use super::sizes::{counts, rooms, settings_texts, sizes};
use super::{corners, number, pair, path, plain_stream, points, settings_text, unit, Path};
use crate::generate::limits::row;
use crate::input::Input;
use crate::layer::Piece;
use crate::stream::{
    Kind, Record, Stream, BEFORE_ELEMENTS, IN_ELEMENT, PROPATTR, PROPVALUE, UNITS, XY,
};

/// Each with the size of its result buffer.
pub fn streams_at_limits() -> Vec<(Input<Vec<u8>>, usize)> {
    let mut streams: Vec<Vec<u8>> = Vec::new();
    streams.extend(cuts());
    streams.extend(bits());
    streams.extend(records().iter().map(Stream::bytes));
    streams.extend(optional_records().iter().map(Stream::bytes));
    streams.extend(units().iter().map(Stream::bytes));
    streams.extend(paths().map(|path| with(XY, &points(&path)).bytes()));
    streams.extend(coordinates().map(|data| with(XY, &data).bytes()));
    let value = |value: &Vec<u8>| with(PROPVALUE, value).bytes();
    streams.extend(number::telling().iter().map(value));
    let attribute = |number: u16| with(PROPATTR, &number.to_be_bytes()).bytes();
    streams.extend([0, 2, 126, 256, 257, 0x8001].map(attribute));
    streams.extend(two_faults().iter().map(Stream::bytes));
    streams.extend(overlaps().iter().map(Stream::bytes));
    streams.extend(ends().iter().map(Stream::bytes));
    streams.extend(counts().iter().map(Stream::bytes));
    streams.extend(sizes());
    let settings = settings_text(&row(0));
    let with_settings = |stream| pair(settings.clone(), stream);
    let mut all: Vec<_> = (streams.into_iter())
        .map(|stream| (with_settings(stream), 4096))
        .collect();
    all.extend(settings_texts().into_iter().map(|input| (input, 4096)));
    all.extend(rooms());
    all
}

/// Two pieces.
pub fn small() -> Stream {
    plain_stream(&row(2).pieces)
}

/// The small stream with other data in the last record of a kind.
pub fn with(kind: Kind, data: &[u8]) -> Stream {
    let mut stream = small();
    let at = stream
        .all(kind)
        .pop()
        .expect("the small stream has all kinds");
    stream.records[at].data = data.to_vec();
    stream
}

/// The small stream up to every place, with zero bytes after it.
fn cuts() -> Vec<Vec<u8>> {
    let mut whole = small();
    whole.after = vec![0; 3];
    let whole = whole.bytes();
    (0..=whole.len())
        .map(|size| whole[..size].to_vec())
        .collect()
}

/// Every bit of the small stream changed.
fn bits() -> Vec<Vec<u8>> {
    let whole = small().bytes();
    let changed = |bit: usize| {
        let mut bytes = whole.clone();
        bytes[bit / 8] ^= 1 << (bit % 8);
        bytes
    };
    (0..8 * whole.len()).map(changed).collect()
}

/// Every record left out, doubled, exchanged with each other one, or of another length.
fn records() -> Vec<Stream> {
    let count = small().records.len();
    let mut streams = Vec::new();
    for at in 0..count {
        let record = small().records[at].clone();
        let length = record.data.len() + 4;
        streams.push(changed(|records| drop(records.remove(at))));
        streams.push(changed(|records| records.insert(at, record.clone())));
        streams.extend((0..at).map(|other| changed(|records| records.swap(at, other))));
        for size in [0, 1, 2, 4, 8, 16, 24, 32, 40, 48, 64] {
            streams.push(changed(|records| records[at].data.resize(size, 0)));
        }
        let near = [length - 2, length - 1, length + 1, length + 2];
        for stated in [0, 1, 2, 3, 0xFFFF].into_iter().chain(near) {
            streams.push(changed(|records| records[at].stated = Some(stated as u16)));
        }
    }
    streams
}

/// The small stream with its records changed.
fn changed(change: impl FnOnce(&mut Vec<Record>)) -> Stream {
    let mut stream = small();
    change(&mut stream.records);
    stream
}

/// Every record of the manual that the rules do not allow, at every place, and further ones that
/// they do: a second structure, a second library, and a second property.
fn optional_records() -> Vec<Stream> {
    let mut streams = Vec::new();
    for at in 0..=small().records.len() {
        for record in optional() {
            streams.push(changed(|records| records.insert(at, record)));
        }
    }
    let again = |from: usize, to: usize, at: usize| {
        let part = small().records[from..to].to_vec();
        changed(|records| drop(records.splice(at..at, part)))
    };
    let count = small().records.len();
    let property = BEFORE_ELEMENTS + 4;
    streams.push(again(4, count - 1, count - 1));
    streams.push(again(0, count, count));
    streams.push(again(property, property + 2, property));
    streams
}

/// The unit, and other reals in the place of the first.
fn units() -> Vec<Stream> {
    let reals = unit::at_bounds();
    let with_reals = |first: [u8; 8], second: [u8; 8]| {
        let mut stream = plain_stream(&[]);
        let at = stream.all(UNITS)[0];
        stream.records[at].data = [first, second].concat();
        stream
    };
    let seconds = reals.iter().map(|&real| with_reals(unit::NANOMETRE, real));
    let firsts = reals.iter().step_by(9);
    let firsts = firsts.map(|&real| with_reals(real, unit::NANOMETRE));
    seconds.chain(firsts).collect()
}

/// Every path over four corners, and over a point on a side in the place of one of them.
fn paths() -> impl Iterator<Item = Path> {
    let [a, b, c, d] = corners(&row(2).pieces[1]);
    let middle = ((a.0 + b.0) / 2, a.1);
    let sets = [[a, b, c, d], [middle, b, c, d], [a, b, middle, d]];
    let path = |set: [(i64, i64); 4], number: usize| {
        [1, 4, 16, 64, 256].map(|power| set[number / power % 4])
    };
    (sets.into_iter()).flat_map(move |set| (0..1024).map(move |number| path(set, number)))
}

/// The data of XY for rectangles at the ends of the range, beyond them, and of any number of
/// points.
fn coordinates() -> impl Iterator<Item = Vec<u8>> {
    let ends = [
        i64::from(i32::MIN),
        -1_000_000,
        -1,
        0,
        1,
        999_999,
        1_000_000,
        1_000_001,
        1 << 24,
        i64::from(i32::MAX),
    ];
    let rectangle = |x1: i64, x2: i64, y1: i64, y2: i64| {
        points(&[(x1, y1), (x2, y1), (x2, y2), (x1, y2), (x1, y1)])
    };
    let spans = ends
        .iter()
        .flat_map(move |&one| ends.map(|other| (one, other)));
    let spans: Vec<(i64, i64)> = spans.collect();
    let along_x = spans
        .clone()
        .into_iter()
        .map(move |(one, other)| rectangle(one, other, 0, 20));
    let along_y = spans
        .into_iter()
        .map(move |(one, other)| rectangle(0, 20, one, other));
    let around = path(&row(2).pieces[1]).repeat(2);
    let others = (0..=9).map(move |count| points(&around[..count]));
    along_x.chain(along_y).chain(others)
}

/// Two things that are wrong, of which the earlier or the graver decides: each of them in the first
/// element or before it, and each in the second or behind it.
fn two_faults() -> Vec<Stream> {
    type Fault = fn(&mut Stream, usize);
    let faults: [Fault; 8] = [
        |_, _| {},
        |stream, _| stream.records[3].data[8] ^= 0x80,
        |stream, _| stream.after = vec![1],
        |stream, element| stream.records[element + 3].data[39] ^= 1,
        |stream, element| stream.records[element + 4].data[1] ^= 2,
        |stream, element| stream.records[element + 5].data = b"512\0".to_vec(),
        |stream, element| stream.records[element + 3].data = points(&path_below_zero()),
        |stream, element| stream.records[element + 6].kind.0 ^= 1,
    ];
    let mut streams = Vec::new();
    for (one, other) in faults
        .iter()
        .flat_map(|one| faults.iter().map(move |other| (one, other)))
    {
        let mut stream = small();
        other(&mut stream, BEFORE_ELEMENTS + IN_ELEMENT);
        one(&mut stream, BEFORE_ELEMENTS);
        streams.push(stream);
    }
    streams
}

/// A piece that overlaps an earlier one, before and after one that is out of range.
fn overlaps() -> [Stream; 3] {
    let piece = row(1).pieces[0];
    let beyond = Piece {
        shape: 512,
        ..piece
    };
    [
        plain_stream(&[piece, piece]),
        plain_stream(&[piece, piece, beyond]),
        plain_stream(&[piece, beyond, piece]),
    ]
}

fn path_below_zero() -> Path {
    path(&row(1).pieces[0]).map(|(x, y)| (x - 20, y - 20))
}

/// Zero bytes and others after the last record.
fn ends() -> Vec<Stream> {
    let mut streams = Vec::new();
    for size in [0, 1, 2, 3, 4, 5, 2048] {
        let after = vec![0; size];
        streams.push(Stream { after, ..small() });
        for at in (0..size).step_by(1 + size / 5).chain(size.checked_sub(1)) {
            let mut after = vec![0; size];
            after[at] = 1;
            streams.push(Stream { after, ..small() });
        }
    }
    streams
}
