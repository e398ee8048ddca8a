//! Streams with a few faults: records, points, numbers and bytes changed in ways that a reader may
//! miss.

use super::optional::any_optional;
use super::{any_stream, number, pair, points, settings_text, short_layer, unit, Path};
use crate::generate::damage::{overlap, with_fault as with_text_fault};
use crate::input::Input;
use crate::layer::Layer;
use crate::random::Random;
use crate::reference::{self, Mutation};
use crate::stream::{Kind, Stream, PROPATTR, PROPVALUE, UNITS, XY};

/// A settings text and a stream with one to three faults, or none. What is still a layer can be
/// searched to its end in little time.
pub fn damaged_stream(random: &mut Random) -> Input<Vec<u8>> {
    loop {
        let layer = layer(random);
        let mut settings = settings_text(&layer);
        let mut stream = any_stream(random, &layer);
        let faults = random.pick(&[0, 1, 1, 1, 1, 2, 3]);
        let of_bytes = random.pick(&[0, 0, 0, 1]).min(faults);
        for _ in of_bytes..faults {
            change_record(random, &mut stream);
        }
        let mut stream = stream.bytes();
        for _ in 0..of_bytes {
            change_bytes(random, &mut stream);
        }
        if random.once_in(12) {
            settings = change_settings(random, settings);
        }
        if is_short_work(&settings, &stream) {
            return pair(settings, stream);
        }
    }
}

fn layer(random: &mut Random) -> Layer {
    let mut layer = short_layer(random);
    if random.once_in(8) {
        overlap(random, &mut layer);
    }
    layer
}

/// Refused, or of few pieces, or with a small budget.
fn is_short_work(settings: &[u8], stream: &[u8]) -> bool {
    match reference::read_stream(settings, stream, Mutation::None) {
        Ok(layer) => layer.pieces.len() <= 9 || layer.settings.budget <= 10_000,
        Err(_) => true,
    }
}

fn change_settings(random: &mut Random, mut settings: Vec<u8>) -> Vec<u8> {
    if random.once_in(2) {
        return with_text_fault(random, settings);
    }
    let count: &[u8] = random.pick(&[b"1", b"2", b"513", b"00", b"", b"4294967296", b"-0"]);
    settings.truncate(settings.len() - 2);
    settings.extend(count);
    let behind: &[&[u8]] = &[
        b"\n",
        b"\n",
        b"",
        b"\npiece=0,0,0,1,1\n",
        b"\nfixed=0,0\n",
        b"\nx",
    ];
    settings.extend(random.pick(behind));
    settings
}

fn change_record(random: &mut Random, stream: &mut Stream) {
    match random.below(24) {
        0..=2 => move_records(random, stream),
        3..=4 => insert_record(random, stream),
        5 => change_kind(random, stream),
        6..=7 => change_length(random, stream),
        8..=9 => resize(random, stream),
        10..=15 => change_path(random, stream),
        16..=17 => change_unit(random, stream),
        18..=20 => change_value(random, stream),
        21 => change_attribute(random, stream),
        _ => change_end(random, stream),
    }
}

/// Two records change places, or one is left out or doubled.
fn move_records(random: &mut Random, stream: &mut Stream) {
    let records = &mut stream.records;
    if records.is_empty() {
        return;
    }
    let (one, other) = (random.index(records.len()), random.index(records.len()));
    match random.below(4) {
        0 => records.swap(one, other),
        1 => drop(records.remove(one)),
        2 => records.insert(one, records[one].clone()),
        _ => records.insert(other, records[one].clone()),
    }
}

fn insert_record(random: &mut Random, stream: &mut Stream) {
    let at = random.index(stream.records.len() + 1);
    stream.records.insert(at, any_optional(random));
}

/// Another type or data type, often a near one.
fn change_kind(random: &mut Random, stream: &mut Stream) {
    if stream.records.is_empty() {
        return;
    }
    let at = random.index(stream.records.len());
    let Kind(number, data_type) = stream.records[at].kind;
    let bit = 1 << random.below(8);
    stream.records[at].kind = match random.below(3) {
        0 => Kind(number ^ bit, data_type),
        1 => Kind(number, data_type ^ bit),
        _ => Kind(number, random.below(7) as u8),
    };
}

/// Another stated length.
fn change_length(random: &mut Random, stream: &mut Stream) {
    if stream.records.is_empty() {
        return;
    }
    let at = random.index(stream.records.len());
    let length = (stream.records[at].data.len() + 4) as u16;
    let near = random.pick(&[1, 2, 4, 8, 0x8000, 256]);
    stream.records[at].stated = Some(match random.below(4) {
        0 => length.wrapping_add(near),
        1 => length.wrapping_sub(near),
        2 => random.pick(&[0, 1, 2, 3, 4, 5, 0x7FFF, 0x8000, 0xFFFE, 0xFFFF]),
        _ => random.next() as u16,
    });
}

/// More data or less, with the length in step.
fn resize(random: &mut Random, stream: &mut Stream) {
    if stream.records.is_empty() {
        return;
    }
    let at = random.index(stream.records.len());
    let data = &mut stream.records[at].data;
    let by = random.pick(&[1, 2, 2, 4, 8]);
    let fill = random.pick(&[0, b'1', 0xFF]);
    let size = match random.below(2) {
        0 => data.len() + by,
        _ => data.len() - by.min(data.len()),
    };
    data.resize(size, fill);
}

/// One of the places of a kind, if there is one.
fn any_of(random: &mut Random, stream: &Stream, kind: Kind) -> Option<usize> {
    let places = stream.all(kind);
    (!places.is_empty()).then(|| places[random.index(places.len())])
}

fn change_path(random: &mut Random, stream: &mut Stream) {
    if let Some(at) = any_of(random, stream, XY) {
        let old = path_of(&stream.records[at].data);
        stream.records[at].data = points(&other_path(random, old));
    }
}

/// The five points of data; what is missing is 0.
fn path_of(data: &[u8]) -> Path {
    let mut numbers = data.chunks_exact(4).map(|bytes| {
        let number = i32::from_be_bytes([bytes[0], bytes[1], bytes[2], bytes[3]]);
        i64::from(number)
    });
    let mut next = || numbers.next().unwrap_or(0);
    [0; 5].map(|_| (next(), next()))
}

fn other_path(random: &mut Random, mut old: Path) -> Path {
    let (one, other) = (random.index(5), random.index(5));
    let far = random.pick(&[
        -1,
        i64::from(i32::MIN),
        i64::from(i32::MAX),
        1_000_001,
        1_000_000,
        -1_000_000,
    ]);
    let by = random.pick(&[-1, 1, 1 << 8, 1 << 16, 1 << 24, far]);
    match random.below(8) {
        0 => old[one].0 += by,
        1 => old[one].1 += by,
        2 => old[one] = old[other],
        3 => old.swap(one, other),
        4 => old = [old[0], old[1], old[2], old[1], old[0]],
        5 => old = old.map(|(x, y)| (x + by, y)),
        6 => old = old.map(|(x, y)| (x, y - by)),
        _ => old = stretched(random, old, far),
    }
    old
}

/// A rectangle with one side elsewhere.
fn stretched(random: &mut Random, old: Path, side: i64) -> Path {
    let [x, y] = [old[0].0, old[0].1];
    let along_x = random.once_in(2);
    old.map(|point| match point {
        (px, py) if along_x && px == x => (side, py),
        (px, py) if !along_x && py == y => (px, side),
        point => point,
    })
}

fn change_unit(random: &mut Random, stream: &mut Stream) {
    if let Some(at) = any_of(random, stream, UNITS) {
        let data = &mut stream.records[at].data;
        data.truncate(8);
        data.extend(unit::other_unit(random));
    }
}

fn change_value(random: &mut Random, stream: &mut Stream) {
    if let Some(at) = any_of(random, stream, PROPVALUE) {
        let other = number::other(random, &stream.records[at].data);
        stream.records[at].data = other;
    }
}

fn change_attribute(random: &mut Random, stream: &mut Stream) {
    if let Some(at) = any_of(random, stream, PROPATTR) {
        let other = random.pick(&[
            [0, 0],
            [0, 2],
            [1, 0],
            [1, 1],
            [0xFF, 0xFF],
            [0x80, 1],
            [0, 126],
        ]);
        stream.records[at].data = other.to_vec();
    }
}

/// Bytes after the last record.
fn change_end(random: &mut Random, stream: &mut Stream) {
    let size = random.pick(&[1, 2, 3, 4, 5, 6, 2048]);
    stream.after = vec![0; size];
    if !random.once_in(4) {
        let at = random.index(size);
        stream.after[at] = random.pick(&[1, 4, 0x80, 0xFF]);
    }
}

fn change_bytes(random: &mut Random, bytes: &mut Vec<u8>) {
    let at = random.index(bytes.len() + 1);
    let last = at.min(bytes.len().max(1) - 1);
    match random.below(8) {
        0..=1 if !bytes.is_empty() => bytes[last] ^= 1 << random.below(8),
        2 if !bytes.is_empty() => bytes[last] = random.next() as u8,
        3 if !bytes.is_empty() => drop(bytes.remove(last)),
        4 => bytes.insert(at, random.next() as u8),
        5..=6 => bytes.truncate(at),
        _ => stretch(random, bytes, at),
    }
}

/// Makes the stream about as long as it may be, or longer.
fn stretch(random: &mut Random, bytes: &mut Vec<u8>, at: usize) {
    let size = random.pick(&[65_535, 65_536, 65_536, 65_537, 65_538, 70_000, 131_072]);
    let missing = size - bytes.len().min(size);
    let at = random.pick(&[at, bytes.len(), bytes.len(), bytes.len()]);
    bytes.splice(at..at, vec![0; missing]);
}
