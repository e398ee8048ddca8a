//! Layer texts with a few faults: bytes, lines and numbers changed in ways that a reader may miss.

use std::ops::Range;

use super::any_layer;
use super::fixed_lines::change_fixed;
use crate::layer::Layer;
use crate::random::Random;
use crate::reference::{self, Mutation};

/// Bytes that mean something in a layer text, or nearly so.
const TELLING: &[u8] = b"\n\n\r,,==0123456789 +-.mspPkfd\t\0\x7f\x80\xff";

/// Numbers at the ends of ranges and of words.
const TELLING_NUMBERS: [u128; 22] = [
    0,
    1,
    2,
    3,
    8,
    9,
    511,
    512,
    513,
    1_000,
    1_001,
    100_000,
    100_001,
    1_000_000,
    1_000_001,
    1_000_000_000,
    1_000_000_001,
    (1 << 32) - 1,
    1 << 32,
    (1 << 63) - 1,
    (1 << 64) - 1,
    1 << 64,
];

/// A text of up to some 40 lines with one to three faults, or none. What is still a layer can be
/// searched to its end in little time.
pub fn damaged(random: &mut Random) -> Vec<u8> {
    loop {
        let mut text = whole_text(random);
        for _ in 0..random.pick(&[0, 1, 1, 1, 1, 2, 3]) {
            text = with_fault(random, text);
        }
        if is_short_work(&text) {
            return text;
        }
    }
}

fn whole_text(random: &mut Random) -> Vec<u8> {
    let most = random.pick(&[3, 3, 8, 8, 8, 40]);
    let count = random.between(0, most) as usize;
    let mut layer = any_layer(random, count).with_budget(random.below(500));
    for _ in 0..random.pick(&[0, 0, 0, 0, 1, 2]) {
        overlap(random, &mut layer);
    }
    layer.text()
}

/// Adds a piece that overlaps another one of its shape and sticks out of it.
pub fn overlap(random: &mut Random, layer: &mut Layer) {
    if !layer.pieces.is_empty() {
        let mut piece = random.pick(&layer.pieces);
        piece.x2 += 1;
        let at = random.index(layer.pieces.len() + 1);
        layer.pieces.insert(at, piece);
    }
}

/// Refused, or of few pieces, or with a small budget.
fn is_short_work(text: &[u8]) -> bool {
    match reference::read(text, Mutation::None) {
        Ok(layer) => layer.pieces.len() <= 9 || layer.settings.budget <= 10_000,
        Err(_) => true,
    }
}

pub fn with_fault(random: &mut Random, mut text: Vec<u8>) -> Vec<u8> {
    match random.below(38) {
        0..=2 => change_byte(random, &mut text),
        3..=5 => remove_byte(random, &mut text),
        6..=8 => insert_byte(random, &mut text),
        9..=14 => change_lines(random, &mut text),
        15..=24 => change_number(random, &mut text),
        25 => drop(text.pop()),
        26..=27 => append(random, &mut text),
        28 => text.truncate(random.index(text.len() + 1)),
        29 => text = random_bytes(random),
        30..=35 => change_fixed(random, &mut text),
        _ => stretch(random, &mut text),
    }
    text
}

fn telling_byte(random: &mut Random) -> u8 {
    if random.once_in(4) {
        random.next() as u8
    } else {
        random.pick(TELLING)
    }
}

fn change_byte(random: &mut Random, text: &mut [u8]) {
    if !text.is_empty() {
        text[random.index(text.len())] = telling_byte(random);
    }
}

fn remove_byte(random: &mut Random, text: &mut Vec<u8>) {
    if !text.is_empty() {
        text.remove(random.index(text.len()));
    }
}

fn insert_byte(random: &mut Random, text: &mut Vec<u8>) {
    let at = random.index(text.len() + 1);
    text.insert(at, telling_byte(random));
}

/// Two lines change places, or one is left out or doubled.
fn change_lines(random: &mut Random, text: &mut Vec<u8>) {
    let mut lines: Vec<Vec<u8>> = text
        .split_inclusive(|&b| b == b'\n')
        .map(<[u8]>::to_vec)
        .collect();
    if lines.is_empty() {
        return;
    }
    let (one, other) = (random.index(lines.len()), random.index(lines.len()));
    match random.below(3) {
        0 => lines.swap(one, other),
        1 => drop(lines.remove(one)),
        _ => lines.insert(other, lines[one].clone()),
    }
    *text = lines.concat();
}

/// Where the runs of digits are.
fn numbers(text: &[u8]) -> Vec<Range<usize>> {
    let digit = |at: usize| text.get(at).map_or(false, u8::is_ascii_digit);
    let starts = (0..text.len()).filter(|&at| digit(at) && (at == 0 || !digit(at - 1)));
    let end = |start: usize| (start..).find(|&at| !digit(at)).unwrap_or(text.len());
    starts.map(|start| start..end(start)).collect()
}

fn change_number(random: &mut Random, text: &mut Vec<u8>) {
    let numbers = numbers(text);
    if numbers.is_empty() {
        return;
    }
    let place = numbers[random.index(numbers.len())].clone();
    let old = String::from_utf8_lossy(&text[place.clone()]).into_owned();
    let new = other_number(random, &old);
    text.splice(place, new.into_bytes());
}

fn other_number(random: &mut Random, old: &str) -> String {
    let value = u128::from(old.parse::<u64>().unwrap_or(0));
    match random.below(10) {
        0 => format!("0{old}"),
        1 => String::new(),
        2 => format!("{old},{old}"),
        3 => format!("{}", value + (u128::from(random.between(1, 3)) << 32)),
        4 => format!("{}", value + (u128::from(random.between(1, 3)) << 64)),
        5 => format!("{old}{}", random.below(1000)),
        6 => old.repeat(random.between(2, 60) as usize),
        7 => format!("{}", value + 1),
        8 => format!("{}", value.saturating_sub(1)),
        _ => format!("{}", random.pick(&TELLING_NUMBERS)),
    }
}

/// Something after the last line.
fn append(random: &mut Random, text: &mut Vec<u8>) {
    match random.below(5) {
        0 => text.push(b'\n'),
        1 => text.push(telling_byte(random)),
        2 => text.extend(b"piece=0,0,0,1,1\n"),
        3 => text.extend(b"fixed=0,0\n"),
        _ => text.extend(text.clone()),
    }
}

fn random_bytes(random: &mut Random) -> Vec<u8> {
    let count = random.of_any_size(5_000);
    (0..count).map(|_| telling_byte(random)).collect()
}

/// Makes the text about as long as a text may be, or longer, by one part that is repeated.
fn stretch(random: &mut Random, text: &mut Vec<u8>) {
    let length = random.pick(&[32_767, 32_768, 32_768, 32_769, 32_769, 40_000, 70_000]);
    let missing = length - text.len().min(length);
    let at = match random.below(3) {
        0 => text.len(),
        1 => numbers(text).first().map_or(0, |number| number.end),
        _ => random.index(text.len() + 1),
    };
    let filling = random.pick(&[
        b"1".as_slice(),
        b"0",
        b"\n",
        b"piece=0,0,0,1,1\n",
        b"fixed=0,0\n",
        b"x",
    ]);
    let filling = filling.iter().copied().cycle().take(missing);
    text.splice(at..at, filling);
}
