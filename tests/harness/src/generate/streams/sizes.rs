//! Streams and settings texts of the greatest size and beside it, with as many pieces as there can be,
//! and buffers of all sizes.

use super::limits::{small, with};
use super::{element, pair, path, plain_stream, settings_text};
use crate::generate::limits::row;
use crate::input::Input;
use crate::layer::Piece;
use crate::stream::{Stream, BEFORE_ELEMENTS, BGNLIB, IN_ELEMENT, LIBNAME};

/// The greatest size of a stream, and of a settings text.
const LONGEST_STREAM: usize = 65_536;
const LONGEST_TEXT: usize = 32_768;

/// As many elements as a layer has pieces, one more, and as many as there is room for: all in one
/// place, apart from each other, and with a last one that is out of range or out of form.
pub fn counts() -> Vec<Stream> {
    let room = LONGEST_STREAM - plain_stream(&[]).bytes().len();
    let smallest = plain_stream(&[square(0)]).bytes().len() - plain_stream(&[]).bytes().len();
    let mut streams = Vec::new();
    for count in [
        510,
        511,
        512,
        513,
        514,
        room / smallest,
        room / smallest + 1,
    ] {
        let pieces: Vec<Piece> = (0..count as u64).map(square).collect();
        let last = BEFORE_ELEMENTS + IN_ELEMENT * (count - 1);
        streams.push(plain_stream(&vec![square(0); count]));
        streams.push(plain_stream(&pieces));
        for other in [b"512\0", b"x\0\0\0"] {
            let mut stream = plain_stream(&pieces);
            let element = element(&path(&square(0)), other);
            stream.records.splice(last..last + IN_ELEMENT, element);
            streams.push(stream);
        }
    }
    streams
}

/// Squares that are far from each other, and of ten shapes, so that their elements are the least.
fn square(number: u64) -> Piece {
    let (x1, y1) = (1_000 * number, 0);
    Piece {
        shape: number % 10,
        x1,
        y1,
        x2: x1 + 20,
        y2: y1 + 20,
        fixed: None,
    }
}

/// Streams of the greatest size and beside it: by zero bytes, by a long name, by bytes after it
/// that are not zero, and of one byte value.
pub fn sizes() -> Vec<Vec<u8>> {
    let mut streams = Vec::new();
    for size in LONGEST_STREAM - 2..=LONGEST_STREAM + 2 {
        let mut padded = small().bytes();
        padded.resize(size, 0);
        let mut ended = padded.clone();
        ended[size - 1] = 1;
        let mut named = with(LIBNAME, &[]);
        let missing = size - named.bytes().len();
        let at = named.all(LIBNAME)[0];
        named.records[at].data = vec![b'N'; missing];
        streams.extend([padded, ended, named.bytes()]);
        streams.extend([0, 4, 0xFF].map(|byte| vec![byte; size]));
    }
    streams
}

/// Settings texts beside a stream in order and two that are not.
pub fn settings_texts() -> Vec<Input<Vec<u8>>> {
    let mut texts = vec![Vec::new(), row(2).text()];
    texts.extend(counted());
    texts.extend(long());
    let wrong = with(BGNLIB, &[]).bytes();
    let streams = [small().bytes(), wrong, vec![0; LONGEST_STREAM + 1]];
    let beside = |text: Vec<u8>| streams.clone().map(|stream| pair(text.clone(), stream));
    texts.into_iter().flat_map(beside).collect()
}

/// The counts of settings texts that are tried, and what stands behind them.
const COUNTS: [&str; 9] = [
    "0",
    "1",
    "512",
    "513",
    "4294967296",
    "18446744073709551616",
    "00",
    "",
    "-1",
];
const BEHIND: [&str; 7] = [
    "\n",
    "",
    "\n\n",
    "\nx",
    "\npiece=0,0,0,1,1\n",
    "\nfixed=0,0\n",
    "\r\n",
];

fn counted() -> Vec<Vec<u8>> {
    let start = up_to_count();
    let text = |count: &str, behind: &str| [&start, count.as_bytes(), behind.as_bytes()].concat();
    let texts = COUNTS.map(|count| BEHIND.map(|behind| text(count, behind)));
    texts.concat()
}

/// A settings text without its last number.
fn up_to_count() -> Vec<u8> {
    let mut settings = settings_text(&row(0));
    settings.truncate(settings.len() - 2);
    settings
}

/// Settings texts of the greatest size and beside it: by digits, by empty lines, and in no form.
fn long() -> Vec<Vec<u8>> {
    let fronts = [
        (up_to_count(), b'7'),
        (settings_text(&row(0)), b'\n'),
        (Vec::new(), b'm'),
    ];
    let filled = |size: usize, (front, byte): &(Vec<u8>, u8)| {
        let mut text = front.clone();
        text.resize(size - 1, *byte);
        text.push(b'\n');
        text
    };
    let sizes = LONGEST_TEXT - 1..=LONGEST_TEXT + 1;
    let of_size = |size| fronts.iter().map(move |front| filled(size, front));
    sizes.flat_map(of_size).collect()
}

/// Buffers around the least size, beside input that is in order or too long.
pub fn rooms() -> Vec<(Input<Vec<u8>>, usize)> {
    let settings = settings_text(&row(0));
    let long = || vec![b'\n'; LONGEST_TEXT + 1];
    let inputs = [
        pair(settings.clone(), small().bytes()),
        pair(settings, vec![0; LONGEST_STREAM + 1]),
        pair(long(), small().bytes()),
        pair(Vec::new(), Vec::new()),
    ];
    let rooms = [0, 1, 4095, 4096, 4097];
    let each = |input: Input<Vec<u8>>| rooms.map(|room| (input.clone(), room));
    inputs.into_iter().flat_map(each).collect()
}
