//! The worked cases of RULES 13, and units.

use super::edges::{is_conflict, is_stitch, is_tie};
use super::*;
use crate::layer::{Piece, Settings};

pub fn layer(masks: u64, budget: u64, pieces: &[[u64; 5]]) -> Layer {
    let piece = |&[shape, x1, y1, x2, y2]: &[u64; 5]| Piece {
        shape,
        x1,
        y1,
        x2,
        y2,
        fixed: None,
    };
    Layer {
        settings: Settings {
            masks,
            spacing: 80,
            margin: 10,
            weight: 10,
            budget,
        },
        pieces: pieces.iter().map(piece).collect(),
    }
}

/// Masks, conflicts, stitches, cost, steps and whether it is best.
pub fn outcome(layer: &Layer) -> (Vec<u64>, [u64; 4], bool) {
    let run = run(layer, Mutation::None);
    let score = run.score;
    let numbers = [score.conflicts, score.stitches, score.cost, run.steps];
    (run.masks, numbers, run.best)
}

pub const ROW: [[u64; 5]; 3] = [[0, 0, 0, 20, 20], [1, 40, 0, 60, 20], [2, 80, 0, 100, 20]];

pub const WIRE: [[u64; 5]; 4] = [
    [0, 100, 0, 200, 20],
    [0, 200, 0, 300, 20],
    [1, 100, 90, 161, 110],
    [2, 239, 90, 300, 110],
];

const SQUARES: [[u64; 5]; 4] = [
    [0, 0, 0, 20, 20],
    [1, 40, 0, 60, 20],
    [2, 0, 40, 20, 60],
    [3, 40, 40, 60, 60],
];

#[test]
fn three_in_a_row() {
    let found = (vec![0, 1, 0], [1, 0, 10, 5], true);
    assert_eq!(outcome(&layer(2, 100, &ROW)), found);
    assert_eq!(outcome(&layer(2, 5, &ROW)), found);
    let open = (vec![0, 1, 0], [1, 0, 10, 4], false);
    assert_eq!(outcome(&layer(2, 4, &ROW)), open);
    let three = (vec![2, 1, 0], [0, 0, 0, 0], true);
    assert_eq!(outcome(&layer(3, 100, &ROW)), three);
}

#[test]
fn a_stitch_is_cheaper() {
    let found = (vec![0, 1, 1, 0], [0, 1, 1, 11], true);
    assert_eq!(outcome(&layer(2, 100, &WIRE)), found);
}

#[test]
fn a_piece_with_both_kinds_of_edge_stays() {
    let pieces = [
        [0, 100, 0, 200, 20],
        [1, 60, 0, 80, 20],
        [0, 200, 0, 300, 20],
    ];
    let found = (vec![0, 1, 0], [0, 0, 0, 0], true);
    assert_eq!(outcome(&layer(2, 100, &pieces)), found);
}

#[test]
fn four_squares() {
    let three = (vec![0, 1, 2, 0], [1, 0, 10, 0], true);
    assert_eq!(outcome(&layer(3, 100, &SQUARES)), three);
    let four = (vec![3, 2, 1, 0], [0, 0, 0, 0], true);
    assert_eq!(outcome(&layer(4, 100, &SQUARES)), four);
}

#[test]
fn no_pieces() {
    assert_eq!(outcome(&layer(2, 0, &[])), (vec![], [0, 0, 0, 0], true));
}

#[test]
fn distances_and_contacts() {
    let near = |gap_x: u64, gap_y: u64| {
        let pieces = [[0, 0, 0, 20, 20], [1, 20 + gap_x, 20 + gap_y, 200, 200]];
        let pieces = layer(2, 0, &pieces).pieces;
        is_conflict(&pieces[0], &pieces[1], 80, Mutation::None)
    };
    assert_eq!([near(79, 0), near(80, 0)], [true, false]);
    assert_eq!([near(48, 63), near(48, 64)], [true, false]);
    let touching = |contact: u64, shape: u64| {
        let pieces = [[0, 0, 0, 20, 20], [shape, 20, 20 - contact, 40, 60]];
        let pieces = layer(2, 0, &pieces).pieces;
        let (a, b) = (&pieces[0], &pieces[1]);
        let stitch = is_stitch(a, b, 10, Mutation::None);
        (stitch, is_tie(a, b, 10, Mutation::None))
    };
    let (stitch, tie, neither) = ((true, false), (false, true), (false, false));
    assert_eq!([touching(20, 0), touching(10, 0)], [stitch, stitch]);
    assert_eq!([touching(9, 0), touching(1, 0)], [tie, tie]);
    assert_eq!([touching(0, 0), touching(9, 1)], [neither, neither]);
}

/// Pieces 3, 1, 4 and 0 are tied, each to the next. Piece 2 has stitch edges to pieces 1 and 3.
const CHAIN: [[u64; 5]; 5] = [
    [0, 60, 33, 80, 53],
    [0, 20, 11, 40, 31],
    [0, 0, 20, 20, 40],
    [0, 0, 0, 20, 20],
    [0, 40, 22, 60, 42],
];

#[test]
fn ties_carry_on() {
    let edges = Edges::of(&layer(2, 0, &CHAIN), Mutation::None);
    assert_eq!(edges.ties, [(1, 3), (0, 4), (1, 4)]);
    assert_eq!(edges.stitches, [(1, 2), (2, 3)]);
    let units = ties::units(5, &edges.ties, Mutation::None);
    assert_eq!(units, [0, 0, 2, 0, 0]);
}

#[test]
fn two_stitch_edges_to_one_unit() {
    // Unit 0 hangs on piece 2 by both edges, and then piece 2 has none.
    let found = (vec![0; 5], [0, 0, 0, 0], true);
    assert_eq!(outcome(&layer(2, 100, &CHAIN)), found);
}

#[test]
fn doubled_edges_are_paid_for_each() {
    // The wire's tied halves, and two pieces above it that conflict with each other. The second of
    // these is in conflict with both halves.
    let pieces = [
        [0, 100, 20, 200, 40],
        [0, 200, 9, 300, 29],
        [1, 100, 110, 161, 130],
        [2, 239, 99, 300, 119],
    ];
    let layer = layer(2, 100, &pieces);
    assert_eq!(outcome(&layer), (vec![0, 0, 1, 1], [1, 0, 10, 5], true));
    assert_eq!(least_cost(&layer), 10);
}

#[test]
fn a_stitch_edge_inside_a_unit_counts_for_nothing() {
    let pieces = [
        [0, 0, 0, 20, 20],
        [0, 20, 15, 40, 26],
        [0, 0, 20, 20, 40],
        [1, 60, 0, 80, 20],
    ];
    let found = (vec![1, 1, 1, 0], [0, 0, 0, 0], true);
    assert_eq!(outcome(&layer(2, 100, &pieces)), found);
}

#[test]
fn a_point_contact_ties_nothing() {
    let pieces = [
        [0, 0, 0, 20, 20],
        [0, 20, 20, 40, 40],
        [1, 110, 20, 130, 40],
    ];
    let found = (vec![0, 1, 0], [0, 0, 0, 0], true);
    assert_eq!(outcome(&layer(2, 100, &pieces)), found);
}

#[test]
fn rivals_keep_ties() {
    // On two masks the halves would leave no conflict.
    let pieces = [
        [0, 100, 20, 200, 40],
        [0, 200, 9, 300, 29],
        [1, 100, 110, 240, 130],
        [2, 255, 99, 300, 119],
    ];
    let layer = layer(2, 100, &pieces);
    let edges = Edges::of(&layer, Mutation::None);
    let split = score::score_of_edges(&edges, &[0, 1, 1, 0], 10, Mutation::None);
    assert_eq!(split.cost, 0);
    assert_eq!(outcome(&layer), (vec![0, 0, 1, 0], [1, 0, 10, 5], true));
    assert_eq!(least_cost(&layer), 10);
}

pub fn refused(text: &[u8]) -> Option<(u64, u64)> {
    let refusal = answer(text, 4096, Mutation::None).err()?;
    Some((refusal.number, refusal.place))
}

/// The row's text with one part replaced.
pub fn changed(from: &str, to: &str) -> Vec<u8> {
    let text = String::from_utf8(layer(2, 100, &ROW).text()).expect("a layer text is ASCII");
    assert!(text.contains(from));
    text.replacen(from, to, 1).into_bytes()
}

#[test]
fn texts() {
    assert_eq!(refused(&changed("masks=2", "masks=2")), None);
    assert_eq!(refused(&changed("masks=2", "masks=02")), Some((3, 1)));
    assert_eq!(refused(&changed("masks=2", "masks=9")), Some((4, 1)));
    assert_eq!(refused(&changed("pieces=3", "pieces=513")), Some((4, 6)));
    assert_eq!(refused(&changed("pieces=3", "pieces=4")), Some((3, 10)));
    assert_eq!(refused(&changed("pieces=3", "pieces=2")), Some((3, 9)));
    assert_eq!(refused(&changed("0,0,0,20", "0,0,0,0")), Some((5, 7)));
    assert_eq!(refused(&changed("piece=1,40", "piece=0,19")), Some((6, 1)));
    assert_eq!(refused(b""), Some((3, 1)));
    assert_eq!(answer(b"", 4095, Mutation::None), Err(Refusal::new(1, 0)));
    assert_eq!(refused(&[b'\n'; 32_769]), Some((2, 0)));
}

#[test]
fn the_search_finds_the_least_cost() {
    for (masks, pieces) in [(2, &WIRE), (3, &SQUARES), (2, &SQUARES)] {
        let layer = layer(masks, 1000, pieces);
        assert_eq!(run(&layer, Mutation::None).score.cost, least_cost(&layer));
    }
}
