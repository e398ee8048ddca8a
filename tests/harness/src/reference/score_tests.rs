//! Scores of given masks: the worked cases of RULES 17, more of what is half done, and the count of tested pairs.

use std::collections::BTreeSet;

use super::tests::{layer, WIRE};
use super::*;

/// Conflicts, stitches and cost, or number and place of a refusal.
fn scored(pieces: &[[u64; 5]], masks: &[u64]) -> Result<[u64; 3], (u64, u64)> {
    let found = score(&layer(2, 0, pieces), masks, Mutation::None);
    let numbers = |score: Score| [score.conflicts, score.stitches, score.cost];
    (found.map(|found| numbers(found.score))).map_err(|refusal| (refusal.number, refusal.place))
}

/// Pieces 0, 3 and 2 are tied, each to the next.
const CHAIN: [[u64; 5]; 5] = [
    [0, 0, 0, 20, 20],
    [1, 60, 60, 80, 80],
    [0, 40, 22, 60, 42],
    [0, 20, 11, 40, 31],
    [2, 0, 60, 20, 80],
];

/// Pieces 0 and 1 are tied, and piece 2 has a stitch edge to each of them.
const TWO_STITCHES: [[u64; 5]; 3] = [[0, 0, 0, 20, 31], [0, 20, 22, 40, 31], [0, 0, 31, 40, 51]];

#[test]
fn all_set() {
    assert_eq!(scored(&WIRE, &[0, 1, 0, 0]), Ok([2, 1, 21]));
    assert_eq!(scored(&WIRE, &[0, 1, 0]), Err((7, 0)));
    assert_eq!(scored(&WIRE, &[0, 1, 2, 2]), Err((8, 2)));
    assert_eq!(scored(&CHAIN, &[0, 1, 1, 1, 1]), Err((12, 2)));
    assert_eq!(scored(&CHAIN, &[0, 1, 1, 0, 2]), Err((8, 4)));
    assert_eq!(scored(&CHAIN, &[1, 1, 1, 1, 0]), Ok([3, 0, 30]));
    assert_eq!(scored(&TWO_STITCHES, &[0, 0, 1]), Ok([0, 2, 2]));
}

#[test]
fn half_done() {
    assert_eq!(scored(&CHAIN, &[255, 1, 1, 255, 0]), Ok([1, 0, 10]));
    assert_eq!(scored(&CHAIN, &[255, 1, 1, 1, 0]), Ok([2, 0, 20]));
    assert_eq!(scored(&CHAIN, &[255, 1, 1, 0, 1]), Err((12, 3)));
    assert_eq!(scored(&CHAIN, &[255, 1, 255, 0, 254]), Err((8, 4)));
    assert_eq!(scored(&CHAIN, &[255; 5]), Ok([0, 0, 0]));
    assert_eq!(scored(&TWO_STITCHES, &[0, 255, 1]), Ok([0, 1, 1]));
}

#[test]
fn a_unit_is_split_over_a_piece_that_is_not_set() {
    assert_eq!(scored(&CHAIN, &[0, 1, 1, 255, 1]), Err((12, 2)));
    assert_eq!(scored(&CHAIN, &[0, 1, 0, 255, 1]), Ok([1, 0, 10]));
    assert_eq!(scored(&CHAIN, &[0, 1, 255, 255, 1]), Ok([1, 0, 10]));
}

#[test]
fn only_255_is_not_set() {
    for mask in [
        2,
        8,
        254,
        256,
        511,
        (1 << 32) - 1,
        (1 << 32) + 255,
        u64::MAX,
    ] {
        assert_eq!(scored(&WIRE, &[255, mask, 255, mask]), Err((8, 1)));
    }
}

/// Squares in a row, each in conflict with the next two on either side and no others.
fn squares(count: u64) -> Layer {
    let square = |number| [number, 40 * number, 0, 40 * number + 20, 20];
    layer(2, 0, &(0..count).map(square).collect::<Vec<_>>())
}

#[test]
fn each_pair_counts_once() {
    for pieces in [0, 1, 2, 3, 4, 5, 6, 7, 31, 32, 363, 511, 512] {
        let masks: [&dyn Fn(u64) -> u64; 6] = [
            &|_| 0,
            &|_| UNSET,
            &|piece| piece % 2,
            &|piece| if piece % 3 == 0 { UNSET } else { 1 },
            &|piece| if piece == 0 { 1 } else { UNSET },
            &|piece| if piece + 1 == pieces { UNSET } else { 1 },
        ];
        for mask in masks {
            let masks: Vec<u64> = (0..pieces).map(mask).collect();
            let found = score(&squares(pieces), &masks, Mutation::None);
            let tested = found.map(|found| found.tested);
            assert_eq!(tested, Ok(pieces * pieces.saturating_sub(1) / 2));
        }
    }
}

#[test]
fn no_pair_is_met_twice() {
    for layer in [squares(9), layer(2, 0, &CHAIN), layer(2, 0, &TWO_STITCHES)] {
        let (mut met, mut with_edges) = (BTreeSet::new(), Vec::new());
        let edges = Edges::tested(&layer, Mutation::None, |pair, is_edge| {
            assert!(pair.0 < pair.1 && met.insert(pair));
            with_edges.extend(is_edge.then_some(pair));
        });
        let pieces = layer.pieces.len();
        assert_eq!(met.len(), pieces * (pieces - 1) / 2);
        let mut found = [edges.conflicts, edges.stitches].concat();
        found.sort_unstable();
        with_edges.sort_unstable();
        assert_eq!(with_edges, found);
    }
}

#[test]
fn the_count_is_the_last_line() {
    let text = layer(2, 0, &CHAIN).text();
    let said = |masks: &[u64]| {
        let masks = mask_lines(masks);
        let answer = answer_score(&text, masks.as_bytes(), Mutation::None);
        answer.map(|answer| String::from_utf8_lossy(&printed(&answer)).into_owned())
    };
    let expected = |text: &str| Some(String::from(text));
    assert_eq!(
        said(&[1, 1, 1, 1, 0]),
        expected("conflicts=3\nstitches=0\ncost=30\ntested=10\n")
    );
    assert_eq!(
        said(&[255; 5]),
        expected("conflicts=0\nstitches=0\ncost=0\ntested=10\n")
    );
    assert_eq!(said(&[0, 1, 1, 1, 1]), expected("refused=12,2\n"));
    assert_eq!(said(&[0, 1, 1, 1]), expected("refused=7,0\n"));
}

#[test]
fn mask_lines_are_read() {
    let read = |text: &str| read_masks(text.as_bytes(), Mutation::None);
    assert_eq!(read(""), Some(vec![]));
    assert_eq!(read("mask=0\nmask=255\n"), Some(vec![0, 255]));
    let huge = format!("mask={}255\n", 1_u128 << 120);
    assert_eq!(read(&huge), Some(vec![u64::MAX]));
    for bad in [
        "mask=01\n",
        "mask=\n",
        "mask=1",
        "mask=1\n\n",
        "masks=1\n",
        "mask=-1\n",
    ] {
        assert_eq!(read(bad), None);
    }
    let masks = [3, 255, 7];
    assert_eq!(read(&mask_lines(&masks)), Some(masks.to_vec()));
}

#[test]
fn the_layer_is_judged_first() {
    let text = layer(2, 0, &CHAIN).text();
    let refused = |layer: &[u8], masks: &str| {
        let answer = answer_score(layer, masks.as_bytes(), Mutation::None)?;
        answer.err().map(|refusal| (refusal.number, refusal.place))
    };
    assert_eq!(refused(&text, "mask=9\n"), Some((7, 0)));
    assert_eq!(refused(&text[1..], "mask=9\n"), Some((3, 1)));
    let mut overlapping = CHAIN;
    overlapping[4] = CHAIN[0];
    assert_eq!(
        refused(&layer(2, 0, &overlapping).text(), "mask=9\n"),
        Some((6, 4))
    );
}
