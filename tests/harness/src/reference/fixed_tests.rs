//! Fixed masks: their lines, their questions, and what they do in a run.

use super::tests::{changed, layer, outcome, refused, ROW};
use super::*;

/// A layer with some pieces on the masks that are given.
fn fixed(masks: u64, budget: u64, pieces: &[[u64; 5]], fixed: &[(usize, u64)]) -> Layer {
    let mut layer = layer(masks, budget, pieces);
    for &(piece, mask) in fixed {
        layer.pieces[piece].fixed = Some(mask);
    }
    layer
}

/// Pieces 0, 1 and 3 are one unit, the ties in this order. Piece 2 is in conflict with the others.
const UNIT: [[u64; 5]; 4] = [
    [0, 0, 0, 20, 20],
    [0, 20, 11, 40, 31],
    [1, 60, 0, 80, 20],
    [0, 40, 22, 60, 42],
];

#[test]
fn a_fixed_unit_is_not_peeled_and_has_one_mask_to_try() {
    let alone = fixed(4, 100, &ROW[..1], &[(0, 3)]);
    assert_eq!(outcome(&alone), (vec![3], [0, 0, 0, 1], true));
    let at_zero = fixed(3, 0, &ROW, &[(0, 2)]);
    assert_eq!(outcome(&at_zero), (vec![2, 1, 0], [0, 0, 0, 0], false));
    let both = fixed(3, 100, &ROW, &[(0, 1), (1, 1)]);
    assert_eq!(outcome(&both), (vec![1, 1, 0], [1, 0, 10, 2], true));
}

#[test]
fn all_masks_are_tried_beside_a_fixed_unit() {
    let layer = fixed(2, 100, &ROW, &[(1, 0)]);
    assert_eq!(outcome(&layer), (vec![0, 0, 1], [1, 0, 10, 6], true));
    assert_eq!(least_cost(&layer), 10);
}

#[test]
fn masks_are_in_turn_where_nothing_is_fixed() {
    // The row and, far away, a piece that is fixed: five steps for the row, one for the piece.
    let far = [&ROW[..], &[[3, 5000, 0, 5020, 20]]].concat();
    let layer = fixed(2, 100, &far, &[(3, 1)]);
    assert_eq!(outcome(&layer), (vec![0, 1, 0, 1], [1, 0, 10, 6], true));
}

#[test]
fn a_unit_is_fixed_by_any_of_its_pieces() {
    for piece in [0, 1, 3] {
        let layer = fixed(3, 100, &UNIT, &[(piece, 2)]);
        assert_eq!(outcome(&layer), (vec![2, 2, 0, 2], [0, 0, 0, 1], true));
    }
}

#[test]
fn rivals_keep_fixed_masks() {
    let layer = fixed(2, 100, &ROW[..2], &[(0, 1), (1, 1)]);
    assert_eq!(least_cost(&layer), 10);
    assert_eq!(least_cost(&fixed(2, 100, &ROW[..2], &[(0, 1)])), 0);
}

#[test]
fn fixed_lines_are_written_and_read() {
    let layer = fixed(3, 100, &UNIT, &[(1, 2), (2, 0)]);
    let text = layer.text();
    assert!(text.ends_with(b"piece=0,40,22,60,42\nfixed=1,2\nfixed=2,0\n"));
    assert_eq!(read(&text, Mutation::None), Ok(layer));
}

/// The answer to the row's text with something after it.
fn with_lines(lines: &str) -> Option<(u64, u64)> {
    let last = "2,80,0,100,20\n";
    refused(&changed(last, &format!("{last}{lines}")))
}

#[test]
fn lines_after_the_pieces_are_fixed_lines() {
    assert_eq!(with_lines("fixed=0,0\nfixed=2,1\n"), None);
    for bad in [
        "\n",
        "x",
        "fixed=0,0",
        "fixed=0\n",
        "fixed=0,0,0\n",
        "fixed=00,0\n",
        "fixed=0,00\n",
        "fixed=0, 0\n",
        "fixed=0,\n",
        "fixed=0,0\r\n",
        "Fixed=0,0\n",
        "mask=0\n",
        "piece=3,200,0,220,20\n",
    ] {
        assert_eq!(with_lines(bad), Some((3, 10)), "{bad:?}");
    }
    assert_eq!(with_lines("fixed=0,0\nx"), Some((3, 11)));
    assert_eq!(with_lines("fixed=1,0\nfixed=1,0\n"), Some((3, 11)));
    assert_eq!(with_lines("fixed=1,0\nfixed=0,9\n"), Some((3, 11)));
}

#[test]
fn a_line_is_through_with_both_questions_before_the_next() {
    assert_eq!(with_lines("fixed=3,0\n"), Some((13, 10)));
    assert_eq!(with_lines("fixed=0,2\nx"), Some((13, 10)));
    assert_eq!(with_lines("fixed=0,255\n"), Some((13, 10)));
    assert_eq!(
        with_lines("fixed=0,0\nfixed=4294967296,0\n"),
        Some((13, 11))
    );
    assert_eq!(with_lines("fixed=18446744073709551616,0\n"), Some((13, 10)));
}

#[test]
fn fixed_masks_of_a_unit_agree() {
    let refused_of = |masks: &[(usize, u64)]| refused(&fixed(3, 100, &UNIT, masks).text());
    assert_eq!(refused_of(&[(0, 1), (2, 0), (3, 1)]), None);
    assert_eq!(refused_of(&[(0, 1), (2, 0), (3, 2)]), Some((14, 3)));
    assert_eq!(refused_of(&[(0, 1), (1, 2), (3, 1)]), Some((14, 1)));
    assert_eq!(refused_of(&[(1, 1), (3, 0)]), Some((14, 3)));
    let mut overlapping = UNIT;
    overlapping[2] = UNIT[3];
    let both = fixed(3, 100, &overlapping, &[(0, 1), (1, 2)]);
    assert_eq!(refused(&both.text()), Some((6, 3)));
}

#[test]
fn masks_that_break_a_fixed_one_are_scored() {
    let text = fixed(2, 100, &ROW, &[(0, 1)]).text();
    let said = |layer: &[u8], masks: &[u64]| {
        let masks = mask_lines(masks);
        let answer = answer_score(layer, masks.as_bytes(), Mutation::None);
        answer.map(|answer| String::from_utf8_lossy(&printed(&answer)).into_owned())
    };
    let score = Some(String::from("conflicts=1\nstitches=0\ncost=10\ntested=3\n"));
    assert_eq!(said(&text, &[0, 0, 1]), score);
    assert_eq!(said(&text, &[255, 1, 1]), score);
    let differ = fixed(2, 100, &UNIT, &[(0, 1), (1, 0)]).text();
    let refused = Some(String::from("refused=14,1\n"));
    for masks in [&[][..], &[9; 4], &[0, 1, 0, 0]] {
        assert_eq!(said(&differ, masks), refused);
    }
}
