//! Searches that the library of small graphs ends, and near ones that it does not.

use super::tests::{layer, outcome};

/// Around a middle, number 4: left, right, low and high. All are in conflict with each other.
const FIVE: [[u64; 5]; 5] = [
    [0, 0, 49, 20, 69],
    [1, 99, 49, 119, 69],
    [2, 49, 0, 69, 20],
    [3, 49, 99, 69, 119],
    [4, 49, 49, 69, 69],
];

/// The five in another order, and the first two of them too far from each other for a conflict.
fn apart(order: [usize; 5]) -> [[u64; 5]; 5] {
    let mut far = FIVE;
    (far[1][1], far[1][3]) = (100, 120);
    order.map(|number| far[number])
}

/// The same pieces so far away that nothing is between them and others.
fn moved(pieces: &[[u64; 5]]) -> Vec<[u64; 5]> {
    let moved = |&[shape, x1, y1, x2, y2]: &[u64; 5]| [shape + 10, x1 + 1000, y1, x2 + 1000, y2];
    pieces.iter().map(moved).collect()
}

#[test]
fn cliques_take_no_steps() {
    let four = (vec![0, 1, 2, 0], [1, 0, 10, 0], true);
    let five = (vec![0, 1, 2, 0, 1], [2, 0, 20, 0], true);
    for budget in [0, 1, 100] {
        assert_eq!(outcome(&layer(3, budget, &FIVE[1..])), four);
        assert_eq!(outcome(&layer(3, budget, &FIVE)), five);
    }
}

/// The steps up to the second incumbent where the first place and the last are apart: 1 at place 0, 9 with
/// mask 0 at place 1, and 13 with mask 1 there.
const STEPS: u64 = 23;

#[test]
fn a_search_ends_with_the_incumbent_that_has_the_entry() {
    // The first place and the last are not in conflict. The first assignment cannot use it, and has two
    // conflicts.
    let pieces = apart([0, 2, 3, 4, 1]);
    let found = (vec![0, 1, 1, 2, 0], [1, 0, 10, STEPS], true);
    assert_eq!(outcome(&layer(3, 1000, &pieces)), found);
    assert_eq!(outcome(&layer(3, STEPS, &pieces)), found);
    let first = |steps: u64| (vec![0, 1, 2, 0, 0], [2, 0, 20, steps], false);
    assert_eq!(outcome(&layer(3, STEPS - 1, &pieces)), first(STEPS - 1));
    assert_eq!(outcome(&layer(3, 0, &pieces)), first(0));
}

#[test]
fn wheels_take_no_steps() {
    let mut wheel = apart([0, 1, 2, 3, 4]);
    (wheel[3][2], wheel[3][4]) = (100, 120);
    let found = (vec![0, 0, 1, 1, 2], [0, 0, 0, 0], true);
    assert_eq!(outcome(&layer(3, 0, &wheel)), found);
}

#[test]
fn others_are_searched_to_their_end() {
    let steps = |masks: u64, pieces: &[[u64; 5]]| outcome(&layer(masks, 10_000, pieces)).1[3];
    // On two masks and on four.
    assert!(steps(2, &FIVE[1..]) > 0);
    assert!(steps(4, &FIVE) > 0);
    // Six units.
    let sixth = [[5, 49, 49, 69, 69]];
    assert!(steps(3, &[&FIVE[..], &sixth].concat()) > 0);
    // The middle in two halves, with a stitch edge between them or tied, with two edges to each other one.
    let halves = |raised: u64| [[4, 49, 49, 59, 69], [4, 59, 49 + raised, 69, 69 + raised]];
    assert!(steps(3, &[&FIVE[1..4], &halves(0)].concat()) > 0);
    assert!(steps(3, &[&FIVE[1..4], &halves(11)].concat()) > 0);
    // A fixed piece.
    let mut fixed = layer(3, 10_000, &FIVE[1..]);
    fixed.pieces[3].fixed = Some(0);
    assert!(outcome(&fixed).1[3] > 0);
}

#[test]
fn what_was_peeled_does_not_count() {
    // The right arm is longer, with a piece at its end that can be stitched or is tied, and one beside both.
    let mut pieces = FIVE[1..].to_vec();
    pieces[0][3] = 200;
    let beside = [5, 190, 90, 210, 110];
    for raised in [0, 11] {
        let tail = [1, 200, 49 + raised, 220, 69 + raised];
        let layer = layer(3, 0, &[&pieces[..], &[tail, beside]].concat());
        let (masks, numbers, best) = outcome(&layer);
        assert_eq!(
            (&masks[..4], numbers, best),
            (&[0, 1, 2, 0][..], [1, 0, 10, 0], true)
        );
    }
}

#[test]
fn the_budget_is_asked_only_where_a_step_is_due() {
    let four = &FIVE[1..];
    let row = [&apart([0, 2, 3, 4, 1])[..], &moved(four)].concat();
    let verdict = |budget: u64| {
        let (_, numbers, best) = outcome(&layer(3, budget, &row));
        (numbers[3], best)
    };
    assert_eq!(verdict(STEPS), (STEPS, true));
    assert_eq!(verdict(STEPS - 1), (STEPS - 1, false));
    // Two searches that end in their first assignments.
    let cliques = [four, &moved(&FIVE)].concat();
    let found = (vec![0, 1, 2, 0, 0, 1, 2, 0, 1], [3, 0, 30, 0], true);
    assert_eq!(outcome(&layer(3, 0, &cliques)), found);
}
