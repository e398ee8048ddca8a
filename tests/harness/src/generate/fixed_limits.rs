//! Fixed lines at the ends of their ranges, in every order, and as many as there can be. There is nothing
//! random in them.

use super::limits::{around, chain, chains, heap, knot, largest, row, sheet, tied};
use super::LAST;
use crate::layer::Layer;

/// The most bytes of a text.
const LONGEST_TEXT: usize = 32_768;

/// What the questions about fixed lines meet.
pub fn fixed_at_limits() -> Vec<Vec<u8>> {
    let mut texts = Vec::new();
    texts.extend(one_line());
    texts.extend(two_lines());
    texts.extend(every_knot().map(|knot| knot.text()));
    texts.extend(every_knot().map(overlapping));
    texts.extend(too_many());
    texts.extend(longest());
    texts
}

/// What a run does with fixed masks.
pub fn fixed_runs() -> Vec<Vec<u8>> {
    let at_budgets = |layer: Layer| [1, 3, 100].map(|budget| layer.with_budget(budget).text());
    let mut texts = Vec::new();
    texts.extend(every_knot().flat_map(at_budgets));
    texts.extend(two_rows());
    texts.extend(largest_fixed());
    texts
}

fn with_lines(layer: &Layer, lines: &str) -> Vec<u8> {
    [&layer.text(), lines.as_bytes()].concat()
}

/// The layer with a mask for each piece, or none.
fn fixed(mut layer: Layer, mask: impl Fn(u64) -> Option<u64>) -> Layer {
    for (number, piece) in layer.pieces.iter_mut().enumerate() {
        piece.fixed = mask(number as u64);
    }
    layer
}

/// Both numbers at the ends of their ranges and beside them, for four pieces and two masks, and for no
/// piece.
fn one_line() -> Vec<Vec<u8>> {
    let (four, none) = (row(4), row(0));
    let pieces = around(0, 3).into_iter();
    let mut lines: Vec<String> = pieces.map(|piece| format!("fixed={piece},0\n")).collect();
    let masks = around(0, 1).into_iter().chain([254, 255, 256, 511]);
    lines.extend(masks.map(|mask| format!("fixed=3,{mask}\n")));
    lines.push(format!("fixed=3,{}\n", u128::from(u64::MAX) + 1));
    lines.push(format!("fixed={},1\n", u128::from(u64::MAX) + 4));
    let mut texts: Vec<Vec<u8>> = lines.iter().map(|line| with_lines(&four, line)).collect();
    texts.push(with_lines(&none, "fixed=0,0\n"));
    texts
}

/// Rising, doubled and falling pieces, with masks in range and out of it.
fn two_lines() -> Vec<Vec<u8>> {
    let four = row(4);
    let mut texts = Vec::new();
    for (one, other) in (0..25).map(|both| (both / 5, both % 5)) {
        for (mask, next) in [(0, 1), (0, 2), (2, 0), (2, 2)] {
            let lines = format!("fixed={one},{mask}\nfixed={other},{next}\n");
            texts.push(with_lines(&four, &lines));
        }
    }
    for lines in ["fixed=0,2\nx", "fixed=4,0\nfixed=4\n", "fixed=0,0\n\n"] {
        texts.push(with_lines(&four, lines));
    }
    texts
}

/// Each piece of the knot free or on either mask.
fn every_knot() -> impl Iterator<Item = Layer> {
    let masks = [None, Some(0), Some(1)];
    (0..243).map(move |number: usize| fixed(knot(), |p| masks[number / 3_usize.pow(p as u32) % 3]))
}

/// The knot with a piece that reaches into another one of its shape.
fn overlapping(mut knot: Layer) -> Vec<u8> {
    knot.pieces[3].x2 += 5;
    knot.text()
}

/// Two rows of three that are far from each other, all in conflict, with one piece on either mask.
fn two_rows() -> Vec<Vec<u8>> {
    let mut rows = row(6);
    rows.settings.spacing = 80;
    for piece in &mut rows.pieces[3..] {
        (piece.x1, piece.x2) = (piece.x1 + 1_000, piece.x2 + 1_000);
    }
    let on = |number: u64| move |piece: u64| (piece == number / 2).then_some(number % 2);
    (0..12).map(|n| fixed(rows.clone(), on(n)).text()).collect()
}

/// All of 512 pieces fixed, and one line more.
fn too_many() -> Vec<Vec<u8>> {
    let all = fixed(row(512), |piece| Some(piece % 2));
    let more = ["", "fixed=511,1\n", "fixed=512,0\n", "fixed=0,0\n", "\n"];
    more.map(|line| with_lines(&all, line)).into()
}

/// The longest lines of 512 pieces that are all fixed, and a number that fills the text up or makes it too
/// long.
fn longest() -> Vec<Vec<u8>> {
    let mut far = largest(heap(), 8, 0);
    for piece in &mut far.pieces {
        (piece.x1, piece.y1) = (LAST - 1, LAST - 1);
        (piece.x2, piece.y2) = (LAST, LAST);
    }
    let all = fixed(far, |piece| Some(piece % 8));
    let filled = |size: usize| {
        let mut text = all.text();
        text.pop();
        text.resize(size - 1, b'0');
        text.push(b'\n');
        text
    };
    let sizes = [LONGEST_TEXT - 1, LONGEST_TEXT, LONGEST_TEXT + 1];
    let mut texts: Vec<Vec<u8>> = sizes.map(filled).into();
    texts.push(all.text());
    texts
}

/// The layers with the most edges and ties, with pieces fixed from none to all.
fn largest_fixed() -> Vec<Vec<u8>> {
    let mut texts = Vec::new();
    for (masks, budget) in [(2, 2_000), (8, 1_000)] {
        let layers = [
            largest(heap(), masks, budget),
            largest(sheet(), masks, budget),
            tied(chain(|number| 205 * number % 512), masks, budget),
            tied(chains(3), masks, budget),
        ];
        let kinds: [&dyn Fn(u64) -> Option<u64>; 3] = [
            &|_| Some(masks - 1),
            &|piece| (piece == 511).then_some(masks - 1),
            &|piece| (piece % 3 == 1).then_some(1),
        ];
        for layer in layers {
            texts.extend(kinds.map(|mask| fixed(layer.clone(), mask).text()));
        }
    }
    texts
}
