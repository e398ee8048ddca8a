//! Makes the input of a difference smaller while the difference stays.

use crate::layer::Layer;
use crate::reference::{self, Mutation};

/// The smallest layer text, as a layer if it is one.
pub fn smallest_text(start: &[u8], differs: &dyn Fn(&[u8]) -> bool) -> Vec<u8> {
    match reference::read(start, Mutation::None) {
        Ok(start) => layer(&start, &|layer| differs(&layer.text())).text(),
        Err(_) => text(start, differs),
    }
}

/// The pieces of a layer that stays larger than this are left where they are, and its fixed masks are all
/// kept or none.
const MOST_MOVED: usize = 100;

/// Removes pieces, with their fixed masks or these alone, and lowers numbers.
pub fn layer(start: &Layer, differs: &dyn Fn(&Layer) -> bool) -> Layer {
    let mut smallest = start.clone();
    loop {
        lower_numbers(&mut smallest, differs, &settings_of);
        // Where nothing changes from here on, another pass would change nothing either.
        let before = smallest.clone();
        smallest.pieces = fewer(&smallest.pieces, &|pieces| {
            let settings = smallest.settings;
            let pieces = pieces.to_vec();
            differs(&Layer { settings, pieces })
        });
        fewer_fixed(&mut smallest, differs);
        lower_numbers(&mut smallest, differs, &axes_of);
        if smallest.pieces.len() <= MOST_MOVED {
            lower_numbers(&mut smallest, differs, &fixed_of);
            lower_numbers(&mut smallest, differs, &places_of);
            lower_numbers(&mut smallest, differs, &numbers_of);
        }
        if smallest == before {
            return smallest;
        }
    }
}

/// Lets go of fixed masks.
fn fewer_fixed(layer: &mut Layer, differs: &dyn Fn(&Layer) -> bool) {
    let is_fixed = |&piece: &usize| layer.pieces[piece].fixed.is_some();
    let fixed: Vec<usize> = (0..layer.pieces.len()).filter(is_fixed).collect();
    let with = |kept: &[usize]| {
        let mut layer = layer.clone();
        let others = layer.pieces.iter_mut().enumerate();
        let others = others.filter(|(piece, _)| !kept.contains(piece));
        others.for_each(|(_, piece)| piece.fixed = None);
        layer
    };
    let kept = match layer.pieces.len() {
        0..=MOST_MOVED => fewer(&fixed, &|kept| differs(&with(kept))),
        _ if differs(&with(&[])) => Vec::new(),
        _ => fixed,
    };
    *layer = with(&kept);
}

/// Removes pieces, lines and bytes.
pub fn text(start: &[u8], differs: &dyn Fn(&[u8]) -> bool) -> Vec<u8> {
    let mut smallest = start.to_vec();
    loop {
        let before = smallest.clone();
        fewer_pieces(&mut smallest, differs);
        smallest = fewer(&lines(&smallest), &|lines| differs(&lines.concat())).concat();
        smallest = fewer(&smallest, differs);
        if smallest == before {
            return smallest;
        }
    }
}

pub fn lines(text: &[u8]) -> Vec<&[u8]> {
    text.split_inclusive(|&byte| byte == b'\n').collect()
}

/// Removes piece lines from the last on, and lowers the stated number of pieces with them.
fn fewer_pieces(text: &mut Vec<u8>, differs: &dyn Fn(&[u8]) -> bool) {
    for line in (0..lines(text).len()).rev() {
        match without_piece(text, line) {
            Some(without) if differs(&without) => *text = without,
            _ => {}
        }
    }
}

/// The text without a piece line, if the line is one and the text states a number of pieces. Fixed lines
/// follow their pieces.
fn without_piece(text: &[u8], line: usize) -> Option<Vec<u8>> {
    let mut lines = lines(text);
    let stated = lines.iter().position(|line| line.starts_with(b"pieces="))?;
    let count = std::str::from_utf8(lines[stated]).ok()?.trim_end();
    let count = count.strip_prefix("pieces=")?.parse::<u64>().ok()?;
    let fewer = format!("pieces={}\n", count.checked_sub(1)?);
    if !lines[line].starts_with(b"piece=") {
        return None;
    }
    let before = lines[..line].iter();
    let removed = before.filter(|line| line.starts_with(b"piece=")).count();
    lines[stated] = fewer.as_bytes();
    lines.remove(line);
    let kept: Vec<Vec<u8>> = (lines.iter())
        .filter_map(|line| without_number(line, removed as u64))
        .collect();
    Some(kept.concat())
}

/// A line of a text that has lost a piece: none if it fixed that piece, another one if it fixes a later
/// piece.
fn without_number(line: &[u8], removed: u64) -> Option<Vec<u8>> {
    let fixed = || {
        let line = std::str::from_utf8(line).ok()?;
        let (piece, mask) = line.strip_prefix("fixed=")?.split_once(',')?;
        Some((piece.parse::<u64>().ok()?, mask))
    };
    match fixed() {
        Some((piece, _)) if piece == removed => None,
        Some((piece, mask)) if piece > removed => {
            Some(format!("fixed={},{mask}", piece - 1).into_bytes())
        }
        _ => Some(line.to_vec()),
    }
}

/// A list that stays longer than this is not gone through item by item.
const MOST_RUNS: usize = 1_000;

/// Leaves out as many items as it can, in runs of halving length.
pub fn fewer<T: Clone>(items: &[T], differs: &dyn Fn(&[T]) -> bool) -> Vec<T> {
    let mut items = items.to_vec();
    let mut run = items.len();
    while run > 0 && items.len() / run <= MOST_RUNS {
        let mut at = 0;
        while at < items.len() {
            let end = (at + run).min(items.len());
            let without = [&items[..at], &items[end..]].concat();
            if differs(&without) {
                items = without;
            } else {
                at = end;
            }
        }
        run /= 2;
    }
    items
}

/// Numbers that are lowered together by one amount.
type Together<'a> = Vec<&'a mut u64>;

/// Lowers each group of numbers by as much as the difference allows.
fn lower_numbers(
    layer: &mut Layer,
    differs: &dyn Fn(&Layer) -> bool,
    groups: &dyn Fn(&mut Layer) -> Vec<Together<'_>>,
) {
    for group in 0..groups(layer).len() {
        let mut amount = least(&groups(layer)[group]);
        while amount > 0 {
            let mut lower = layer.clone();
            for number in &mut groups(&mut lower)[group] {
                **number -= amount;
            }
            if differs(&lower) {
                *layer = lower;
                amount = amount.min(least(&groups(layer)[group]));
            } else {
                amount /= 2;
            }
        }
    }
}

fn least(numbers: &Together) -> u64 {
    numbers.iter().map(|number| **number).min().unwrap_or(0)
}

fn settings_of(layer: &mut Layer) -> Vec<Together<'_>> {
    let s = &mut layer.settings;
    [
        &mut s.budget,
        &mut s.masks,
        &mut s.weight,
        &mut s.margin,
        &mut s.spacing,
    ]
    .map(|number| vec![number])
    .into()
}

fn fixed_of(layer: &mut Layer) -> Vec<Together<'_>> {
    let fixed = layer.pieces.iter_mut().filter_map(|p| p.fixed.as_mut());
    fixed.map(|mask| vec![mask]).collect()
}

/// All pieces move together.
fn axes_of(layer: &mut Layer) -> Vec<Together<'_>> {
    let (mut xs, mut ys) = (Vec::new(), Vec::new());
    for piece in &mut layer.pieces {
        xs.extend([&mut piece.x1, &mut piece.x2]);
        ys.extend([&mut piece.y1, &mut piece.y2]);
    }
    vec![xs, ys]
}

/// Each piece moves alone.
fn places_of(layer: &mut Layer) -> Vec<Together<'_>> {
    let mut places = Vec::new();
    for piece in &mut layer.pieces {
        places.push(vec![&mut piece.x1, &mut piece.x2]);
        places.push(vec![&mut piece.y1, &mut piece.y2]);
    }
    places
}

fn numbers_of(layer: &mut Layer) -> Vec<Together<'_>> {
    let mut numbers = Vec::new();
    for p in &mut layer.pieces {
        for number in [&mut p.shape, &mut p.x1, &mut p.y1, &mut p.x2, &mut p.y2] {
            numbers.push(vec![number]);
        }
    }
    numbers
}

#[cfg(test)]
mod tests {
    use super::*;
    use crate::layer::{Piece, Settings};

    #[test]
    fn a_layer_loses_what_is_not_needed() {
        let piece = |shape| Piece {
            shape,
            x1: 100,
            y1: 200,
            x2: 300,
            y2: 400,
            fixed: None,
        };
        let settings = Settings {
            masks: 5,
            spacing: 80,
            margin: 10,
            weight: 10,
            budget: 1_000,
        };
        let start = Layer {
            settings,
            pieces: (0..50).map(piece).collect(),
        };
        let needed = |p: &&Piece| p.shape >= 3 && p.x2 - p.x1 >= 7;
        let differs = |layer: &Layer| {
            let wide = layer.pieces.iter().filter(|p| p.x1 <= p.x2).filter(needed);
            wide.count() >= 2 && layer.settings.budget >= 9
        };
        let text = layer(&start, &differs).text();
        let smallest = "masks=0\nspacing=0\nmargin=0\nweight=0\nbudget=9\npieces=2\n\
                        piece=3,0,0,7,0\npiece=3,0,0,7,0\n";
        assert_eq!(String::from_utf8_lossy(&text), smallest);
    }

    #[test]
    fn a_text_loses_what_is_not_needed() {
        let start = b"masks=2\npieces=3\npiece=1\npiece=2\npiece=39\nrest";
        let differs = |text: &[u8]| {
            let text = String::from_utf8_lossy(text);
            let there = text.matches("piece=").count();
            text.contains("39") && text.contains(&format!("pieces={there}\n"))
        };
        assert_eq!(text(start, &differs), b"pieces=1\npiece=39");
    }

    #[test]
    fn fixed_masks_go_one_by_one() {
        let settings = Settings {
            masks: 8,
            spacing: 80,
            margin: 10,
            weight: 10,
            budget: 0,
        };
        let piece = |shape| Piece {
            fixed: Some(shape % 8),
            ..Piece::at_corner(shape)
        };
        let pieces = (0..40).map(piece).collect();
        let start = Layer { settings, pieces };
        let high = |p: &&Piece| p.fixed.map_or(false, |mask| mask >= 3);
        let differs = |layer: &Layer| {
            let count = layer.pieces.iter().filter(high).count();
            layer.pieces.len() >= 3 && count >= 1
        };
        let text = layer(&start, &differs).text();
        let text = String::from_utf8_lossy(&text);
        assert_eq!(text.matches("piece=").count(), 3);
        let fixed: Vec<&str> = text.lines().filter(|l| l.starts_with("fixed")).collect();
        assert_eq!(fixed.len(), 1);
        assert!(fixed[0].ends_with(",3"));
    }

    #[test]
    fn fixed_lines_follow_their_pieces() {
        let start = b"pieces=3\npiece=1\npiece=2\npiece=39\nfixed=1,5\nfixed=2,7\nfixed=9,0\n";
        let differs = |text: &[u8]| {
            let text = String::from_utf8_lossy(text);
            let there = text.matches("piece=").count();
            let last = format!("fixed={},7\n", there.saturating_sub(1));
            text.contains("39") && text.contains(&last) && text.contains(&format!("={there}\n"))
        };
        assert_eq!(text(start, &differs), b"=1\npiece=39fixed=0,7\n");
    }
}
