//! The layer text, with pieces or as the settings of a stream, and the questions that it must pass
//! (RULES 9 and 11).

use super::edges::is_overlap;
use super::fixed::judge_fixed;
use super::masks::UNSET;
use super::mutation::Mutation;
use super::Refusal;
use crate::layer::{Layer, Piece, Settings};

pub const LONGEST_TEXT: usize = 32_768;

/// Both ends belong to a range.
type Range = (u64, u64);

const MASKS: Range = (2, 8);
const SPACING: Range = (1, 100_000);
const MARGIN: Range = (1, 100_000);
const WEIGHT: Range = (1, 1_000);
const BUDGET: Range = (0, 1_000_000_000);
const PIECES: Range = (0, 512);
const SHAPE: Range = (0, 511);
const COORDINATE: Range = (0, 1_000_000);
const PIECE: [Range; 5] = [SHAPE, COORDINATE, COORDINATE, COORDINATE, COORDINATE];

/// How many pieces a settings text states.
const NO_PIECES: Range = (0, 0);

pub fn read(text: &[u8], wrong: Mutation) -> Result<Layer, Refusal> {
    let longest = LONGEST_TEXT + usize::from(wrong == Mutation::TextOneLonger);
    judge_size(text, longest)?;
    let mut lines = Lines::of(text, wrong);
    let settings = lines.settings()?;
    let mut pieces = Vec::new();
    for _ in 0..lines.number("pieces=", PIECES)? {
        pieces.push(lines.piece()?);
    }
    if wrong == Mutation::OverlapBeforeFixed {
        judge_overlaps(&pieces, wrong)?;
    }
    for (piece, mask) in lines.fixed(pieces.len() as u64, settings.masks)? {
        // Only a fault lets through a piece that is not there.
        if let Some(piece) = pieces.get_mut(piece as usize) {
            piece.fixed = Some(mask);
        }
    }
    let layer = Layer { settings, pieces };
    if wrong == Mutation::DifferBeforeOverlap {
        judge_fixed(&layer, wrong)?;
    }
    judge_overlaps(&layer.pieces, wrong)?;
    judge_fixed(&layer, wrong)?;
    Ok(layer)
}

/// A layer text without pieces, as it stands beside a stream.
pub fn read_settings(text: &[u8], wrong: Mutation) -> Result<Settings, Refusal> {
    let mut lines = Lines::of(text, wrong);
    let settings = lines.settings()?;
    match wrong {
        Mutation::SettingsCountAny => drop(lines.number("pieces=", PIECES)?),
        Mutation::SettingsCountLate => {
            let count = lines.number("pieces=", NO_PIECES);
            lines.end()?;
            count?;
        }
        _ => drop(lines.number("pieces=", NO_PIECES)?),
    }
    match wrong {
        Mutation::TextAfterSettings => {}
        Mutation::FixedInSettings => drop(lines.fixed(0, settings.masks)?),
        _ => lines.end()?,
    }
    Ok(settings)
}

pub fn judge_size(text: &[u8], longest: usize) -> Result<(), Refusal> {
    if text.len() > longest {
        return Err(Refusal::new(2, 0));
    }
    Ok(())
}

/// Question 6: names the lowest piece that overlaps one before it, of its shape.
pub fn judge_overlaps(pieces: &[Piece], wrong: Mutation) -> Result<(), Refusal> {
    for (later, piece) in pieces.iter().enumerate() {
        let earlier = pieces[..later].iter().position(|p| is_overlap(p, piece));
        if let Some(earlier) = earlier {
            let named = match wrong {
                Mutation::EarlierPieceNamed => earlier,
                _ => later,
            };
            return Err(Refusal::new(6, named as u64));
        }
    }
    Ok(())
}

/// The lines that have not been read.
struct Lines<'a> {
    rest: &'a [u8],
    /// The number of the line that was read last, from 1.
    line: u64,
    wrong: Mutation,
}

impl<'a> Lines<'a> {
    fn of(text: &'a [u8], wrong: Mutation) -> Lines<'a> {
        Lines {
            rest: text,
            line: 0,
            wrong,
        }
    }

    /// The first five lines.
    fn settings(&mut self) -> Result<Settings, Refusal> {
        Ok(Settings {
            masks: self.number("masks=", MASKS)?,
            spacing: self.number("spacing=", SPACING)?,
            margin: self.number("margin=", MARGIN)?,
            weight: self.number("weight=", WEIGHT)?,
            budget: self.number("budget=", BUDGET)?,
        })
    }

    fn number(&mut self, key: &str, range: Range) -> Result<u64, Refusal> {
        Ok(self.numbers(key, &[range])?[0])
    }

    fn piece(&mut self) -> Result<Piece, Refusal> {
        let n = self.numbers("piece=", &PIECE)?;
        let (shape, x1, y1, x2, y2) = (n[0], n[1], n[2], n[3], n[4]);
        if x1 < x2 && y1 < y2 {
            let piece = Piece {
                shape,
                x1,
                y1,
                x2,
                y2,
                fixed: None,
            };
            Ok(piece)
        } else {
            Err(self.refused(5))
        }
    }

    /// The pieces and masks of the lines after the pieces, which go on to the end of the text. A layer
    /// has so many pieces and masks.
    fn fixed(&mut self, pieces: u64, masks: u64) -> Result<Vec<(u64, u64)>, Refusal> {
        let mut fixed: Vec<(u64, u64)> = Vec::new();
        let mut late = Ok(());
        while !self.rest.is_empty() {
            let last = fixed.last().map(|&(piece, _)| piece);
            match self.fixed_line(last, pieces, masks) {
                Err(refusal) if self.wrong == Mutation::FixedRangeLate && refusal.number == 13 => {
                    late = late.and(Err(refusal));
                }
                line => fixed.push(line?),
            }
            if self.wrong == Mutation::FixedLinesOneFewer && fixed.len() == 512 {
                return Err(self.refused(3));
            }
        }
        late?;
        match self.wrong {
            Mutation::LastFixedIgnored => drop(fixed.pop()),
            Mutation::FixedMaskUnset => fixed.retain(|&(_, mask)| mask != UNSET),
            _ => {}
        }
        Ok(fixed)
    }

    /// The piece and the mask of the next line: first its form, to which it belongs that the piece is
    /// above the last one, then whether there are such a piece and such a mask.
    fn fixed_line(
        &mut self,
        last: Option<u64>,
        pieces: u64,
        masks: u64,
    ) -> Result<(u64, u64), Refusal> {
        let numbers = self.in_form("fixed=", 2)?;
        let (piece, mask) = (numbers[0], numbers[1]);
        let above = |last| match self.wrong {
            Mutation::FixedFalling => piece != last,
            Mutation::FixedTwice => piece >= last,
            _ => piece > last,
        };
        let there = match self.wrong {
            Mutation::FixedMaskAtLimit => piece < pieces && mask <= masks,
            Mutation::FixedMaskUnset => piece < pieces && (mask < masks || mask == UNSET),
            Mutation::FixedPieceAtCount => piece <= pieces && mask < masks,
            _ => piece < pieces && mask < masks,
        };
        let number = match self.wrong {
            Mutation::FixedRangeIsFour => 4,
            _ => 13,
        };
        let order = self.asked(last.map_or(true, above), 3);
        let range = self.asked(there, number);
        match self.wrong {
            Mutation::FixedRangeFirst => range.and(order)?,
            _ => order.and(range)?,
        }
        Ok((piece, mask))
    }

    /// A question about the line that was read last.
    fn asked(&self, yes: bool, number: u64) -> Result<(), Refusal> {
        if yes {
            Ok(())
        } else {
            Err(self.refused(number))
        }
    }

    /// The numbers of the next line, which must have this form.
    fn in_form(&mut self, key: &str, count: usize) -> Result<Vec<u64>, Refusal> {
        self.line += 1;
        let line = self.take_line().ok_or(self.refused(3))?;
        let numbers = numbers_after(key, line, self.wrong).ok_or(self.refused(3))?;
        self.asked(numbers.len() == count, 3)?;
        Ok(numbers)
    }

    /// The numbers of the next line: first its form, then the ranges.
    fn numbers(&mut self, key: &str, ranges: &[Range]) -> Result<Vec<u64>, Refusal> {
        let numbers = self.in_form(key, ranges.len())?;
        let mut both = numbers.iter().zip(ranges);
        if both.any(|(number, range)| !(range.0..=range.1).contains(number)) {
            return Err(self.refused(4));
        }
        Ok(numbers)
    }

    /// The bytes up to the next byte 10, which is taken too.
    fn take_line(&mut self) -> Option<&'a [u8]> {
        match self.rest.iter().position(|&byte| byte == b'\n') {
            Some(end) => {
                let line = &self.rest[..end];
                self.rest = &self.rest[end + 1..];
                Some(line)
            }
            None if self.wrong == Mutation::LastNewlineOptional => {
                Some(std::mem::take(&mut self.rest))
            }
            None => None,
        }
    }

    /// Text after the last line counts as one more line.
    fn end(&self) -> Result<(), Refusal> {
        if self.rest.is_empty() {
            return Ok(());
        }
        Err(Refusal::new(3, self.line + 1))
    }

    fn refused(&self, number: u64) -> Refusal {
        Refusal::new(number, self.line)
    }
}

/// The numbers of a line that starts with the key, if it has that form.
fn numbers_after(key: &str, line: &[u8], wrong: Mutation) -> Option<Vec<u64>> {
    let numbers = line.strip_prefix(key.as_bytes())?;
    let numbers = numbers.split(|&byte| byte == b',');
    numbers.map(|digits| number(digits, wrong)).collect()
}

/// The value of some digits; one that is too large for 64 bits is as large as they allow.
pub fn number(digits: &[u8], wrong: Mutation) -> Option<u64> {
    let leading_zero = digits.len() > 1 && digits[0] == b'0';
    if digits.is_empty() || leading_zero || !digits.iter().all(u8::is_ascii_digit) {
        return None;
    }
    let append = |value: u64, digit: u64| match wrong {
        Mutation::WrapAt32Bits => value.wrapping_mul(10).wrapping_add(digit) % (1 << 32),
        Mutation::WrapAt64Bits => value.wrapping_mul(10).wrapping_add(digit),
        _ => value.saturating_mul(10).saturating_add(digit),
    };
    let digits = digits.iter().map(|digit| u64::from(digit - b'0'));
    Some(digits.fold(0, append))
}
