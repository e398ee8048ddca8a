//! A GDSII stream with its settings text, and the questions that they must pass.

use super::mutation::Mutation;
use super::polygon::Polygon;
use super::read::{judge_overlaps, judge_size, number, read_settings, LONGEST_TEXT};
use super::records::Records;
use super::units::is_nanometre;
use super::Refusal;
use crate::layer::{Layer, Piece};
use crate::stream::{
    BGNLIB, BGNSTR, BOUNDARY, DATATYPE, ENDEL, ENDLIB, ENDSTR, HEADER, LAYER, LIBNAME, PROPATTR,
    PROPVALUE, STRNAME, UNITS, XY,
};

const LONGEST_STREAM: usize = 65_536;
const MOST_PIECES: usize = 512;

/// What an element states: its shape, and a rectangle that may lie outside of the layer.
struct Element {
    shape: u64,
    rectangle: [i64; 4],
}

pub fn read_stream(settings: &[u8], stream: &[u8], wrong: Mutation) -> Result<Layer, Refusal> {
    let longest = LONGEST_TEXT + usize::from(wrong == Mutation::SettingsOneLonger);
    judge_size(settings, longest)?;
    let longest = LONGEST_STREAM + usize::from(wrong == Mutation::StreamOneLonger);
    let size = judge_size(stream, longest);
    if wrong != Mutation::StreamSizeLate {
        size?;
    }
    if wrong == Mutation::StreamBeforeSettings {
        elements(stream, wrong)?;
    }
    let settings = read_settings(settings, wrong)?;
    size?;
    let pieces = pieces(&elements(stream, wrong)?, wrong)?;
    judge_overlaps(&pieces, wrong)?;
    Ok(Layer { settings, pieces })
}

/// Questions 9 to 11, record after record.
fn elements(stream: &[u8], wrong: Mutation) -> Result<Vec<Element>, Refusal> {
    let mut records = Records::new(stream, wrong);
    records.expect(HEADER, 2)?;
    records.expect(BGNLIB, 24)?;
    let name = records.expect_name(LIBNAME)?;
    if wrong == Mutation::NameNeeded && name.is_empty() {
        return Err(records.refused(9));
    }
    let units = records.expect(UNITS, 16)?;
    let other_unit = !is_nanometre(units, wrong);
    let unit_refused = Err(records.refused(11));
    if other_unit && wrong != Mutation::UnitLate {
        return unit_refused;
    }
    records.expect(BGNSTR, 24)?;
    records.expect_name(STRNAME)?;
    let mut elements = Vec::new();
    while records.is_first(BOUNDARY, ENDSTR)? {
        elements.push(element(&mut records, elements.len() as u64, wrong)?);
    }
    records.expect(ENDLIB, 0)?;
    records.zeros()?;
    if other_unit {
        return unit_refused;
    }
    Ok(elements)
}

/// The records of an element after BOUNDARY.
fn element(records: &mut Records, number: u64, wrong: Mutation) -> Result<Element, Refusal> {
    records.expect(LAYER, 2)?;
    records.expect(DATATYPE, 2)?;
    let rectangle = rectangle(records, number, wrong)?;
    let attribute = records.expect(PROPATTR, 2)?;
    if attribute != [0, 1] && wrong != Mutation::AnyAttribute {
        return Err(records.refused(9));
    }
    let value = records.expect_name(PROPVALUE)?;
    let shape = shape(value, wrong).ok_or(records.refused(9))?;
    if wrong == Mutation::ShapeInRecord && shape > 511 {
        return Err(records.refused(9));
    }
    records.expect(ENDEL, 0)?;
    Ok(Element { shape, rectangle })
}

fn rectangle(records: &mut Records, number: u64, wrong: Mutation) -> Result<[i64; 4], Refusal> {
    let data = match wrong {
        Mutation::OtherPointsNoRectangle => records.expect_name(XY)?,
        _ => records.expect(XY, 40)?,
    };
    let rectangle = Polygon::of(data, wrong).and_then(|polygon| polygon.rectangle(wrong));
    let rectangle = rectangle.ok_or(records.refused(10))?;
    let negative = rectangle.iter().any(|&value| value < 0);
    match wrong {
        Mutation::NegativeNoRectangle if negative => Err(records.refused(10)),
        Mutation::NegativeAtOnce if negative => Err(Refusal::new(4, number)),
        _ => Ok(rectangle),
    }
}

/// The number that a property holds: digits, with a zero byte behind an odd count of them.
fn shape(value: &[u8], wrong: Mutation) -> Option<u64> {
    let digits: Vec<u8> = match (wrong, value) {
        (Mutation::FillersSkipped, _) => value.iter().copied().filter(|&b| b != 0).collect(),
        (_, [digits @ .., 0]) => digits.to_vec(),
        (_, digits) => digits.to_vec(),
    };
    match wrong {
        Mutation::NoDigitIsZero if digits.is_empty() => Some(0),
        Mutation::LeadingZeros => {
            let zeros = digits.iter().take_while(|&&digit| digit == b'0').count();
            number(&digits[zeros.min(digits.len().max(1) - 1)..], wrong)
        }
        Mutation::ShapeWrapsAt32Bits => number(&digits, Mutation::WrapAt32Bits),
        Mutation::ShapeWrapsAt64Bits => number(&digits, Mutation::WrapAt64Bits),
        _ => number(&digits, wrong),
    }
}

/// Question 4: how many pieces there are, and then their numbers, piece after piece.
fn pieces(elements: &[Element], wrong: Mutation) -> Result<Vec<Piece>, Refusal> {
    let most = MOST_PIECES + usize::from(wrong == Mutation::PiecesOneMore);
    let too_many = elements.len() > most;
    if too_many && wrong != Mutation::CountLate {
        return Err(Refusal::new(4, 0));
    }
    let from = u64::from(wrong == Mutation::PiecesFromOne);
    let mut pieces = Vec::new();
    for (element, place) in elements.iter().zip(from..) {
        pieces.push(piece(element, wrong).ok_or(Refusal::new(4, place))?);
        if wrong == Mutation::OverlapAtOnce {
            judge_overlaps(&pieces, wrong)?;
        }
    }
    if too_many {
        return Err(Refusal::new(4, 0));
    }
    Ok(pieces)
}

fn piece(element: &Element, wrong: Mutation) -> Option<Piece> {
    let coordinate = |value: i64| {
        let value = match wrong {
            Mutation::CoordinateSignLost => value.abs(),
            _ => value,
        };
        (0..=1_000_000).contains(&value).then_some(value as u64)
    };
    let [x1, y1, x2, y2] = element.rectangle.map(coordinate);
    let piece = Piece {
        shape: element.shape,
        x1: x1?,
        y1: y1?,
        x2: x2?,
        y2: y2?,
        fixed: None,
    };
    (piece.shape <= 511).then_some(piece)
}
