//! Streams by hand: the row of RULES 9 as records, and what a change of it is answered with.

use super::*;
use crate::stream::{Kind, Record, Stream, BOUNDARY, ENDSTR, LIBNAME, PROPATTR, XY};

const SETTINGS: &[u8] = b"masks=2\nspacing=80\nmargin=10\nweight=10\nbudget=100\npieces=0\n";

/// Records 10, 17 and 24 are the three XY.
fn row() -> Stream {
    let unit = 0x3944_B82F_A09B_5A54_u64.to_be_bytes();
    let mut records = vec![
        Record::new(Kind(0x00, 0x02), &[2, 88]),
        Record::new(Kind(0x01, 0x02), &[0; 24]),
        Record::new(Kind(0x02, 0x06), b"LIB\0"),
        Record::new(Kind(0x03, 0x05), &[unit, unit].concat()),
        Record::new(Kind(0x05, 0x02), &[0; 24]),
        Record::new(Kind(0x06, 0x06), b""),
    ];
    for (x, shape) in [(0, b"0\0"), (40, b"1\0"), (80, b"2\0")] {
        records.extend([
            Record::new(Kind(0x08, 0x00), &[]),
            Record::new(Kind(0x0D, 0x02), &[0, 7]),
            Record::new(Kind(0x0E, 0x02), &[0, 0]),
            Record::new(Kind(0x10, 0x03), &around([x, 0, x + 20, 20])),
            Record::new(Kind(0x2B, 0x02), &[0, 1]),
            Record::new(Kind(0x2C, 0x06), shape),
            Record::new(Kind(0x11, 0x00), &[]),
        ]);
    }
    records.push(Record::new(Kind(0x07, 0x00), &[]));
    records.push(Record::new(Kind(0x04, 0x00), &[]));
    let after = Vec::new();
    Stream { records, after }
}

fn around([x1, y1, x2, y2]: [i32; 4]) -> Vec<u8> {
    points(&[x1, y1, x1, y2, x2, y2, x2, y1, x1, y1])
}

fn points(numbers: &[i32]) -> Vec<u8> {
    numbers
        .iter()
        .flat_map(|number| number.to_be_bytes())
        .collect()
}

fn refused(change: impl FnOnce(&mut Stream)) -> Option<(u64, u64)> {
    let mut stream = row();
    change(&mut stream);
    let refusal = answer_stream(SETTINGS, &stream.bytes(), 4096, Mutation::None).err()?;
    Some((refusal.number, refusal.place))
}

fn refused_with_settings(settings: &str) -> Option<(u64, u64)> {
    let stream = row().bytes();
    let refusal = answer_stream(settings.as_bytes(), &stream, 4096, Mutation::None).err()?;
    Some((refusal.number, refusal.place))
}

#[test]
fn the_row() {
    let text = b"verdict=best\nconflicts=1\nstitches=0\ncost=10\nsteps=5\nmask=0\nmask=1\nmask=0\n";
    let found = answer_stream(SETTINGS, &row().bytes(), 4096, Mutation::None);
    assert_eq!(found, Ok(text.to_vec()));
}

#[test]
fn records() {
    assert_eq!(refused(|_| ()), None);
    assert_eq!(refused(|s| s.records.clear()), Some((9, 1)));
    assert_eq!(refused(|s| drop(s.records.pop())), Some((9, 29)));
    assert_eq!(refused(|s| s.after = vec![0; 9]), None);
    assert_eq!(refused(|s| s.after = vec![0, 1]), Some((9, 30)));
    assert_eq!(refused(|s| s.records[0].stated = Some(3)), Some((9, 1)));
    assert_eq!(refused(|s| s.records[2].stated = Some(9)), Some((9, 3)));
    assert_eq!(refused(|s| s.records[2] = Record::new(LIBNAME, &[])), None);
    assert_eq!(
        refused(|s| s.records[6] = Record::new(ENDSTR, &[])),
        Some((9, 8))
    );
    assert_eq!(
        refused(|s| s.records[6].kind = Kind(BOUNDARY.0, 2)),
        Some((9, 7))
    );
    assert_eq!(
        refused(|s| s.records[17] = Record::new(PROPATTR, &[0, 2])),
        Some((9, 18))
    );
    assert_eq!(refused(|s| drop(s.records.drain(6..27))), None);
    assert_eq!(refused(|s| s.after = vec![0; 65_536]), Some((2, 0)));
}

#[test]
fn paths() {
    let path = |numbers: &[i32]| refused(|s| s.records[16] = Record::new(XY, &points(numbers)));
    assert_eq!(path(&[60, 20, 40, 20, 40, 0, 60, 0, 60, 20]), None);
    assert_eq!(path(&[60, 20, 60, 0, 40, 0, 40, 20, 60, 20]), None);
    assert_eq!(
        path(&[60, 20, 60, 0, 40, 0, 40, 20, 60, 19]),
        Some((10, 17))
    );
    assert_eq!(path(&[40, 0, 60, 0, 60, 20, 60, 0, 40, 0]), Some((10, 17)));
    assert_eq!(path(&[40, 0, 60, 20, 40, 20, 60, 0, 40, 0]), Some((10, 17)));
    assert_eq!(path(&[40, 0, 60, 0, 60, 0, 40, 0, 40, 0]), Some((10, 17)));
    assert_eq!(path(&[40, 0, 60, 0, 60, 20, 40, 20]), Some((9, 17)));
    let least = i32::MIN;
    assert_eq!(
        path(&[least, 0, 60, 0, 60, 20, least, 20, least, 0]),
        Some((4, 1))
    );
}

#[test]
fn pieces() {
    let value = |value: &[u8]| refused(|s| s.records[11].data = value.to_vec());
    assert_eq!(value(b"511\0"), None);
    assert_eq!(value(b"512\0"), Some((4, 0)));
    assert_eq!(value(&[b'9'; 1000]), Some((4, 0)));
    for bad in [
        &b""[..],
        b"\0\0",
        b"01",
        b"12\0\0",
        b"\x001",
        b"1\x001\0",
        b"+1",
    ] {
        assert_eq!(value(bad), Some((9, 12)));
    }
    let overlapping = |s: &mut Stream| {
        s.records[18].data = b"0\0".to_vec();
        s.records[16].data = around([19, 0, 39, 20]);
    };
    assert_eq!(refused(overlapping), Some((6, 1)));
    let below = |s: &mut Stream| s.records[9].data = around([-1, 0, 20, 20]);
    assert_eq!(refused(below), Some((4, 0)));
    let later = |s: &mut Stream| {
        below(s);
        s.records[23].data.pop();
    };
    assert_eq!(refused(later), Some((9, 24)));
}

#[test]
fn as_many_as_a_layer_has() {
    let elements = |count: usize| {
        refused(|s| {
            let element = s.records[6..13].to_vec();
            s.records.splice(6..27, vec![element; count].concat());
        })
    };
    assert_eq!(elements(512), Some((6, 1)));
    assert_eq!(elements(513), Some((4, 0)));
}

#[test]
fn units() {
    let unit = |real: u64| {
        refused(|s| {
            s.records[3]
                .data
                .splice(8.., real.to_be_bytes())
                .for_each(drop)
        })
    };
    // 10⁻⁹ × 2⁸⁴ = 19342813113834066.79…, and a millionth of it is 19342813113.83….
    let (least, greatest) = (19_342_793_771_020_953, 19_342_832_456_647_180);
    let at = |exponent: u64, fraction: u64| unit(exponent << 56 | fraction);
    assert_eq!([at(57, least), at(57, greatest)], [None, None]);
    assert_eq!(at(57, least - 1), Some((11, 4)));
    assert_eq!(at(57, greatest + 1), Some((11, 4)));
    assert_eq!(at(57 + 128, least), Some((11, 4)));
    assert_eq!([at(66, 281_475), at(67, 17_592)], [None, Some((11, 4))]);
    assert_eq!([at(66, 281_474), at(66, 281_476)], [Some((11, 4)); 2]);
    assert_eq!(
        [unit(0), unit(127 << 56), unit(u64::MAX)],
        [Some((11, 4)); 3]
    );
}

#[test]
fn settings() {
    let counted = |count: &str| {
        let settings = String::from_utf8_lossy(SETTINGS).replace("pieces=0\n", count);
        refused_with_settings(&settings)
    };
    assert_eq!(counted("pieces=0\n"), None);
    assert_eq!(counted("pieces=1\nx"), Some((4, 6)));
    assert_eq!(counted("pieces=99999999999999999999999\n"), Some((4, 6)));
    assert_eq!(counted("pieces=1"), Some((3, 6)));
    assert_eq!(counted("pieces=0\nx"), Some((3, 7)));
    assert_eq!(counted("pieces=00\n"), Some((3, 6)));
    assert_eq!(refused_with_settings(""), Some((3, 1)));
    assert_eq!(refused_with_settings(&"x".repeat(32_769)), Some((2, 0)));
    let small = answer_stream(b"", &[1; 70_000], 4095, Mutation::None);
    assert_eq!(small, Err(Refusal::new(1, 0)));
}
