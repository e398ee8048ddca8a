//! Makes a settings text and a stream smaller while their difference stays.

use crate::shrink::{fewer, text};
use crate::stream::{split, BOUNDARY, ENDEL};

/// Whether a settings text and a stream show the difference.
type Differs<'a> = &'a dyn Fn(&[u8], &[u8]) -> bool;

/// Removes elements, records and bytes of the stream, and lines and bytes of the text.
pub fn stream(settings: &[u8], stream: &[u8], differs: Differs) -> (Vec<u8>, Vec<u8>) {
    let (mut settings, mut stream) = (settings.to_vec(), stream.to_vec());
    loop {
        let before = (settings.clone(), stream.clone());
        settings = text(&settings, &|settings| differs(settings, &stream));
        let still = |stream: &[u8]| differs(&settings, stream);
        stream = fewer(&elements(&stream), &|parts| still(&parts.concat())).concat();
        stream = fewer(&split(&stream), &|parts| still(&parts.concat())).concat();
        stream = fewer(&stream, &still);
        if (&settings, &stream) == (&before.0, &before.1) {
            return before;
        }
    }
}

/// The bytes of the stream, those from a BOUNDARY to an ENDEL together and other records alone.
fn elements(stream: &[u8]) -> Vec<Vec<u8>> {
    let mut parts: Vec<Vec<u8>> = Vec::new();
    let mut inside = false;
    for record in split(stream) {
        match parts.last_mut() {
            Some(part) if inside => part.extend(record),
            _ => parts.push(record.to_vec()),
        }
        let kind = record.get(2);
        inside = kind == Some(&BOUNDARY.0) || (inside && kind != Some(&ENDEL.0));
    }
    parts
}

#[cfg(test)]
mod tests {
    use super::*;

    #[test]
    fn a_stream_loses_what_is_not_needed() {
        let element = b"\0\x04\x08\0\0\x06\x0d\x02\0\x07\0\x04\x11\0";
        let start = [
            b"\0\x06\0\x02\x01\x02",
            &element.repeat(20)[..],
            b"\0\x04\x04\0",
        ]
        .concat();
        let differs = |settings: &[u8], stream: &[u8]| {
            settings.contains(&b'9') && stream.iter().filter(|&&byte| byte == 0x11).count() >= 2
        };
        let (settings, stream) = stream(b"masks=2\nweight=19\n", &start, &differs);
        assert_eq!(settings, b"9");
        assert_eq!(stream, b"\x11\x11");
    }

    #[test]
    fn an_element_is_one_part() {
        let start = b"\0\x04\x05\x02\0\x04\x08\0\0\x06\x0d\x02\0\x07\0\x04\x11\0\0\x04\x07\0\x09";
        let sizes: Vec<usize> = elements(start).iter().map(Vec::len).collect();
        assert_eq!(sizes, [4, 14, 4, 1]);
    }
}
