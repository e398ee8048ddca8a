//! Memory that is lent to a call, with guard bytes on both sides.

/// What lies around the bytes that are lent. A call that reads past an end meets something that
/// could be part of a layer text or of a stream, so that its answer changes.
const SURROUNDINGS: [&[u8]; 8] = [
    b"0",
    b"\n",
    b"piece=1,2,3,4,5\n",
    b"\0\xff\x55",
    b"\0",
    b"\0\x04\x04\0",
    b"\0\x04\x07\0\0\x04\x04\0",
    b"\0\x04\x11\0\0\x04\x07\0\0\x04\x04\0",
];

const GUARD: usize = 64;

#[derive(Clone)]
pub struct Guarded {
    bytes: Vec<u8>,
    start: usize,
    size: usize,
}

impl Guarded {
    /// `salt` chooses what lies around the bytes, and how they are aligned.
    pub fn new(inside: &[u8], salt: u64) -> Guarded {
        let around = SURROUNDINGS[(salt % 8) as usize];
        let start = GUARD + (salt / 8 % 8) as usize;
        let before = around.iter().rev().cycle().take(start);
        let mut bytes: Vec<u8> = before.copied().collect();
        bytes.reverse();
        bytes.extend(inside);
        bytes.extend(around.iter().cycle().take(GUARD));
        let size = inside.len();
        Guarded { bytes, start, size }
    }

    /// A buffer whose old content is different for each salt.
    pub fn filled(size: usize, salt: u64) -> Guarded {
        let fill = |i: usize| ((i as u64 + salt).wrapping_mul(0x9E37_79B9) >> 13) as u8;
        let inside: Vec<u8> = (0..size).map(fill).collect();
        Guarded::new(&inside, salt)
    }

    pub fn inside(&self) -> &[u8] {
        &self.bytes[self.start..self.start + self.size]
    }

    pub fn inside_mut(&mut self) -> &mut [u8] {
        &mut self.bytes[self.start..self.start + self.size]
    }

    /// All the bytes, with the guards, and where the lent part starts.
    pub fn all(&mut self) -> (&mut [u8], usize) {
        (&mut self.bytes, self.start)
    }

    /// Where the lent part starts, by a pointer that may go over the guards too, and its size.
    pub fn lent(&mut self) -> (*mut u8, u64) {
        let start = self.bytes.as_mut_ptr().wrapping_add(self.start);
        (start, self.size as u64)
    }

    pub fn size(&self) -> usize {
        self.size
    }

    /// Where this differs first from another with the same places, from the lent part's start.
    pub fn first_difference(&self, other: &Guarded) -> Option<i64> {
        let mut pairs = self.bytes.iter().zip(&other.bytes);
        let at = pairs.position(|(a, b)| a != b)?;
        Some(at as i64 - self.start as i64)
    }
}

#[cfg(test)]
mod tests {
    use super::*;

    #[test]
    fn every_byte_is_watched() {
        for salt in 0..40 {
            let before = Guarded::filled(10, salt);
            assert_eq!(before.first_difference(&before), None);
            for at in 0..before.bytes.len() {
                let mut after = before.clone();
                after.bytes[at] ^= 1;
                let place = at as i64 - before.start as i64;
                assert_eq!(after.first_difference(&before), Some(place));
            }
        }
    }
}
