//! The library of small graphs: the least number of conflicts of each graph of five places on three masks.

pub const MASKS: usize = 3;
pub const PLACES: usize = 5;
const GRAPHS: usize = 1024;

/// The bit of a pair of places, the lower one first, in the index of a graph: 0-1, 0-2, 0-3, 0-4, 1-2 and so on up to 3-4.
pub const fn pair_bit(a: usize, b: usize) -> usize {
    1 << (a * (9 - a) / 2 + b - a - 1)
}

/// The entry of each index, over all assignments in which place 0 has mask 0: masks can be renamed.
pub const ENTRIES: [u8; GRAPHS] = {
    let mut entries = [u8::MAX; GRAPHS];
    let mut number = 0;
    while number < 81 {
        let shared = shared_pairs([0, number / 27, number / 9 % 3, number / 3 % 3, number % 3]);
        let mut index = 0;
        while index < GRAPHS {
            let conflicts = (index & shared).count_ones() as u8;
            if conflicts < entries[index] {
                entries[index] = conflicts;
            }
            index += 1;
        }
        number += 1;
    }
    entries
};

/// The bits of the pairs on one mask.
const fn shared_pairs(masks: [usize; PLACES]) -> usize {
    let mut pairs = 0;
    let mut b = 1;
    while b < PLACES {
        let mut a = 0;
        while a < b {
            if masks[a] == masks[b] {
                pairs |= pair_bit(a, b);
            }
            a += 1;
        }
        b += 1;
    }
    pairs
}
