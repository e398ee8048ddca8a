//! Reals for the unit of a stream, in every representation that is allowed, and beside them.

use crate::random::Random;

/// 10⁻⁹ as most programs write it.
pub const NANOMETRE: [u8; 8] = [0x39, 0x44, 0xB8, 0x2F, 0xA0, 0x9B, 0x5A, 0x54];

/// The exponents, with their excess, at which some fraction is near enough to a nanometre.
const EXPONENTS: (u64, u64) = (57, 66);

/// A fraction is below this.
const FRACTIONS: u64 = 1 << 56;

/// The least and the greatest fraction that are allowed at an exponent from 52 to 70; where there
/// are none, the first is above the second.
pub fn bounds(exponent: u64) -> (u64, u64) {
    // 10⁻⁹ = fraction × 2 to the power of 4 × exponent − 312, and the bounds by a millionth off.
    let metre = 1_000_000_000_000_000;
    let power = 1_u128 << (312 - 4 * exponent);
    let least = (999_999 * power + metre - 1) / metre;
    let greatest = 1_000_001 * power / metre;
    let cut = |value: u128| value.min(u128::from(u64::MAX)) as u64;
    (cut(least), cut(greatest))
}

pub fn real(negative: bool, exponent: u64, fraction: u64) -> [u8; 8] {
    let sign = u64::from(negative) << 63;
    (sign | ((exponent % 128) << 56) | (fraction % FRACTIONS)).to_be_bytes()
}

/// Mostly the usual one, and otherwise any that is allowed, the bounds more often.
pub fn any_unit(random: &mut Random) -> [u8; 8] {
    if random.once_in(2) {
        return NANOMETRE;
    }
    let exponent = random.between(EXPONENTS.0, EXPONENTS.1);
    let (least, greatest) = bounds(exponent);
    let fraction = match random.below(4) {
        0 => least,
        1 => greatest,
        _ => random.between(least, greatest),
    };
    real(false, exponent, fraction)
}

/// One that may be wrong.
pub fn other_unit(random: &mut Random) -> [u8; 8] {
    let exponent = random.between(EXPONENTS.0 - 1, EXPONENTS.1 + 1);
    let (least, greatest) = bounds(exponent);
    let fraction = match random.below(6) {
        0 => least - random.between(1, 2),
        1 => least,
        2 => greatest,
        3 => greatest + random.between(1, 2),
        4 => random.next(),
        _ => random.of_any_size(FRACTIONS - 1),
    };
    match random.below(6) {
        0 => real(true, exponent, fraction),
        1 => real(false, random.below(128), fraction),
        2 => random.next().to_be_bytes(),
        3 => [0; 8],
        _ => real(false, exponent, fraction),
    }
}

/// Both bounds and what lies beside them, at every exponent near those that are allowed, and some
/// fractions at all the others.
pub fn at_bounds() -> Vec<[u8; 8]> {
    let mut reals = Vec::new();
    for exponent in 52..=70 {
        let (least, greatest) = bounds(exponent);
        let near = |bound: u64| bound.saturating_sub(2)..=bound.saturating_add(2);
        let fractions = near(least).chain(near(greatest)).chain([0, FRACTIONS - 1]);
        for fraction in fractions.filter(|&fraction| fraction < FRACTIONS) {
            reals.extend([false, true].map(|sign| real(sign, exponent, fraction)));
        }
    }
    for exponent in 0..128 {
        let fractions = [0, 1, FRACTIONS / 16, bounds(57).0, FRACTIONS - 1];
        reals.extend(fractions.map(|fraction| real(false, exponent, fraction)));
    }
    reals
}

#[cfg(test)]
mod tests {
    use super::*;

    #[test]
    fn the_exponents_are_those_with_a_fraction() {
        let some = |&exponent: &u64| {
            let (least, greatest) = bounds(exponent);
            least <= greatest && greatest < FRACTIONS
        };
        let exponents: Vec<u64> = (52..=70).filter(some).collect();
        assert_eq!(exponents, (EXPONENTS.0..=EXPONENTS.1).collect::<Vec<_>>());
    }

    #[test]
    fn the_usual_real_is_within_the_bounds() {
        let fraction = u64::from_be_bytes(NANOMETRE) % FRACTIONS;
        let (least, greatest) = bounds(57);
        assert!(least <= fraction && fraction <= greatest);
    }
}
