//! The unit of a stream: an eight-byte real with an exponent to base 16.

use super::mutation::Mutation;

/// The bounds of the value in 1/1,000,000 nm, where 1,000,000 of them are the nanometre.
const BOUNDS: (u128, u128) = (999_999, 1_000_001);

/// How many of these a metre has.
const IN_A_METRE: u128 = 1_000_000_000_000_000;

/// Whether the second real of the data is 10⁻⁹, or as near to it as is allowed.
pub fn is_nanometre(data: &[u8], wrong: Mutation) -> bool {
    let real = match wrong {
        Mutation::FirstReal => &data[..8],
        _ => &data[8..],
    };
    let negative = real[0] >= 128 && wrong != Mutation::UnitSignLost;
    let exponent = i32::from(real[0] % 128) - 64;
    let fraction = (real[1..].iter()).fold(0, |sum: u128, &byte| 256 * sum + u128::from(byte));
    match wrong {
        Mutation::UnitByFloat => return !negative && by_float(fraction, exponent),
        Mutation::UnitEqual => return !negative && as_float(fraction, exponent) == 1e-9,
        Mutation::UnitNormalised if real[1] < 16 => return false,
        _ => {}
    }
    let nearer = match wrong {
        Mutation::UnitOneAbove => fraction.saturating_sub(1),
        Mutation::UnitOneBelow => fraction + 1,
        _ => fraction,
    };
    // The value is the fraction times 2 to the power of 4 × exponent − 56.
    let shift = 4 * exponent - 56;
    let value = scaled(nearer * IN_A_METRE, shift);
    let bound = |bound: u128| scaled(bound, -shift);
    !negative && bound(BOUNDS.0) <= value && value <= bound(BOUNDS.1)
}

/// A number times 2 to a power. A negative power leaves it as it is: the other side of the comparison
/// grows instead. What does not fit is as large as can be.
fn scaled(number: u128, power: i32) -> u128 {
    match u32::try_from(power) {
        Ok(power) if number == 0 || power <= number.leading_zeros() => {
            number.checked_shl(power).unwrap_or(0)
        }
        Ok(_) => u128::MAX,
        Err(_) => number,
    }
}

fn as_float(fraction: u128, exponent: i32) -> f64 {
    fraction as f64 * 2_f64.powi(4 * exponent - 56)
}

fn by_float(fraction: u128, exponent: i32) -> bool {
    (as_float(fraction, exponent) * 1e9 - 1.0).abs() <= 1e-6
}
