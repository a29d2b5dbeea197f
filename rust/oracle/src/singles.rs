//! Document 02, R-2: "IEEE single, with `+ - *`, unary minus and all comparisons, each operation
//! rounded once, to nearest, ties to even; its meaning is defined on the 32-bit patterns in whole
//! numbers". No operation of the hardware on floats is used.

use std::cmp::Ordering;

/// "Every stored not-a-number is the pattern 7FC00000".
const STORED_NOT_A_NUMBER: u32 = 0x7fc0_0000;

/// IEEE single: the bit of the sign.
const SIGN: u32 = 1 << 31;

/// IEEE single: an infinity's pattern without its sign; not-a-numbers are above it.
const INFINITY: u32 = 0xff << FRACTION_BITS;

/// IEEE single: how many bits of the fraction are kept.
const FRACTION_BITS: u32 = 23;

/// IEEE single: the leading digit of a normal single, which its pattern does not keep.
const LEADING: u32 = 1 << FRACTION_BITS;

/// IEEE single: the digits of a significand, the leading one among them.
const DIGITS: i32 = 24;

/// IEEE single: the smallest above zero is 2 to this power, and all are whole multiples of it.
const LEAST: i32 = -149;

/// A single whose last digit stands so many places below that of another does not change it in a
/// sum: it is less than a quarter of what the other is apart from its neighbours.
const FAR: i32 = 64;

/// A single that is neither an infinity nor a not-a-number: `significand` times 2 to `exponent`.
#[derive(Clone, Copy)]
struct Finite {
    negative: bool,
    significand: u128,
    exponent: i32,
}

/// IEEE single: a pattern's sign, exponent and fraction, of what is finite.
fn finite(pattern: u32) -> Finite {
    let field = (pattern & INFINITY) >> FRACTION_BITS;
    let fraction = pattern & (LEADING - 1);
    let (significand, exponent) = match field {
        0 => (fraction, LEAST),
        _ => (LEADING | fraction, LEAST - 1 + field as i32),
    };
    Finite {
        negative: is_negative(pattern),
        significand: u128::from(significand),
        exponent,
    }
}

/// IEEE single: whether the sign is set.
fn is_negative(pattern: u32) -> bool {
    pattern & SIGN != 0
}

/// "not-a-number": the greatest exponent with a fraction.
fn is_not_a_number(pattern: u32) -> bool {
    pattern & !SIGN > INFINITY
}

/// IEEE single: the greatest exponent without a fraction.
fn is_infinite(pattern: u32) -> bool {
    pattern & !SIGN == INFINITY
}

/// IEEE single: a pattern with this sign.
fn signed(negative: bool, pattern: u32) -> u32 {
    match negative {
        true => pattern | SIGN,
        false => pattern,
    }
}

/// "rounded once, to nearest, ties to even": of the digits the leading 24 are kept, or those
/// down to the smallest single's; past the largest finite single is an infinity.
fn rounded(value: Finite) -> u32 {
    let Finite {
        negative,
        significand,
        exponent,
    } = value;
    let digits = (u128::BITS - significand.leading_zeros()) as i32;
    let last = (exponent + digits - DIGITS).max(LEAST);
    // Dropping one digit more than there are already leaves less than half.
    let dropped = (last - exponent).min(digits + 1);
    let kept = match dropped {
        1.. => nearest(significand, dropped as u32),
        _ => significand << -dropped,
    };
    let leading = u128::from(LEADING);
    let pattern = match kept < leading {
        true => kept,
        false => (((last - LEAST + 1) as u128) << FRACTION_BITS) + kept - leading,
    };
    signed(negative, pattern.min(u128::from(INFINITY)) as u32)
}

/// "to nearest, ties to even", without so many of the last digits.
fn nearest(significand: u128, dropped: u32) -> u128 {
    let kept = significand >> dropped;
    let rest = significand - (kept << dropped);
    let half = 1 << (dropped - 1);
    match rest > half || rest == half && kept % 2 == 1 {
        true => kept + 1,
        false => kept,
    }
}

///
pub fn sum(one: u32, other: u32) -> u32 {
    if is_not_a_number(one) || is_not_a_number(other) {
        return STORED_NOT_A_NUMBER;
    }
    match (is_infinite(one), is_infinite(other)) {
        (true, true) if one != other => STORED_NOT_A_NUMBER,
        (true, _) => one,
        (_, true) => other,
        _ => finite_sum(finite(one), finite(other)),
    }
}

/// `+` of what is finite.
fn finite_sum(one: Finite, other: Finite) -> u32 {
    let (high, low) = match one.exponent >= other.exponent {
        true => (one, other),
        false => (other, one),
    };
    let apart = high.exponent - low.exponent;
    if apart > FAR {
        return rounded(high);
    }
    let (high_part, low_part) = (high.significand << apart, low.significand);
    let exponent = low.exponent;
    if high.negative == low.negative {
        return rounded(Finite {
            negative: high.negative,
            significand: high_part + low_part,
            exponent,
        });
    }
    if high_part == low_part {
        return 0;
    }
    let greater = high_part > low_part;
    rounded(Finite {
        negative: if greater { high.negative } else { low.negative },
        significand: high_part.max(low_part) - high_part.min(low_part),
        exponent,
    })
}

/// `-` between two.
pub fn difference(one: u32, other: u32) -> u32 {
    sum(one, minus(other))
}

///
pub fn product(one: u32, other: u32) -> u32 {
    let negative = is_negative(one) != is_negative(other);
    let is_zero = |pattern: u32| pattern & !SIGN == 0;
    if is_not_a_number(one) || is_not_a_number(other) {
        return STORED_NOT_A_NUMBER;
    }
    if is_infinite(one) || is_infinite(other) {
        return match is_zero(one) || is_zero(other) {
            true => STORED_NOT_A_NUMBER,
            false => signed(negative, INFINITY),
        };
    }
    let (one, other) = (finite(one), finite(other));
    rounded(Finite {
        negative,
        significand: one.significand * other.significand,
        exponent: one.exponent + other.exponent,
    })
}

/// "unary minus", which turns the sign and rounds nothing.
pub fn minus(pattern: u32) -> u32 {
    pattern ^ SIGN
}

/// where a single stands among all that are numbers: "Zero equals minus zero."
fn rank(pattern: u32) -> i64 {
    let size = i64::from(pattern & !SIGN);
    match is_negative(pattern) {
        true => -size,
        false => size,
    }
}

/// "all comparisons": how two stand to each other, in no order where one is a not-a-number.
pub fn order(one: u32, other: u32) -> Option<Ordering> {
    let numbers = !is_not_a_number(one) && !is_not_a_number(other);
    numbers.then(|| rank(one).cmp(&rank(other)))
}

/// "A constant is a whole number up to 16777216 followed by `.0`."
pub fn constant(whole: u32) -> u32 {
    rounded(Finite {
        negative: false,
        significand: u128::from(whole),
        exponent: 0,
    })
}

/// "Every stored not-a-number is the pattern 7FC00000".
pub fn stored(pattern: u32) -> u32 {
    match is_not_a_number(pattern) {
        true => STORED_NOT_A_NUMBER,
        false => pattern,
    }
}
