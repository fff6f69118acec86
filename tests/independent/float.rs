//! Floats of 64 bits (IEEE 754, binary64) as the exact numbers that they are:
//! read from their bits, and found, by whole numbers alone.

/// A number from 0 up: the significand times two to the power of the exponent.
///
/// The highest bit of the significand is set. So of two numbers the one with
/// the higher exponent is greater, and the significands tell only where the
/// exponents are the same: the order of the fields. Nought has no highest bit,
/// and stands below all others by its exponent.
#[derive(Clone, Copy, PartialEq, Eq, PartialOrd, Ord, Debug)]
pub struct Magnitude {
    exponent: i32,
    significand: u64,
}

impl Magnitude {
    pub const NOUGHT: Magnitude = Magnitude { exponent: i32::MIN, significand: 0 };
    pub const ONE: Magnitude = Magnitude { exponent: -63, significand: 1 << 63 };

    pub fn new(significand: u64, exponent: i32) -> Magnitude {
        if significand == 0 {
            return Magnitude::NOUGHT;
        }
        let shift = significand.leading_zeros();
        Magnitude { exponent: exponent - shift as i32, significand: significand << shift }
    }

    /// How many of two to this power there are in it, which must be a whole
    /// number.
    pub fn in_units_of(self, power: i32) -> u128 {
        if self == Magnitude::NOUGHT {
            return 0;
        }
        let shift = self.exponent - power;
        let significand = self.significand as u128;
        if shift >= 0 {
            assert!(shift <= 64, "too many units");
            return significand << shift;
        }
        assert!(shift > -64 && significand % (1 << -shift) == 0, "a unit is cut");
        significand >> -shift
    }
}

/// What 64 bits stand for.
#[derive(Clone, Copy, PartialEq, Eq, Debug)]
pub enum Value {
    Finite { negative: bool, magnitude: Magnitude },
    Infinite { negative: bool },
    NotANumber,
}

/// A bit of sign, eleven of exponent and 52 of the significand.
pub fn value_of(bits: u64) -> Value {
    let negative = bits >> 63 == 1;
    let exponent = (bits >> 52) % 2048;
    let rest = bits % (1 << 52);
    match exponent {
        // Below the normal numbers the significand has no bit but its 52.
        0 => Value::Finite { negative, magnitude: Magnitude::new(rest, -1074) },
        2047 if rest == 0 => Value::Infinite { negative },
        2047 => Value::NotANumber,
        // To others it has one more, which is not written.
        _ => Value::Finite { negative, magnitude: Magnitude::new((1 << 52) + rest, exponent as i32 - 1075) },
    }
}

/// The bits of the float nearest to a fraction from 0 up to one; where two are
/// as near, of the one whose last bit is 0.
pub fn nearest(over: u128, under: u128) -> u64 {
    assert!(over < under && under < 1 << 64, "not a fraction of this size");
    if over == 0 {
        return 0;
    }
    // Doubled until its whole part has the 53 bits of a significand.
    let (mut doubled, mut times) = (over, 0_u64);
    while doubled < under << 52 {
        doubled *= 2;
        times += 1;
    }
    assert!(times < 1023 + 52, "below the normal numbers");
    let mut significand = whole_part(doubled, under);
    let twice_the_rest = 2 * (doubled - significand * under);
    if twice_the_rest > under || (twice_the_rest == under && significand % 2 == 1) {
        significand += 1;
    }
    // The unwritten bit of the significand adds one to the exponent; 2^53, to
    // which it can be rounded up, adds two, and is the next power of two.
    ((1023 + 52 - times - 1) << 52) + significand as u64
}

/// The whole part of a fraction below 2^53: the largest number that is not above
/// it, by trying each bit from the highest down.
fn whole_part(over: u128, under: u128) -> u128 {
    let mut whole = 0;
    for bit in (0..53).rev() {
        let more = whole + (1 << bit);
        if more * under <= over {
            whole = more;
        }
    }
    whole
}
